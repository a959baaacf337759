//! Texts as files, each with what the program must print, for running the program itself.

use crate::rng::Rng;
use crate::text::printed;
use crate::text_cases::texts;
use crate::text_faults::overlong;
use std::collections::HashMap;
use std::path::Path;

/// About a page, about what a pipe holds, and several megabytes: too long to be cases.
const SIZES: [usize; 7] = [4095, 4096, 4097, 65535, 65536, 65537, 5_000_000];

/// For each text how many of its class come before it.
fn turns(all: &[(String, Vec<u8>)]) -> Vec<usize> {
    let mut seen = HashMap::new();
    let turn = |text: &(String, Vec<u8>)| {
        let count = seen.entry(text.0.clone()).or_insert(0);
        *count += 1;
        *count - 1
    };
    all.iter().map(turn).collect()
}

/// The longest texts, then one of each class, another of each class, and so on while there are any;
/// drawn within a class, since its first ones are often alike.
pub fn chosen(count: usize) -> Vec<(String, Vec<u8>)> {
    let mut rng = Rng::new(118);
    let mut all = texts();
    for i in (1..all.len()).rev() {
        all.swap(i, rng.below(i as u32 + 1) as usize);
    }
    let mut by_turn: Vec<_> = turns(&all).into_iter().zip(all).collect();
    by_turn.sort_by_key(|(turn, text)| (*turn, text.0.clone()));
    let huge = SIZES.iter().enumerate().map(|(i, &size)| {
        let sorts = overlong(size);
        ("job far over 256 bytes".to_string(), sorts[i % sorts.len()].clone())
    });
    huge.chain(by_turn.into_iter().map(|(_, text)| text)).take(count).collect()
}

fn write_all(directory: &Path, count: usize) -> std::io::Result<()> {
    std::fs::create_dir_all(directory)?;
    for (i, (class, text)) in chosen(count).into_iter().enumerate() {
        let name = format!("{:03}", i + 1);
        println!("{name} {class}");
        std::fs::write(directory.join(name.clone() + ".job"), &text)?;
        std::fs::write(directory.join(name + ".out"), printed(&text))?;
    }
    Ok(())
}

/// Whether all could be written.
pub fn write(directory: &str, count: usize) -> bool {
    let written = write_all(Path::new(directory), count);
    if let Err(error) = &written {
        eprintln!("{error}");
    }
    written.is_ok()
}
