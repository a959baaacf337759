//! The second program: document 01 once more, by trying everything.

mod book;
mod cases;
mod chains;
mod constant_cases;
mod constants;
mod digits;
mod distance;
mod distance_cases;
mod draw;
mod format_cases;
mod generate_cases;
mod generator;
mod graph;
mod graph_cases;
mod jobs;
mod list_cases;
mod operation;
mod papers;
mod pool;
mod products;
mod rng;
mod row_cases;
mod selftest;
mod selftest_cases;
mod selftest_rows;
mod selftest_text;
mod text;
mod text_cases;
mod text_changes;
mod text_faults;
mod width_cases;
mod widths;

use std::io::{Read, Write};
use std::process::exit;

const USAGE: &str = "usage:
  second selftest
  second cases CASES ANSWERS [SEED] (cases of every kind in the format of tests/README.md, one a line, and their answers)
  second job (what the program prints for the text on standard input)
  second jobs DIRECTORY COUNT (texts NNN.job, and what the program prints for each: NNN.out)";

/// All of the input is read, since one byte too many changes the answer.
fn job() -> bool {
    let mut text = Vec::new();
    let read = std::io::stdin().read_to_end(&mut text);
    let done = read.and_then(|_| std::io::stdout().write_all(text::printed(&text).as_bytes()));
    done.is_ok()
}

fn main() {
    let arguments: Vec<String> = std::env::args().skip(1).collect();
    let words: Vec<&str> = arguments.iter().map(|a| a.as_str()).collect();
    let fine = match words[..] {
        ["selftest"] => Some(selftest::run()),
        ["cases", cases, expected] => Some(cases::write(cases, expected)),
        ["cases", cases, expected, seed] => seed.parse().ok().map(|seed| {
            rng::start(seed);
            cases::write(cases, expected)
        }),
        ["job"] => Some(job()),
        ["jobs", directory, count] => count.parse().ok().map(|n| jobs::write(directory, n)),
        _ => None,
    };
    let Some(fine) = fine else {
        eprintln!("{USAGE}");
        exit(2)
    };
    exit(if fine { 0 } else { 1 })
}
