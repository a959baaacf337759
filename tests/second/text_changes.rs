//! Job texts with a byte changed; many of them are still good.

use crate::draw::one_of;
use crate::generate_cases::mixed_lists;
use crate::rng::Rng;
use crate::text_cases::{ended, list, text, Pile, EXAMPLE, REPORTS};

/// The bytes from `from` to `to` replaced.
fn changed(old: &[u8], from: usize, to: usize, new: &[u8]) -> Vec<u8> {
    [&old[..from], new, &old[to..]].concat()
}

/// The place just after these bytes.
fn after(whole: &str, part: &str) -> usize {
    whole.find(part).expect("part of the text") + part.len()
}

/// Each of the 256 bytes, put in or put instead of another, where each means something else.
fn every_byte(pile: &mut Pile) {
    let whole = ended(&EXAMPLE);
    for byte in 0..=255 {
        for part in ["", "bits=", "bits=8", "report=", "targets=45", "-20,0\n"] {
            let at = after(&whole, part);
            pile.add("every byte put in", changed(whole.as_bytes(), at, at, &[byte]));
        }
        // Instead of a letter, an equals sign, a digit, two line feeds, a comma and a minus.
        for part in ["", "bits", "bits=", "input=12", "targets=45", "targets=45,", "-20,0"] {
            let at = after(&whole, part);
            pile.add("every byte instead", changed(whole.as_bytes(), at, at + 1, &[byte]));
        }
    }
}

/// Some bytes at every place of the example, and every byte of it left out, doubled or swapped.
fn every_place(pile: &mut Pile) {
    let whole = ended(&EXAMPLE).into_bytes();
    for at in 0..=whole.len() {
        for byte in *b"\0\n\r 0-,=\xff" {
            pile.add("some bytes at every place", changed(&whole, at, at, &[byte]));
        }
    }
    for at in 0..whole.len() {
        let byte = whole[at];
        pile.add("every byte left out", changed(&whole, at, at + 1, &[]));
        pile.add("every byte doubled", changed(&whole, at, at, &[byte]));
        for other in [byte ^ 0x20, byte ^ 0x80, byte.wrapping_add(1), byte.wrapping_sub(1)] {
            pile.add("every byte made another", changed(&whole, at, at + 1, &[other]));
        }
        if at > 0 {
            let swapped = [byte, whole[at - 1]];
            pile.add("every two neighbours swapped", changed(&whole, at - 1, at + 1, &swapped));
        }
    }
}

/// A byte that often leaves a text good, or nearly so.
fn likely(rng: &mut Rng) -> u8 {
    let any = rng.word() as u8;
    one_of(rng, &[b'0', b'1', b'2', b'3', b'7', b'9', b'-', b',', b'\n', b'=', b'w', any])
}

/// What a change is called, and the change.
const CHANGES: [(&str, fn(&mut Rng, &[u8]) -> Vec<u8>); 4] = [
    ("one byte left out", |rng, old| {
        let at = rng.below(old.len() as u32) as usize;
        changed(old, at, at + 1, &[])
    }),
    ("one byte put in", |rng, old| {
        let at = rng.below(old.len() as u32 + 1) as usize;
        changed(old, at, at, &[likely(rng)])
    }),
    ("one byte replaced", |rng, old| {
        let at = rng.below(old.len() as u32) as usize;
        changed(old, at, at + 1, &[likely(rng)])
    }),
    ("two bytes swapped", |rng, old| {
        let mut new = old.to_vec();
        let at = rng.below(old.len() as u32) as usize;
        // Within a line if it can be, since across lines little is left good.
        new.swap(at, (at + rng.span(1, 9) as usize).min(old.len() - 1));
        new
    }),
];

/// Good texts of every b and every length of the list.
fn good_texts(rng: &mut Rng) -> Vec<String> {
    let one = |(b, targets): (u32, Vec<i32>)| {
        text(b, rng.span(2, 32), one_of(rng, &REPORTS), &list(&targets))
    };
    mixed_lists().into_iter().map(one).collect()
}

/// Most changes fall on the list, where most bytes are.
fn random_changes(pile: &mut Pile) {
    let mut rng = Rng::new(116);
    let good = good_texts(&mut rng);
    for (class, change) in CHANGES {
        for _ in 0..150 {
            let old = one_of(&mut rng, &good.iter().collect::<Vec<_>>());
            let new = change(&mut rng, old.as_bytes());
            pile.add(class, new);
        }
    }
    for _ in 0..150 {
        let mut new = one_of(&mut rng, &good.iter().collect::<Vec<_>>()).as_bytes().to_vec();
        for _ in 0..rng.span(2, 4) {
            new = one_of(&mut rng, &CHANGES).1(&mut rng, &new);
        }
        pile.add("several changes", new);
    }
}

/// Good and bad values in all lines at random: how many go wrong, and where, is left to chance.
fn random_lines(pile: &mut Pile) {
    let mut rng = Rng::new(117);
    let numbers = ["8", "12", "2", "16", "9", "10", "32", "-8", "0", "33", "08", "+8", "", "8 "];
    let reports = ["width", "row", "width", "row", "width", "row", "Row", "", "rows"];
    let items = ["3", "-20", "45", "0", "1", "64", "255", "-255", "257", "2147483648", "-0", ""];
    for _ in 0..400 {
        let count = if rng.below(20) == 0 { rng.span(16, 18) } else { rng.span(1, 4) };
        // The first items are good under most of the limits, and the later the rarer.
        let mut pick = || items[rng.below(items.len() as u32).min(rng.below(16)) as usize];
        let targets: Vec<&str> = (0..count).map(|_| pick()).collect();
        let (bits, input) = (one_of(&mut rng, &numbers[..]), one_of(&mut rng, &numbers));
        let report = one_of(&mut rng, &reports);
        pile.add("lines at random", text(bits, input, report, &targets.join(",")));
    }
}

pub fn add_changed(pile: &mut Pile) {
    every_byte(pile);
    every_place(pile);
    random_changes(pile);
    random_lines(pile);
}
