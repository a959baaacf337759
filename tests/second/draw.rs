//! Material for the cases: targets, rows, graphs.

use crate::constants::{ceiling, limit};
use crate::graph::{value_at, Row, ROW};
use crate::operation::operate;
use crate::rng::Rng;

pub const OUTSIDE_BITS: [u32; 9] = [0, 1, 17, 18, 31, 32, 64, 0x8000_0000, u32::MAX];
pub const HUGE: [u32; 8] = [31, 32, 33, 63, 64, 128, 0x8000_0000, u32::MAX];
pub const THREE: Row = [0, 0, 0, 1, 0, 0, 3];

/// A target that passes under b, zero and powers of two among them.
pub fn passing(rng: &mut Rng, b: u32) -> i32 {
    let size = (rng.odd(b) as i64) << rng.span(0, 31 - b);
    let sign = rng.below(5) as i64 - 2;
    (size * sign.signum()) as i32
}

/// A target of odd part at least 2^b; the nearest odd part, or the highest, is not rare.
pub fn failing(rng: &mut Rng, b: u32) -> i32 {
    let low = 1u32 << b;
    let odd = match rng.below(4) {
        0 => low + 1,
        1 => i32::MAX as u32,
        _ => rng.span(low, i32::MAX as u32) | 1,
    };
    shifted(rng, odd)
}

/// The odd number with some shift that 32 bits allow, and either sign.
pub fn shifted(rng: &mut Rng, odd: u32) -> i32 {
    let shift = rng.below(odd.leading_zeros());
    let size = (odd << shift) as i32;
    if rng.below(2) == 0 { size } else { -size }
}

/// Any of these.
pub fn one_of<T: Copy>(rng: &mut Rng, list: &[T]) -> T {
    list[rng.below(list.len() as u32) as usize]
}

/// A valid row on top of these words, drawn until one is valid.
pub fn random_row(rng: &mut Rng, b: u32, words: &[u32]) -> Row {
    let count = (words.len() / ROW) as u32;
    loop {
        let (u, v) = (rng.below(count + 1), rng.below(count + 1));
        let (values, s) = ([u, v].map(|i| value_at(words, i as u64)), rng.below(2));
        let shift = rng.below(limit(b) + 1);
        let (l1, l2) = match rng.below(3) {
            0 => (0, 0),
            1 => (shift, 0),
            _ => (0, shift),
        };
        if let Some(o) = operate(b, values[0], values[1], l1, l2, s) {
            return [u, v, l1, l2, s, o.r, o.value];
        }
    }
}

/// A way to draw one more valid row on top of words.
pub type Pick = fn(&mut Rng, u32, &[u32]) -> Row;

pub fn grown(rng: &mut Rng, b: u32, count: u32, pick: Pick) -> Vec<u32> {
    let mut words = Vec::new();
    for _ in 0..count {
        let row = pick(rng, b, &words);
        words.extend(row);
    }
    words
}

pub fn random_graph(rng: &mut Rng, b: u32, count: u32) -> Vec<u32> {
    grown(rng, b, count, random_row)
}

/// Second rows after THREE, right and wrong, each at one edge of validity.
pub fn special_rows(b: u32) -> Vec<(&'static str, Row)> {
    let g = ceiling(b);
    let mut list = vec![
        ("both shifts positive", [0, 1, 1, 1, 0, 3, 1]),
        ("both shifts positive", [0, 0, 1, 2, 0, 1, 3]),
        ("both shifts positive", [0, 0, 1, 2, 0, 0, 6]),
        ("shift b + 1", [0, 0, b + 1, 0, 1, 0, g - 1]),
        ("shift b + 1", [0, 0, 0, b + 1, 1, 0, g - 1]),
        ("shift b + 2", [0, 0, b + 2, 0, 1, 0, 2 * g - 1]),
        ("shift b + 2", [0, 0, 0, b + 2, 1, 0, 2 * g - 1]),
        ("shift b + 2", [1, 0, b + 2, 0, 0, 0, 6 * g + 1]),
        ("value at least G", [0, 0, b + 1, 0, 0, 0, g + 1]),
        ("value at least G", [0, 0, 0, b + 1, 0, 0, g + 1]),
        ("value at least G", [1, 0, b + 1, 0, 1, 0, 3 * g - 1]),
        ("value even", [1, 0, 0, 0, 0, 0, 4]),
        ("value even", [1, 0, 0, 0, 0, 1, 2]),
        ("value even", [1, 0, 0, 0, 0, 2, 1]),
        ("value even", [1, 1, 0, 0, 0, 0, 6]),
        ("value even", [1, 1, 0, 0, 0, 1, 3]),
        ("negative n", [0, 1, 0, 0, 1, 1, 1]),
        ("negative n", [0, 1, 0, 0, 1, 0, 2]),
        ("negative n", [0, 1, 0, 0, 1, 1, u32::MAX]),
    ];
    for (r, value) in [(0, 0), (0, 1), (0, 3), (32, 0), (64, 1), (u32::MAX, 0)] {
        list.push(("n = 0", [1, 1, 0, 0, 1, r, value]));
        list.push(("n = 0", [0, 0, 0, 0, 1, r, value]));
    }
    list
}
