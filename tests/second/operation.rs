//! The operation on two odd values.

use crate::constants::{bits_in_range, ceiling, limit};

#[derive(Clone, Copy, PartialEq, Debug)]
pub struct Outcome {
    pub n: i64,
    pub r: u32,
    pub value: u32,
}

/// The outcome of the valid operation of these words, if there is one.
pub fn operate(b: u32, u: u32, v: u32, l1: u32, l2: u32, s: u32) -> Option<Outcome> {
    if !bits_in_range(b) || u % 2 == 0 || v % 2 == 0 || s > 1 {
        return None;
    }
    if l1 > limit(b) || l2 > limit(b) || (l1 > 0 && l2 > 0) {
        return None;
    }
    // At most 2^32 * 2^17 twice: far within 64 bits.
    let left = (1i64 << l1) * u as i64;
    let right = (1i64 << l2) * v as i64;
    let n = if s == 0 { left + right } else { left - right };
    if n == 0 {
        return None;
    }
    let mut size = if n < 0 { -n } else { n };
    let mut r = 0;
    while size % 2 == 0 {
        size /= 2;
        r += 1;
    }
    if size >= ceiling(b) as i64 {
        return None;
    }
    Some(Outcome { n, r, value: size as u32 })
}

/// Whether a row's seven words agree with a valid operation on operands of these values.
pub fn agrees(b: u32, u: u32, v: u32, words: &[u32]) -> bool {
    match operate(b, u, v, words[2], words[3], words[4]) {
        Some(outcome) => outcome.r == words[5] && outcome.value == words[6],
        None => false,
    }
}

/// Every (l1, l2, s) in the generator's order that an operation may have.
pub fn shapes(b: u32) -> Vec<(u32, u32, u32)> {
    let mut list = Vec::new();
    for l1 in 0..=limit(b) {
        for l2 in 0..=limit(b) {
            for s in 0..=1 {
                if l1 == 0 || l2 == 0 {
                    list.push((l1, l2, s));
                }
            }
        }
    }
    list
}
