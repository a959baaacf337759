//! The canonic signed-digit form, found by search and not by a recoding.

use crate::constants::{wanted, Refusal};

/// 2^32 - 1 needs 33 digits; one more shows that length does not limit the search.
const LONGEST: usize = 34;

/// Extends `digits` (lowest first) in every allowed way to a form whose rest denotes `rest`.
fn search(rest: i64, digits: &mut Vec<i64>, found: &mut Vec<Vec<i64>>) {
    if rest == 0 {
        found.push(digits.clone());
        return;
    }
    if digits.len() == LONGEST {
        return;
    }
    let after_nonzero = digits.last().is_some_and(|&d| d != 0);
    for d in [-1, 0, 1] {
        if (rest - d) % 2 != 0 || (d != 0 && after_nonzero) {
            continue;
        }
        digits.push(d);
        search((rest - d) / 2, digits, found);
        digits.pop();
    }
}

/// Every canonic form of n, lowest digit first; zero has the empty form.
pub fn forms(n: u32) -> Vec<Vec<i64>> {
    let mut found = Vec::new();
    search(n as i64, &mut Vec::new(), &mut found);
    found
}

pub fn form(n: u32) -> Vec<i64> {
    let mut found = forms(n);
    assert_eq!(found.len(), 1, "canonic forms of {n}");
    found.remove(0)
}

/// The number that digits, lowest first, denote.
pub fn denoted(digits: &[i64]) -> i64 {
    digits.iter().rev().fold(0, |sum, d| 2 * sum + d)
}

pub fn nonzeros(n: u32) -> u32 {
    form(n).iter().filter(|&&d| d != 0).count() as u32
}

/// The form of a constant: how many digits are nonzero, and the places of the digits 1 and -1.
#[derive(Clone, Copy, PartialEq, Debug)]
pub struct Canonic {
    pub nonzero: u32,
    pub plus: u32,
    pub minus: u32,
}

/// The call on one constant, for which two words must be lent. Its negative has the opposite digits.
pub fn canonic(t: i32, buffer_words: usize) -> Result<Canonic, Refusal> {
    if buffer_words < 2 {
        return Err((4, 0));
    }
    let sign = if t < 0 { -1 } else { 1 };
    let digits: Vec<i64> = form(t.unsigned_abs()).iter().map(|d| sign * d).collect();
    let places = |digit: i64| (0..digits.len()).filter(|&k| digits[k] == digit).map(|k| 1u32 << k).sum();
    let nonzero = digits.iter().filter(|&&d| d != 0).count() as u32;
    Ok(Canonic { nonzero, plus: places(1), minus: places(-1) })
}

#[derive(Clone, Copy, PartialEq, Debug)]
pub struct Prefix {
    pub before: u32,
    pub gap: u32,
    pub s: u32,
    pub value: u32,
}

/// The prefixes that end at a nonzero digit, shortest first, without the first one.
pub fn prefixes(n: u32) -> Vec<Prefix> {
    let digits = form(n);
    let ends: Vec<usize> = (0..digits.len()).rev().filter(|&i| digits[i] != 0).collect();
    let mut list = Vec::new();
    for pair in ends.windows(2) {
        list.push(Prefix {
            before: denoted(&digits[pair[0]..]) as u32,
            gap: (pair[0] - pair[1]) as u32,
            s: if digits[pair[1]] == 1 { 0 } else { 1 },
            value: denoted(&digits[pair[1]..]) as u32,
        });
    }
    list
}

/// Condition 3's sum over the wanted set.
pub fn csd_sum(targets: &[i32]) -> u32 {
    wanted(targets).iter().map(|&odd| nonzeros(odd) - 1).sum()
}
