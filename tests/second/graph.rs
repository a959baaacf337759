//! Graphs as words, and check.

use crate::constants::{admit, take_apart, Refusal};
use crate::operation::agrees;

/// Words in a row.
pub const ROW: usize = 7;
pub const MAX_ROWS: usize = 128;

pub type Row = [u32; ROW];

/// Row i, from 1, if it is wholly within the slice.
pub fn row_at(words: &[u32], i: u64) -> Option<&[u32]> {
    if i == 0 || i as u128 * ROW as u128 > words.len() as u128 {
        return None;
    }
    let start = (i as usize - 1) * ROW;
    Some(&words[start..start + ROW])
}

/// The value of an index; the input has 1.
pub fn value_at(words: &[u32], index: u64) -> u32 {
    match index {
        0 => 1,
        i => row_at(words, i).expect("index within the slice")[ROW - 1],
    }
}

pub fn row_valid(b: u32, i: u64, words: &[u32]) -> bool {
    let Some(row) = row_at(words, i) else {
        return false;
    };
    let (u, v) = (row[0] as u64, row[1] as u64);
    u < i && v < i && agrees(b, value_at(words, u), value_at(words, v), row)
}

/// The lowest index that has this value.
pub fn index_of(row_count: usize, words: &[u32], value: u32) -> Option<usize> {
    (0..=row_count).find(|&i| value_at(words, i as u64) == value)
}

pub fn check(b: u32, targets: &[i32], row_count: usize, words: &[u32]) -> Result<(), Refusal> {
    admit(b, targets)?;
    if row_count > MAX_ROWS || row_count * ROW > words.len() {
        return Err((5, 0));
    }
    for i in 1..=row_count {
        if !row_valid(b, i as u64, words) {
            return Err((6, i as u32));
        }
    }
    for (i, &t) in targets.iter().enumerate() {
        let odd = take_apart(t).odd;
        if odd > 1 && index_of(row_count, words, odd).is_none() {
            return Err((7, i as u32 + 1));
        }
    }
    Ok(())
}

#[derive(Clone, Copy, PartialEq, Debug)]
pub struct Output {
    pub index: usize,
    pub shift: u32,
    pub sign: i32,
}

/// The output of a target in an accepted graph.
pub fn output(row_count: usize, words: &[u32], t: i32) -> Output {
    let apart = take_apart(t);
    let index = match apart.sign {
        0 => 0,
        _ => index_of(row_count, words, apart.odd).expect("accepted graph"),
    };
    Output { index, shift: apart.shift, sign: apart.sign }
}

pub fn flatten(rows: &[Row]) -> Vec<u32> {
    rows.concat()
}
