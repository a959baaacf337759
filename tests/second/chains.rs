//! Graphs that make given values, so that any operation on odd values below G can be one row of a checked graph.

use crate::digits::prefixes;
use crate::graph::{Row, ROW};

/// Adds the rows of an odd value's canonic form, each prefix from the one before; the index of the value. All rows are valid if
/// the value is below G.
pub fn add_chain(words: &mut Vec<u32>, value: u32) -> u32 {
    let mut index = 0;
    for p in prefixes(value) {
        words.extend([index, 0, p.gap, 0, p.s, 0, p.value]);
        index = (words.len() / ROW) as u32;
    }
    index
}

/// r and value as they would be without limits, of an n that is not 0 and of shifts that can be worked.
fn unlimited(words: [u32; 6]) -> Option<(u32, u32)> {
    let [_, u, v, l1, l2, s] = words;
    if l1 > 64 || l2 > 64 {
        return None;
    }
    let (left, right) = ((u as i128) << l1, (v as i128) << l2);
    let n = (if s % 2 == 0 { left + right } else { left - right }).abs();
    let r = n.trailing_zeros();
    (n != 0).then(|| (r, (n >> r) as u32))
}

/// The graph of an operation (b, u, v, l1, l2, s): chains for its operands, then its row. There are several where no r and value
/// could be right.
pub fn operated(words: [u32; 6]) -> Vec<Vec<u32>> {
    let [_, u, v, l1, l2, s] = words;
    let mut chains = Vec::new();
    let (i, j) = (add_chain(&mut chains, u), add_chain(&mut chains, v));
    let ends = match unlimited(words) {
        Some(end) => vec![end],
        None => vec![(0, 0), (0, 1), (32, 0), (64, 0), (64, 1)],
    };
    let with = |(r, value): (u32, u32)| {
        let row: Row = [i, j, l1, l2, s, r, value];
        [&chains[..], &row].concat()
    };
    ends.into_iter().map(with).collect()
}
