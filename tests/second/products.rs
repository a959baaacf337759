//! Products, worked row by row as the words say.

use crate::constants::Refusal;
use crate::graph::{check, output, row_at, value_at};

/// The sum or difference a row names, of two whole numbers, before sign and right shift.
fn combined(row: &[u32], u: i128, v: i128) -> i128 {
    let (left, right) = (u << row[2], v << row[3]);
    if row[4] == 0 { left + right } else { left - right }
}

/// The products of index 0 and of every row of an accepted graph.
pub fn row_products(row_count: usize, words: &[u32], x: i32) -> Vec<i128> {
    let mut list = vec![x as i128];
    for i in 1..=row_count as u64 {
        let row = row_at(words, i).expect("accepted graph");
        let (u, v) = (row[0] as usize, row[1] as usize);
        let sum = combined(row, list[u], list[v]);
        let n = combined(row, value_at(words, u as u64) as i128, value_at(words, v as u64) as i128);
        // The coefficient's sign decides, never the sign of the data.
        let turned = if n < 0 { -sum } else { sum };
        let divisor = 1i128 << row[5];
        assert_eq!(turned % divisor, 0, "right shift of row {i}");
        list.push(turned / divisor);
    }
    list
}

pub fn products(
    b: u32,
    targets: &[i32],
    row_count: usize,
    words: &[u32],
    x: i32,
    buffer_words: usize,
) -> Result<Vec<i64>, Refusal> {
    check(b, targets, row_count, words)?;
    if buffer_words < targets.len() {
        return Err((4, 0));
    }
    let rows = row_products(row_count, words, x);
    let product = |&t: &i32| {
        let out = output(row_count, words, t);
        let whole = out.sign as i128 * (1i128 << out.shift) * rows[out.index];
        i64::try_from(whole).expect("target products fit 64 bits")
    };
    Ok(targets.iter().map(product).collect())
}
