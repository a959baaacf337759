//! Widths of rows and outputs, and the ranking.

use crate::constants::Refusal;
use crate::graph::{check, value_at};

/// The least e with 2^e at least value.
pub fn bits(value: u32) -> u32 {
    let mut e = 0;
    while (1u64 << e) < value as u64 {
        e += 1;
    }
    e
}

pub fn row_width(w: u32, value: u32) -> u32 {
    w + bits(value)
}

pub fn output_width(w: u32, t: i32) -> u32 {
    if t == 0 { 1 } else { w + bits(t.unsigned_abs()) }
}

/// A graph with the list it is to serve.
#[derive(Clone, Copy)]
pub struct Job<'a> {
    pub b: u32,
    pub targets: &'a [i32],
    pub row_count: usize,
    pub words: &'a [u32],
}

/// As check, then 9, then 4.
fn refuse(job: Job, w: u32, buffer_words: usize, needed: usize) -> Result<(), Refusal> {
    check(job.b, job.targets, job.row_count, job.words)?;
    if !(2..=32).contains(&w) {
        return Err((9, 0));
    }
    if buffer_words < needed {
        return Err((4, 0));
    }
    Ok(())
}

fn row_widths(job: Job, w: u32) -> Vec<u32> {
    (1..=job.row_count as u64).map(|i| row_width(w, value_at(job.words, i))).collect()
}

/// Rows in row order, then outputs.
pub fn widths(job: Job, w: u32, buffer_words: usize) -> Result<Vec<u32>, Refusal> {
    refuse(job, w, buffer_words, job.row_count.saturating_add(job.targets.len()))?;
    let mut list = row_widths(job, w);
    list.extend(job.targets.iter().map(|&t| output_width(w, t)));
    Ok(list)
}

/// Tries every width from the widest possible down, and within it every row upwards.
pub fn ranking(job: Job, w: u32, buffer_words: usize) -> Result<Vec<u32>, Refusal> {
    refuse(job, w, buffer_words, job.row_count)?;
    let list = row_widths(job, w);
    let mut rows = Vec::new();
    for width in (0..=64).rev() {
        for (i, &mine) in list.iter().enumerate() {
            if mine == width {
                rows.push(i as u32 + 1);
            }
        }
    }
    Ok(rows)
}
