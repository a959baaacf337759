//! The generator's rule A, B, C, by plain search.

use crate::constants::{admit, wanted, Refusal};
use crate::digits::prefixes;
use crate::distance::{reached, smallest_server};
use crate::graph::{Row, MAX_ROWS, ROW};
use crate::operation::{operate, shapes};

struct Draft {
    b: u32,
    rows: Vec<Row>,
    /// values[i] is the value of index i.
    values: Vec<u32>,
}

impl Draft {
    fn add(&mut self, row: Row) -> Result<(), Refusal> {
        if self.rows.len() == MAX_ROWS {
            return Err((8, 0));
        }
        self.rows.push(row);
        self.values.push(row[ROW - 1]);
        Ok(())
    }

    fn index(&self, value: u32) -> u32 {
        let found = self.values.iter().position(|&v| v == value);
        found.expect("a ready value") as u32
    }

    /// The first valid row for the value in the order u index, v index, l1, l2, s.
    fn first_row(&self, value: u32) -> Row {
        let shapes = shapes(self.b);
        for i in 0..self.values.len() {
            for j in i..self.values.len() {
                for &(l1, l2, s) in &shapes {
                    match operate(self.b, self.values[i], self.values[j], l1, l2, s) {
                        Some(o) if o.value == value => {
                            return [i as u32, j as u32, l1, l2, s, o.r, value];
                        }
                        _ => {}
                    }
                }
            }
        }
        panic!("no row for {value}, though it was reached");
    }

    fn search_row(&mut self, value: u32) -> Result<(), Refusal> {
        let row = self.first_row(value);
        self.add(row)
    }

    fn digit_rows(&mut self, target: u32) -> Result<(), Refusal> {
        for p in prefixes(target) {
            if !self.values.contains(&p.value) {
                let u = self.index(p.before);
                self.add([u, 0, p.gap, 0, p.s, 0, p.value])?;
            }
        }
        Ok(())
    }

    /// One round of the rule; `left` is ascending and not empty.
    fn step(&mut self, left: &[u32]) -> Result<(), Refusal> {
        let hit = reached(self.b, &self.values);
        if let Some(&c) = left.iter().find(|&&c| hit[c as usize]) {
            return self.search_row(c);
        }
        for &c in left {
            if let Some(s) = smallest_server(self.b, &self.values, &hit, c) {
                self.search_row(s)?;
                return self.search_row(c);
            }
        }
        self.digit_rows(left[0])
    }
}

pub fn generate(b: u32, targets: &[i32], buffer_words: usize) -> Result<Vec<Row>, Refusal> {
    admit(b, targets)?;
    if buffer_words < MAX_ROWS * ROW {
        return Err((4, 0));
    }
    let mut draft = Draft { b, rows: Vec::new(), values: vec![1] };
    let mut left = wanted(targets);
    while !left.is_empty() {
        draft.step(&left)?;
        left.retain(|c| !draft.values.contains(c));
    }
    Ok(draft.rows)
}
