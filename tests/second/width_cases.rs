//! The bits of single values: widths of graphs that make one target, or one row of a value.

use crate::book::{Book, Call};
use crate::chains::add_chain;
use crate::constants::take_apart;
use crate::graph::ROW;
use crate::rng::Rng;

/// The highest bit limit, so that no odd part below 2^16 and no row's value below 2^17 is left out.
const BITS: u32 = 16;

fn push(book: &mut Book, class: &str, targets: &[i32], words: Vec<u32>, input: u32) {
    let rows = (words.len() / ROW) as u32;
    let call = Call { b: BITS, targets: targets.to_vec(), rows, words };
    book.widths(&format!("widths {class}"), &call, input, rows + targets.len() as u32);
}

/// The output of one target, whose odd part is below 2^16.
fn push_output(book: &mut Book, class: &str, t: i32, input: u32) {
    let mut words = Vec::new();
    add_chain(&mut words, take_apart(t).odd.max(1));
    push(book, class, &[t], words, input);
}

/// Of magnitude value, which is below 2^31 or is that: the 16 highest bits alone, so that the list passes, with either sign.
fn push_cut(book: &mut Book, rng: &mut Rng, class: &str, value: u32) {
    let low = (32 - value.leading_zeros()).saturating_sub(16);
    let size = (value >> low << low) as i32;
    let t = if rng.below(2) == 0 { size } else { size.wrapping_neg() };
    push_output(book, class, t, rng.span(2, 32));
}

/// The nearest numbers below and above a power of two that a list may have.
fn around_powers() -> Vec<u32> {
    let near = |k: u32| {
        let power = 1u32 << k;
        [power - (1 << k.saturating_sub(16)), power, power + (1 << k.saturating_sub(15))]
    };
    (0..31).flat_map(near).chain([(1 << 31) - (1 << 15), 1 << 31]).collect()
}

fn outputs(book: &mut Book, rng: &mut Rng) {
    for value in 0..=300 {
        push_output(book, "of small outputs", value, rng.span(2, 32));
        push_output(book, "of small outputs", -value, rng.span(2, 32));
    }
    for value in around_powers() {
        for input in [2, 32, rng.span(3, 31)] {
            push_output(book, "of outputs around powers", value as i32, input);
            push_output(book, "of outputs around powers", (value as i32).wrapping_neg(), input);
        }
    }
    for _ in 0..200 {
        let (drawn, cut) = (rng.word() >> 1, rng.below(31));
        push_cut(book, rng, "of drawn outputs", drawn);
        push_cut(book, rng, "of drawn outputs", drawn >> cut);
    }
}

fn rows(book: &mut Book, rng: &mut Rng) {
    let around = (1..=16).flat_map(|k| [(1u32 << k) - 1, (1 << k) + 1]).chain([(1 << 17) - 1]);
    for value in (3..=301).step_by(2).chain(around) {
        let mut words = Vec::new();
        add_chain(&mut words, value);
        push(book, "of one value's rows", &[0], words, rng.span(2, 32));
    }
}

pub fn kind_width(book: &mut Book) {
    let mut rng = Rng::new(106);
    outputs(book, &mut rng);
    rows(book, &mut rng);
}
