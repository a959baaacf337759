//! Single operations and single rows, each as the last row of a graph that is checked.

use crate::book::{Book, Call};
use crate::chains::{add_chain, operated};
use crate::constants::{ceiling, limit};
use crate::draw::{random_graph, random_row, special_rows, HUGE, OUTSIDE_BITS, THREE};
use crate::graph::{flatten, ROW};
use crate::operation::shapes;
use crate::rng::Rng;
use crate::widths::bits;

/// The first `rows` rows, for a list that needs none.
fn push(book: &mut Book, class: &str, b: u32, rows: u32, words: &[u32]) {
    let call = Call { b, targets: vec![1], rows, words: words.to_vec() };
    book.check(&format!("check {class}"), &call);
}

/// The words are b, u, v, l1, l2, s.
fn push_operation(book: &mut Book, class: &str, words: [u32; 6]) {
    for graph in operated(words) {
        push(book, class, words[0], (graph.len() / ROW) as u32, &graph);
    }
}

/// Words of a random operation with one shift 0; the shifts grow as the operands shrink.
pub fn sensible(rng: &mut Rng, b: u32) -> [u32; 6] {
    let (u, v) = (rng.odd(limit(b)), rng.odd(limit(b)));
    let s = rng.below(2);
    let room = |w: u32| limit(b).saturating_sub(bits(w)) + 1;
    match rng.below(3) {
        0 => [b, u, v, 0, 0, s],
        1 => [b, u, v, rng.below(room(u) + 1).min(limit(b)), 0, s],
        _ => [b, u, v, 0, rng.below(room(v) + 1).min(limit(b)), s],
    }
}

fn at_ceiling(book: &mut Book) {
    for b in 2..=16 {
        let g = ceiling(b);
        let class = "operation at G";
        for s in 0..=1 {
            push_operation(book, class, [b, 1, 1, b + 1, 0, s]);
            push_operation(book, class, [b, 1, 1, 0, b + 1, s]);
            push_operation(book, class, [b, 1, 1, b + 2, 0, s]);
            push_operation(book, class, [b, 1, 1, 0, b + 2, s]);
            push_operation(book, class, [b, g - 1, g - 1, 0, 0, s]);
            push_operation(book, class, [b, g + 1, g + 1, 0, 0, s]);
            push_operation(book, class, [b, g - 1, g + 1, 0, 0, s]);
            push_operation(book, class, [b, g + 1, g - 1, 0, 0, s]);
            push_operation(book, class, [b, g / 2 + 1, 1, 1, 0, s]);
            push_operation(book, class, [b, 3, g / 2 + 1, 0, 1, s]);
            push_operation(book, class, [b, g - 1, 1, b + 1, 0, s]);
            push_operation(book, class, [b, g - 1, 1, 0, b + 1, s]);
        }
    }
}

fn named(book: &mut Book, rng: &mut Rng) {
    for words in [[8, 5, 1, 0, 0, 0], [8, 3, 3, 0, 4, 1], [8, 1, 7, 6, 0, 0], [8, 1, 1, 0, 3, 1]] {
        push_operation(book, "operation of named sums", words);
    }
    for b in 2..=16 {
        for u in [1, 3, ceiling(b) - 1, ceiling(b) + 1, u32::MAX, rng.odd(limit(b))] {
            push_operation(book, "operation u = v", [b, u, u, 0, 0, 1]);
            push_operation(book, "operation u = v", [b, u, u, 0, 0, 0]);
        }
    }
}

/// Each sensible operation with one of its words spoiled.
fn spoiled(book: &mut Book, rng: &mut Rng) {
    for _ in 0..60 {
        let b = rng.span(2, 16);
        let mut spoil = |class, at: usize, word: u32| {
            let mut words = sensible(rng, b);
            words[at] = word;
            push_operation(book, class, words);
        };
        spoil("operation s not 0 or 1", 5, 2);
        spoil("operation s not 0 or 1", 5, u32::MAX);
        spoil("operation shift b + 2", 3, b + 2);
        spoil("operation shift b + 2", 4, b + 2);
        push_operation(book, "operation both shifts positive", [b, 1, 1, 1, 1, 0]);
        let (l1, l2) = (rng.span(1, b + 1), rng.span(1, b + 1));
        let (u, v) = (rng.odd(3), rng.odd(3));
        push_operation(book, "operation both shifts positive", [b, u, v, l1, l2, rng.below(2)]);
    }
    for huge in HUGE {
        for b in [2, 8, 16] {
            push_operation(book, "operation huge shift", [b, 1, 1, huge, 0, 0]);
            push_operation(book, "operation huge shift", [b, 3, 1, 0, huge, 1]);
            push_operation(book, "operation huge shift", [b, 1, 5, huge, huge, 1]);
        }
    }
    for b in OUTSIDE_BITS {
        for words in [[b, 1, 1, 0, 1, 0], [b, 5, 1, 0, 0, 0], [b, 1, 1, 2, 0, 1]] {
            push_operation(book, "operation bits out of range", words);
        }
    }
}

/// Operands anywhere in 32 bits, whose own rows are not valid, and close pairs whose difference is small again.
fn large(book: &mut Book, rng: &mut Rng) {
    let class = "operation on large operands";
    for b in 2..=16 {
        push_operation(book, class, [b, u32::MAX, u32::MAX - 2, 0, 0, 1]);
        push_operation(book, class, [b, u32::MAX, u32::MAX, b + 1, 0, 1]);
        push_operation(book, class, [b, u32::MAX, 1, 0, 0, 0]);
        for _ in 0..10 {
            let u = rng.word() | 1;
            let v = u.wrapping_add(2 * rng.below(1 << b)) | 1;
            let half = u >> 1 | 1;
            let s = rng.below(2);
            push_operation(book, class, [b, u, v, 0, 0, 1]);
            push_operation(book, class, [b, u, half, 0, 1, 1]);
            push_operation(book, class, [b, u, rng.odd(32), rng.below(b + 2), 0, s]);
        }
    }
}

pub fn kind_operation(book: &mut Book) {
    let mut rng = Rng::new(104);
    named(book, &mut rng);
    at_ceiling(book);
    spoiled(book, &mut rng);
    large(book, &mut rng);
    for _ in 0..800 {
        let b = rng.span(2, 16);
        push_operation(book, "operation sensible", sensible(&mut rng, b));
    }
    for _ in 0..300 {
        let b = rng.span(2, 16);
        let (u, v) = (rng.odd(limit(b)), rng.odd(limit(b)));
        let (l1, l2) = (rng.span(0, b + 2), rng.span(0, b + 2));
        push_operation(book, "operation any shifts", [b, u, v, l1, l2, rng.below(2)]);
    }
    for u in (1..8).step_by(2) {
        for v in (1..8).step_by(2) {
            for (l1, l2, s) in shapes(2) {
                push_operation(book, "operation all of b = 2", [2, u, v, l1, l2, s]);
            }
        }
    }
}

fn valid_ones(book: &mut Book, rng: &mut Rng) {
    for b in 2..=16 {
        let count = rng.span(8, 16);
        let words = random_graph(rng, b, count);
        for i in 1..=count {
            push(book, "row of random graphs", b, i, &words);
        }
        for other in [b - 1, b + 1, 2] {
            push(book, "row under another bit limit", other, count, &words);
        }
    }
    for b in [2, 8, 16] {
        let words = random_graph(rng, b, 128);
        for i in [1, 2, 64, 127, 128] {
            push(book, "row of 128 rows", b, i, &words);
            push(book, "row of 128 rows", b, i, &words[..i as usize * ROW]);
        }
    }
    let twice = THREE.repeat(5);
    for i in 1..=6 {
        push(book, "row repeated", 8, i, &twice);
    }
}

const DAMAGED: [&str; ROW] = [
    "row damaged u",
    "row damaged v",
    "row damaged l1",
    "row damaged l2",
    "row damaged s",
    "row damaged r",
    "row damaged value",
];

/// Row i with each of its words changed, one at a time, in several ways.
fn damaged(book: &mut Book, rng: &mut Rng) {
    for round in 0..30 {
        let b = rng.span(2, 16);
        let count = rng.span(1, 9);
        let words = random_graph(rng, b, count);
        let i = if round % 3 == 0 { count } else { rng.span(1, count) };
        for (at, class) in DAMAGED.into_iter().enumerate() {
            let place = (i as usize - 1) * ROW + at;
            let old = words[place];
            let small = rng.below(b + 3);
            for new in [old.wrapping_add(1), old.wrapping_sub(1), old ^ 2, small, rng.word()] {
                let mut other = words.clone();
                other[place] = new;
                push(book, class, b, i, &other);
            }
        }
    }
}

fn indices(book: &mut Book, rng: &mut Rng) {
    for _ in 0..12 {
        let b = rng.span(2, 16);
        let words = random_graph(rng, b, 6);
        for i in [1, 3, 6] {
            let place = (i as usize - 1) * ROW;
            for index in [i, i + 1, 7, 8, 1 << 16, 0x2492_4925, 0x8000_0000, u32::MAX] {
                for at in 0..2 {
                    let mut other = words.clone();
                    other[place + at] = index;
                    push(book, "row index not below its own", b, i, &other);
                }
            }
        }
    }
}

/// Rows that would agree with their own value, or with a later one, were that index allowed.
fn own_index(book: &mut Book) {
    for b in 2..=16 {
        for value in [1, 3, ceiling(b) - 1] {
            let own = flatten(&[THREE, [2, 2, 0, 0, 0, 1, value]]);
            push(book, "row agrees with its own index", b, 2, &own);
            push(book, "row agrees with its own index", b, 1, &[1, 1, 0, 0, 0, 1, value]);
        }
        for row in [[2, 0, 0, 0, 0, 1, 1], [0, 2, 0, 0, 0, 1, 1], [2, 0, 1, 0, 1, 0, 1]] {
            push(book, "row agrees with its own index", b, 2, &flatten(&[THREE, row]));
        }
        for row in [[2, 0, 0, 0, 0, 2, 1], [0, 2, 0, 0, 1, 1, 1], [2, 2, 0, 0, 0, 1, 3]] {
            push(book, "row agrees with a later index", b, 1, &flatten(&[row, THREE]));
        }
    }
}

fn special(book: &mut Book) {
    for b in 2..=16 {
        for (name, row) in special_rows(b) {
            push(book, &format!("row {name}"), b, 2, &flatten(&[THREE, row]));
        }
    }
}

/// Rows that make five odd values, below G or anywhere in 32 bits, then a row that fits them or nearly.
fn foreign(book: &mut Book, rng: &mut Rng) {
    for round in 0..120 {
        let b = rng.span(2, 16);
        let span = if round % 3 == 0 { 32 } else { limit(b) };
        let mut words = Vec::new();
        for _ in 0..5 {
            add_chain(&mut words, rng.odd(span));
        }
        let row = random_row(rng, b, &words);
        let before = words.len();
        words.extend(row);
        let rows = (words.len() / ROW) as u32;
        push(book, "row on given operands", b, rows, &words);
        let at = before + rng.below(ROW as u32) as usize;
        words[at] ^= 1 << rng.below(4);
        push(book, "row on given operands, damaged", b, rows, &words);
    }
}

fn slices(book: &mut Book, rng: &mut Rng) {
    for b in [2, 8, 16] {
        let words = random_graph(rng, b, 5);
        for length in 0..=words.len() {
            for i in [1, (length / ROW) as u32, (length / ROW) as u32 + 1] {
                push(book, "row in cut slices", b, i, &words[..length]);
            }
        }
        // 7 times these wraps to a small number in 32 bits.
        for i in [0, 6, 7, 0x2492_4925, 0x4924_924A, 0x8000_0000, u32::MAX - 1, u32::MAX] {
            push(book, "row number outside", b, i, &words);
        }
    }
    let words = random_graph(rng, 8, 5);
    for b in OUTSIDE_BITS {
        for i in [0, 1, 5, 6] {
            push(book, "row bits out of range", b, i, &words);
        }
    }
}

pub fn kind_row(book: &mut Book) {
    let mut rng = Rng::new(105);
    valid_ones(book, &mut rng);
    damaged(book, &mut rng);
    indices(book, &mut rng);
    own_index(book);
    special(book);
    foreign(book, &mut rng);
    slices(book, &mut rng);
}
