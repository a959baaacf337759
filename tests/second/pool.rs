//! Calls on graphs, in classes, that check, products, widths and ranking all get.

use crate::book::Call;
use crate::draw::{
    failing, grown, one_of, passing, random_graph, random_row, shifted, special_rows, Pick,
    OUTSIDE_BITS, THREE,
};
use crate::generator::generate;
use crate::graph::{flatten, index_of, value_at, Row, MAX_ROWS, ROW};
use crate::operation::operate;
use crate::papers::FIGURES;
use crate::rng::Rng;
use std::sync::OnceLock;

pub struct Pool {
    pub calls: Vec<(&'static str, Call)>,
    rng: Rng,
}

impl Pool {
    fn add(&mut self, class: &'static str, b: u32, targets: &[i32], rows: u32, words: &[u32]) {
        let call = Call { b, targets: targets.to_vec(), rows, words: words.to_vec() };
        self.calls.push((class, call));
    }

    /// The words as whole rows, with a list that they serve.
    fn add_served(&mut self, class: &'static str, b: u32, words: &[u32]) {
        let size = self.rng.span(1, 16);
        let targets = served_list(&mut self.rng, b, words, size);
        self.add(class, b, &targets, (words.len() / ROW) as u32, words);
    }
}

/// A target that the words serve: zero, a signed power of two, or a value below 2^b shifted.
fn served(rng: &mut Rng, b: u32, words: &[u32]) -> i32 {
    let count = (words.len() / ROW) as u32;
    match rng.below(12) {
        0 => 0,
        1 => i32::MIN,
        2 => shifted(rng, 1),
        _ => {
            let drawn: Vec<u32> = (0..6).map(|_| rng.below(count + 1)).collect();
            let mut values = drawn.iter().map(|&i| value_at(words, i as u64));
            let odd = values.find(|&v| v < 1 << b).unwrap_or(1);
            shifted(rng, odd)
        }
    }
}

pub fn served_list(rng: &mut Rng, b: u32, words: &[u32], size: u32) -> Vec<i32> {
    let mut list: Vec<i32> = Vec::new();
    for _ in 0..size {
        let again = !list.is_empty() && rng.below(6) == 0;
        let t = if again { one_of(rng, &list) } else { served(rng, b, words) };
        list.push(t);
    }
    list
}

fn noise(rng: &mut Rng, most: u32) -> Vec<u32> {
    let count = rng.below(most + 1);
    (0..count).map(|_| rng.word()).collect()
}

fn generated(pool: &mut Pool) {
    for b in 2..=16 {
        for size in [1, 2, 3, 5, 8, 16] {
            let mut targets: Vec<i32> = (0..size).map(|_| passing(&mut pool.rng, b)).collect();
            let rows = generate(b, &targets, MAX_ROWS * ROW).expect("not refused");
            let mut words = flatten(&rows);
            if size < 16 {
                targets.push(served(&mut pool.rng, b, &words));
            }
            words.extend(noise(&mut pool.rng, 9));
            pool.add("generated graphs", b, &targets, rows.len() as u32, &words);
        }
    }
}

/// Each figure under its own bit limit, one too low, and the highest; whole and without its end.
fn papers(pool: &mut Pool) {
    for (_, targets, rows) in FIGURES {
        let words = flatten(rows);
        let count = rows.len() as u32;
        let most = targets.iter().max().expect("a constant").ilog2() + 1;
        for b in [most - 1, most, 16] {
            pool.add("papers' graphs", b, targets, count, &words);
        }
        let all: Vec<i32> = rows.iter().map(|row| row[ROW - 1] as i32).collect();
        let turned: Vec<i32> = targets.iter().flat_map(|&t| [-t, t << 7, 0, 1, -2]).collect();
        pool.add("papers' graphs", most, &all, count, &words);
        pool.add("papers' graphs", most, &turned, count, &words);
        pool.add("papers' graphs", most, targets, count - 1, &words);
        // 17 is in none of them.
        pool.add("papers' graphs", most, &[targets, &[-34, 17]].concat(), count, &words);
    }
}

fn large_row(rng: &mut Rng, b: u32, words: &[u32]) -> Row {
    let drawn = (0..12).map(|_| random_row(rng, b, words));
    drawn.max_by_key(|row| row[ROW - 1]).expect("twelve rows")
}

fn repeated_row(rng: &mut Rng, b: u32, words: &[u32]) -> Row {
    let count = (words.len() / ROW) as u32;
    if count == 0 || rng.below(2) == 0 {
        return random_row(rng, b, words);
    }
    let start = rng.below(count) as usize * ROW;
    words[start..start + ROW].try_into().expect("a row")
}

fn halved_row(rng: &mut Rng, b: u32, words: &[u32]) -> Row {
    loop {
        let row = random_row(rng, b, words);
        if row[5] > 0 {
            return row;
        }
    }
}

fn negative_row(rng: &mut Rng, b: u32, words: &[u32]) -> Row {
    loop {
        let row = random_row(rng, b, words);
        let [u, v] = [row[0], row[1]].map(|i| value_at(words, i as u64));
        if operate(b, u, v, row[2], row[3], row[4]).is_some_and(|o| o.n < 0) {
            return row;
        }
    }
}

/// On the input alone, so that no row is ever used by another.
fn lonely_row(rng: &mut Rng, b: u32, _: &[u32]) -> Row {
    random_row(rng, b, &[])
}

pub const PICKED: [(&str, Pick); 5] = [
    ("large values", large_row),
    ("repeated values", repeated_row),
    ("right shifts", halved_row),
    ("negative n in every row", negative_row),
    ("rows nobody uses", lonely_row),
];

fn random_valid(pool: &mut Pool) {
    for b in 2..=16 {
        for count in [0, 1, 2, 3, 5, 9, 17, 33] {
            let words = random_graph(&mut pool.rng, b, count);
            pool.add_served("random valid graphs", b, &words);
        }
        for (class, pick) in PICKED {
            for most in [4, 20] {
                let count = pool.rng.span(1, most);
                let words = grown(&mut pool.rng, b, count, pick);
                pool.add_served(class, b, &words);
            }
        }
    }
    for count in [64, 65, 100, 126, 127, 128] {
        for (_, pick) in PICKED {
            let b = pool.rng.span(2, 16);
            let words = grown(&mut pool.rng, b, count, pick);
            pool.add_served("64 to 128 rows", b, &words);
        }
    }
}

/// 2^l - 1 for l from 1 to b + 1: every row one bit wider than the last.
fn rising(b: u32) -> Vec<Row> {
    (1..=b + 1).map(|l| [0, 0, l, 0, 1, 0, (1 << l) - 1]).collect()
}

/// Values between 2^b and 2^(b + 1), all different, that all have the same width.
fn octave(b: u32) -> Vec<Row> {
    let first = (1 << b) + 1;
    let mut rows = vec![[0, 0, 0, b, 0, 0, first]];
    rows.extend((1..b).map(|l| [1, 0, 0, l, 0, 0, first + (1 << l)]));
    rows
}

fn ties(pool: &mut Pool) {
    for count in [1, 2, 3, 7, 16, 64, 127, 128] {
        let b = pool.rng.span(2, 16);
        pool.add_served("all rows equal", b, &THREE.repeat(count));
        pool.add_served("all rows equal", b, &[0, 0, 0, 0, 0, 1, 1].repeat(count));
    }
    for b in 2..=16 {
        pool.add_served("equal widths, other values", b, &flatten(&octave(b)));
        let mut rows = rising(b);
        pool.add_served("rising values", b, &flatten(&rows));
        pool.add_served("rising values twice", b, &flatten(&rows).repeat(2));
        rows.reverse();
        pool.add_served("falling values", b, &flatten(&rows));
    }
    for (b, count) in [(2, 128), (3, 128), (4, 90), (9, 128), (16, 128)] {
        let words = grown(&mut pool.rng, b, count, lonely_row);
        pool.add_served("ties at many rows", b, &words);
    }
}

const DAMAGED: [&str; ROW] = [
    "damaged u",
    "damaged v",
    "damaged l1",
    "damaged l2",
    "damaged s",
    "damaged r",
    "damaged value",
];

fn damaged(pool: &mut Pool) {
    for round in 0..13 {
        let b = pool.rng.span(2, 16);
        let count = [1, 2, 3, 4, 5, 6, 8, 10, 12, 3, 5, 7, 128][round];
        let words = random_graph(&mut pool.rng, b, count);
        let targets = served_list(&mut pool.rng, b, &words, 3);
        let row = if round % 3 == 0 { count } else { pool.rng.span(1, count) };
        for (at, class) in DAMAGED.into_iter().enumerate() {
            let place = (row as usize - 1) * ROW + at;
            let old = words[place];
            for new in [old.wrapping_add(1), old.wrapping_sub(1), pool.rng.word()] {
                let mut other = words.clone();
                other[place] = new;
                pool.add(class, b, &targets, count, &other);
            }
        }
    }
}

fn indices(pool: &mut Pool) {
    for b in [2, 11] {
        let words = random_graph(&mut pool.rng, b, 6);
        let targets = served_list(&mut pool.rng, b, &words, 2);
        for row in [1, 3, 6] {
            for index in [row, row + 1, 6, 7, 0x2492_4925, u32::MAX] {
                for at in 0..2 {
                    let mut other = words.clone();
                    other[(row as usize - 1) * ROW + at] = index.max(row);
                    pool.add("own or later index", b, &targets, 6, &other);
                }
            }
        }
        // The value words fit, were these indices allowed.
        for own in [[2, 2, 0, 0, 0, 1, 3], [2, 0, 1, 0, 1, 0, 1], [0, 2, 0, 0, 0, 1, 1]] {
            pool.add("own or later index", b, &[3], 2, &flatten(&[THREE, own]));
        }
        for later in [[2, 2, 0, 0, 0, 1, 3], [2, 0, 0, 0, 0, 2, 1], [0, 2, 0, 0, 1, 1, 1]] {
            pool.add("own or later index", b, &[3], 2, &flatten(&[later, THREE]));
        }
    }
}

/// A special row between two good ones, for a list that is served and for one that is not.
fn special(pool: &mut Pool) {
    for b in [2, 3, 8, 15, 16] {
        for (class, row) in special_rows(b) {
            let words = flatten(&[THREE, row, [1, 1, 0, 0, 0, 1, 3]]);
            pool.add(class, b, &[3, -6, 0], 3, &words);
        }
    }
    for (_, row) in special_rows(8) {
        let words = flatten(&[row, [0, 0, 0, 0, 0, 1, 1]]);
        pool.add("special first row, target unserved", 8, &[1, 3], 2, &words);
    }
}

fn lists(pool: &mut Pool) {
    for b in OUTSIDE_BITS {
        pool.add("bits out of range", b, &[3, 0], 1, &THREE);
        pool.add("bits out of range", b, &[1], 0, &[]);
    }
    for count in [0, 1, 15, 16, 17, 18, 31, 32, 33, 40, 100, 256] {
        for b in [2, 16] {
            let words = random_graph(&mut pool.rng, b, 4);
            let targets = served_list(&mut pool.rng, b, &words, count);
            pool.add("counts of targets", b, &targets, 4, &words);
        }
    }
    for place in 0..16 {
        for _ in 0..2 {
            let b = pool.rng.span(2, 16);
            let words = random_graph(&mut pool.rng, b, 5);
            let mut targets = served_list(&mut pool.rng, b, &words, 16);
            targets[place] = failing(&mut pool.rng, b);
            pool.add("odd part too large", b, &targets, 5, &words);
            targets[15] = failing(&mut pool.rng, b);
            pool.add("odd part too large", b, &targets, 5, &words);
        }
    }
}

fn extremes(pool: &mut Pool) {
    let powers: Vec<i32> = (0..31).step_by(2).map(|k| -1 << k).collect();
    let lists: [&[i32]; 8] = [
        &[i32::MIN],
        &[i32::MAX],
        &[i32::MIN, i32::MAX],
        &[0; 16],
        &[i32::MIN; 16],
        &[1, -1, 2, -2, 1 << 30, -1 << 30, 0, i32::MIN],
        &powers,
        &[0, 3 << 29, -3 << 29],
    ];
    for b in [2, 7, 8, 15, 16] {
        for list in lists {
            pool.add("extreme targets", b, list, 0, &[]);
            pool.add("extreme targets", b, list, 1, &THREE);
        }
        let top = (1 << b) - 1;
        let row = [0, 0, b, 0, 1, 0, top as u32];
        let largest = top << (31 - b);
        pool.add("extreme targets", b, &[largest, -largest, top, -top], 1, &row);
    }
}

fn about_128(pool: &mut Pool) {
    for b in [2, 8, 16] {
        let words = random_graph(&mut pool.rng, b, 160);
        let targets = served_list(&mut pool.rng, b, &words[..100 * ROW], 3);
        for count in [127, 128, 129, 130, 160] {
            pool.add("about 128 rows", b, &targets, count, &words[..count as usize * ROW]);
        }
        pool.add("about 128 rows", b, &targets, 128, &words);
        pool.add("about 128 rows", b, &targets, 129, &words);
    }
}

fn short_slices(pool: &mut Pool) {
    // 7 times these wraps to a small number in 32 bits.
    let wrapping = [0x2492_4925, 0x4924_924A, 0x9249_2493];
    let huge = [127, 128, 129, 1000, 65536, 0x8000_0000, u32::MAX - 1, u32::MAX];
    for b in [2, 8, 16] {
        let words = random_graph(&mut pool.rng, b, 5);
        let targets = served_list(&mut pool.rng, b, &words, 2);
        for count in [6, 7].iter().chain(&wrapping).chain(&huge) {
            pool.add("rows beyond the slice", b, &targets, *count, &words);
            pool.add("rows beyond the slice", b, &[1], *count, &[]);
        }
        for count in [1, 4] {
            let end = count as usize * ROW;
            let targets = served_list(&mut pool.rng, b, &words[..end], 2);
            for length in end - 1..=end + ROW {
                pool.add("slice a word short, or longer", b, &targets, count, &words[..length]);
            }
        }
    }
}

fn trailing(pool: &mut Pool) {
    for b in 2..=16 {
        let count = pool.rng.span(0, 6);
        let mut words = random_graph(&mut pool.rng, b, count);
        let size = pool.rng.span(1, 16);
        let targets = served_list(&mut pool.rng, b, &words, size);
        words.extend((0..30).map(|_| pool.rng.word()));
        pool.add("trailing words", b, &targets, count, &words);
        pool.add("no rows used", b, &[1, 0, i32::MIN], 0, &words);
        pool.add("no rows used", b, &[0, 3], 0, &THREE);
    }
}

/// An odd part below 2^b that no row of these words has.
fn unserved(rng: &mut Rng, b: u32, words: &[u32]) -> i32 {
    loop {
        let odd = rng.odd(b);
        if odd > 1 && index_of(words.len() / ROW, words, odd).is_none() {
            return shifted(rng, odd);
        }
    }
}

fn unserved_targets(pool: &mut Pool) {
    for size in [1, 2, 5, 16] {
        for place in 0..size {
            let b = pool.rng.span(5, 16);
            let words = random_graph(&mut pool.rng, b, 5);
            let mut targets = served_list(&mut pool.rng, b, &words, size as u32);
            targets[place] = unserved(&mut pool.rng, b, &words);
            pool.add("unserved target", b, &targets, 5, &words);
            targets[size - 1] = unserved(&mut pool.rng, b, &words);
            pool.add("unserved target", b, &targets, 5, &words);
        }
    }
    for b in 3..=16 {
        let top = (1u32 << b) - 1;
        let words = flatten(&[THREE, [0, 0, 0, 2, 0, 0, 5], [0, 0, b, 0, 1, 0, top]]);
        let list = [1, 3, -(top as i32), top as i32];
        pool.add("value in the last row", b, &list, 3, &words);
        pool.add("value after the last row", b, &list, 2, &words);
    }
}

/// Damage after the rows that count, which must not matter.
fn spoiled_after(pool: &mut Pool) {
    for b in 2..=16 {
        let mut words = random_graph(&mut pool.rng, b, 6);
        let targets = served_list(&mut pool.rng, b, &words[..4 * ROW], 4);
        let at = 4 * ROW + pool.rng.below(2 * ROW as u32) as usize;
        words[at] = pool.rng.word();
        pool.add("damage after the rows", b, &targets, 4, &words);
        pool.add("damage within the rows", b, &targets, 6, &words);
    }
}

const PARTS: [fn(&mut Pool); 14] = [
    generated,
    papers,
    random_valid,
    ties,
    damaged,
    indices,
    special,
    lists,
    extremes,
    about_128,
    short_slices,
    trailing,
    unserved_targets,
    spoiled_after,
];

pub fn calls() -> &'static [(&'static str, Call)] {
    static CALLS: OnceLock<Vec<(&'static str, Call)>> = OnceLock::new();
    CALLS.get_or_init(|| {
        let mut pool = Pool { calls: Vec::new(), rng: Rng::new(107) };
        for part in PARTS {
            part(&mut pool);
        }
        pool.calls
    })
}
