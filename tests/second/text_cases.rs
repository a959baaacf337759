//! Job texts. Here those that are not malformed, and the pile of all of them.

use crate::book::Book;
use crate::digits::nonzeros;
use crate::draw::{failing, one_of, passing, shifted};
use crate::generate_cases::{mixed_lists, top_targets, ABOVE, PAPER_ROWS, READY_PREFIX};
use crate::graph_cases::masks;
use crate::rng::Rng;
use crate::text_changes::add_changed;
use crate::text_faults::add_malformed;
use std::fmt::Display;

/// Texts with the class of each.
pub struct Pile {
    pub texts: Vec<(String, Vec<u8>)>,
}

impl Pile {
    pub fn add(&mut self, class: &str, text: impl AsRef<[u8]>) {
        self.texts.push((format!("job {class}"), text.as_ref().to_vec()));
    }

    /// A class whose texts are all refused with 12 at this line; the selftest holds it to its name.
    pub fn add_bad(&mut self, class: &str, line: usize, text: impl AsRef<[u8]>) {
        self.add(&format!("{class}, line {line}"), text);
    }
}

pub const REPORTS: [&str; 2] = ["width", "row"];

/// The document's example, without its line feeds.
pub const EXAMPLE: [&str; 4] = ["bits=8", "input=12", "report=width", "targets=45,-20,0"];

pub fn ended<L: AsRef<str>>(lines: &[L]) -> String {
    lines.iter().map(|line| format!("{}\n", line.as_ref())).collect()
}

/// The text of these values, whatever they are.
pub fn text(bits: impl Display, input: impl Display, report: &str, targets: &str) -> String {
    format!("bits={bits}\ninput={input}\nreport={report}\ntargets={targets}\n")
}

pub fn list(targets: &[i32]) -> String {
    targets.iter().map(|t| t.to_string()).collect::<Vec<_>>().join(",")
}

fn either(count: usize) -> &'static str {
    REPORTS[count % 2]
}

fn every_b_and_w(pile: &mut Pile, rng: &mut Rng) {
    for b in 2..=16 {
        for w in 2..=32 {
            let size = rng.span(1, 3);
            let targets: Vec<i32> = (0..size).map(|_| passing(rng, b)).collect();
            let report = either((b + w) as usize);
            pile.add("every b and w", text(b, w, report, &list(&targets)));
        }
    }
}

/// Two lists for every b and every length: one report each.
fn every_length(pile: &mut Pile, rng: &mut Rng) {
    for (i, (b, targets)) in mixed_lists().into_iter().enumerate() {
        let within = rng.span(2, 32);
        let w = one_of(rng, &[2, 12, 32, within, within, within]);
        let class = format!("1 to 16 targets by {}", either(i));
        pile.add(&class, text(b, w, either(i), &list(&targets)));
    }
}

fn powers() -> Vec<i32> {
    (0..32).flat_map(|k| [1i32.wrapping_shl(k), 1i32.wrapping_shl(k).wrapping_neg()]).collect()
}

/// Lists by hand, with what is special about them.
fn special_lists() -> Vec<(&'static str, Vec<i32>)> {
    let mut all = vec![
        ("of the document", vec![45, -20, 0]),
        ("with zeros", vec![0]),
        ("with zeros", vec![0; 16]),
        ("with zeros", vec![0, 45, 0, 0, -3, 0]),
        ("with powers of two", vec![1]),
        ("with powers of two", vec![1, -8]),
        ("with negatives", vec![-1]),
        ("with negatives", vec![-3, -5, -255, -254, -45]),
        ("with negatives", vec![-43, 43, -86, 172]),
        ("with repeats", vec![5, 5, -10]),
        ("with repeats", vec![45; 16]),
        ("with repeats", vec![3, -3, 6, -6, 12, -12, 3, 3, 768]),
        ("with extremes", vec![i32::MIN]),
        ("with extremes", vec![i32::MIN; 16]),
        ("with extremes", vec![i32::MIN, 0, 1 << 30, -1, 255 << 23, -(255 << 23)]),
    ];
    all.extend(powers().chunks(16).map(|some| ("with powers of two", some.to_vec())));
    all
}

fn special(pile: &mut Pile) {
    for (class, targets) in special_lists() {
        for (b, w) in [(8, 12), (8, 2), (8, 32), (16, 24)] {
            for report in REPORTS {
                pile.add(class, text(b, w, report, &list(&targets)));
            }
        }
    }
    for t in powers() {
        pile.add("with powers of two", text(2, 32, "row", &t.to_string()));
    }
    for b in 2..=16 {
        for (i, t) in top_targets(b).into_iter().enumerate() {
            let (w, report) = ([2, 32][i % 2], either(b as usize));
            pile.add("with extremes", text(b, w, report, &t.to_string()));
        }
    }
    // 230 bytes: no job with a listing has more.
    for t in [i32::MIN, -(65535 << 15), -(65534 << 15)] {
        pile.add("with the longest listed text", text(16, 32, "width", &list(&[t; 16])));
    }
}

fn long_graphs(pile: &mut Pile, rng: &mut Rng) {
    for (targets, _) in PAPER_ROWS {
        pile.add("of the papers", text(8, 16, "row", &list(targets)));
        pile.add("of the papers", text(12, 16, "width", &list(targets)));
    }
    for (i, (b, targets)) in ABOVE.into_iter().chain(READY_PREFIX).enumerate() {
        pile.add("with remarkable steps", text(b, 12, either(i), &list(targets)));
    }
    let odds: Vec<u32> = (1..1 << 16).step_by(2).filter(|&c| nonzeros(c) == 9).collect();
    for size in 1..=16 {
        let targets: Vec<i32> = (0..size).map(|_| one_of(rng, &odds) as i32).collect();
        pile.add("with nine digits", text(16, 32, either(size), &list(&targets)));
    }
}

fn singles(pile: &mut Pile, rng: &mut Rng) {
    for i in 0..150 {
        let b = rng.span(2, 16);
        let odd = rng.below(1 << b) | 1;
        let t = shifted(rng, odd);
        pile.add("with one target", text(b, rng.span(2, 32), either(i), &t.to_string()));
    }
}

/// 264 and 65544 are 8 in a byte and in two, -248 is 8 in a byte.
const BITS_OUTSIDE: [i32; 19] = [
    0, 1, 17, 18, 31, 32, 33, 64, 255, 256, 264, 65544, i32::MAX, -1, -2, -8, -16, -248, i32::MIN,
];

/// 268 and 65548 are 12 in a byte and in two, -244 is 12 in a byte.
const INPUT_OUTSIDE: [i32; 17] = [
    0, 1, 33, 34, 63, 64, 65, 256, 268, 65548, i32::MAX, -1, -2, -12, -32, -244, i32::MIN,
];

fn ranges(pile: &mut Pile) {
    for bits in BITS_OUTSIDE {
        for input in [12, 33] {
            for targets in ["45,-20,0", "", "257"] {
                pile.add("bits out of range", text(bits, input, either(bits as usize), targets));
            }
        }
    }
    for input in INPUT_OUTSIDE {
        for (b, targets) in [(2, "3"), (8, "45,-20,0"), (16, "0")] {
            pile.add("input out of range", text(b, input, either(input as usize), targets));
        }
    }
}

fn counts(pile: &mut Pile) {
    for b in 2..=16 {
        pile.add("no targets", text(b, 2 * b, either(b), ""));
        pile.add("no targets", text(b, INPUT_OUTSIDE[b], either(b), ""));
    }
    // With the shortest of the other lines 111 one-digit targets fill the 256 bytes.
    for count in 17..=111 {
        let mut targets: Vec<i32> = (0..count).map(|i| i % 4).collect();
        pile.add("over 16 targets", text(2, 2, "row", &list(&targets)));
        targets[count as usize / 2] = 9;
        pile.add("over 16 targets", text(3, 1, "row", &list(&targets)));
    }
    for count in [17, 18] {
        for t in [i32::MIN, -i32::MAX] {
            pile.add("over 16 targets", text(16, 32, "width", &list(&vec![t; count])));
        }
    }
}

fn large_odd_parts(pile: &mut Pile, rng: &mut Rng) {
    let class = "odd part too large";
    for b in 2..=16 {
        let least = (1 << b) + 1;
        for t in [least, -least, 2 * least, least << (30 - b), i32::MAX, -i32::MAX] {
            pile.add(class, text(b, 12, either(b), &t.to_string()));
        }
        pile.add(class, text(b, INPUT_OUTSIDE[b], either(b), &list(&[0, 3, least, least])));
    }
    for place in 0..16 {
        for input in [12, 1] {
            let b = rng.span(2, 16);
            let mut targets: Vec<i32> = (0..16).map(|_| passing(rng, b)).collect();
            targets[place] = failing(rng, b);
            pile.add(class, text(b, input, either(place), &list(&targets)));
            targets[15] = failing(rng, b);
            pile.add(class, text(b, input, either(place), &list(&targets)));
        }
    }
}

/// The refusals of the program in the order in which they count; 8 cannot be brought about.
pub const TEXT_ORDER: [u32; 5] = [12, 1, 2, 3, 9];

/// Where the fault of refusal 12 is in each variant.
pub const TEXT_PLACES: [u32; 6] = [1, 2, 3, 4, 5, 0];

/// One thing that makes any four lines a malformed text.
fn spoil(lines: &str, variant: usize) -> String {
    match variant {
        0 => lines.replacen('\n', " \n", 1),
        1 => lines.replacen("input=", "input=+", 1),
        2 => lines.replacen("report=", "report=x", 1),
        3 => lines.replacen("targets=", "targets=,", 1),
        4 => lines.to_string() + "\n",
        _ => lines.to_string() + &"\n".repeat(256),
    }
}

/// A good text with the faults of the mask.
pub fn faulty_text(mask: u32, variant: usize) -> String {
    let has = |place: u32| mask >> place & 1 == 1;
    let mut targets = vec![45, -20, 0, 768, 43];
    if has(3) {
        targets[variant % 5] = [257, -257, 514, i32::MAX, -i32::MAX, 65535 << 8][variant];
    }
    if has(2) && variant % 2 == 0 {
        targets = targets.repeat(4)[..17].to_vec();
    } else if has(2) {
        targets.clear();
    }
    let bits = if has(1) { [0, 17, -8, 1, i32::MIN, i32::MAX][variant] } else { 8 };
    let input = if has(4) { [1, -12, 33, i32::MAX, 0, i32::MIN][variant] } else { 12 };
    let lines = text(bits, input, either(variant), &list(&targets));
    if has(0) { spoil(&lines, variant) } else { lines }
}

/// Every text of every class.
pub fn texts() -> Vec<(String, Vec<u8>)> {
    let mut rng = Rng::new(114);
    let mut pile = Pile { texts: Vec::new() };
    special(&mut pile);
    every_b_and_w(&mut pile, &mut rng);
    every_length(&mut pile, &mut rng);
    long_graphs(&mut pile, &mut rng);
    singles(&mut pile, &mut rng);
    ranges(&mut pile);
    counts(&mut pile);
    large_odd_parts(&mut pile, &mut rng);
    for (mask, variant) in masks(5) {
        pile.add("faults together", faulty_text(mask, variant));
    }
    add_malformed(&mut pile);
    add_changed(&mut pile);
    pile.texts
}

pub fn kind_text(book: &mut Book) {
    for (class, text) in texts() {
        book.text(&class, &text);
    }
}
