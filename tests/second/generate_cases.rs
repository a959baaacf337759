//! Cases of the generator.

use crate::book::Book;
use crate::digits::nonzeros;
use crate::draw::{failing, one_of, passing, shifted, OUTSIDE_BITS};
use crate::graph::{MAX_ROWS, ROW};
use crate::graph_cases::masks;
use crate::rng::Rng;

pub const ENOUGH: u32 = (MAX_ROWS * ROW) as u32;
const MOST_ROOM: u32 = 1100;

/// Lists that the papers speak of, at b = 8, and how many rows the rule takes for them.
pub const PAPER_ROWS: [(&[i32], usize); 6] =
    [(&[7], 1), (&[23], 2), (&[45], 2), (&[71], 2), (&[105], 2), (&[23, 81], 4)];

fn named(book: &mut Book) {
    for (list, count) in PAPER_ROWS {
        book.generate(&format!("generate papers' lists of {count} rows"), 8, ENOUGH, list);
    }
    let lists: [&[i32]; 9] = [
        &[0],
        &[1, -8],
        &[5, 5, -10],
        &[45],
        &[71],
        &[43],
        &[45, -20, 0],
        &[23, 81],
        &[i32::MIN],
    ];
    for list in lists {
        for room in [ENOUGH - 1, ENOUGH, ENOUGH + 1, 1000] {
            book.generate("generate named lists", 8, room, list);
        }
        for b in [7, 9, 12, 16] {
            book.generate("generate named lists, other bits", b, ENOUGH, list);
        }
    }
    for order in [[3153, 3301, 7681, 8113], [8113, 7681, 3301, 3153]] {
        for b in [12, 13, 14] {
            book.generate("generate 3153,3301,7681,8113", b, ENOUGH, &order);
        }
        for skipped in 0..4 {
            let rest: Vec<i32> = (0..4).filter(|&i| i != skipped).map(|i| order[i]).collect();
            book.generate("generate 3153,3301,7681,8113", 13, ENOUGH, &rest);
        }
    }
}

fn single(book: &mut Book, rng: &mut Rng) {
    for b in [2, 3, 4, 8] {
        for odd in (1..1 << b).step_by(2) {
            book.generate(&format!("generate each odd constant, b {b}"), b, ENOUGH, &[odd]);
        }
    }
    for odd in (1..1 << 16).step_by(10) {
        book.generate("generate every fifth odd constant, b 16", 16, ENOUGH, &[odd]);
    }
    for _ in 0..150 {
        let odd = rng.below(1 << 16) | 1;
        let target = shifted(rng, odd);
        book.generate("generate shifted constants, b 16", 16, ENOUGH, &[target]);
    }
    for b in 2..=16 {
        let top = (1 << b) - 1;
        for target in top_targets(b).into_iter().chain([top - 2, 1 << 30, i32::MIN, 0, -1]) {
            book.generate("generate extremes", b, ENOUGH, &[target]);
        }
    }
}

fn nine_digits(book: &mut Book, rng: &mut Rng) {
    let odds: Vec<u32> = (1..1 << 16).step_by(2).filter(|&c| nonzeros(c) == 9).collect();
    for &odd in &odds {
        book.generate("generate nine digits", 16, ENOUGH, &[odd as i32]);
    }
    for size in 2..=16 {
        let list: Vec<i32> = (0..size).map(|_| one_of(rng, &odds) as i32).collect();
        book.generate("generate lists of nine digits", 16, ENOUGH, &list);
    }
}

/// The targets of greatest odd part, and of them the greatest.
pub fn top_targets(b: u32) -> [i32; 4] {
    let top = (1 << b) - 1;
    let greatest = top << (31 - b);
    [top, -top, greatest, -greatest]
}

/// A list that passes, with repeats, zeros, powers of two and extremes in it.
fn random_list(rng: &mut Rng, b: u32, size: u32) -> Vec<i32> {
    let mut list: Vec<i32> = Vec::new();
    for _ in 0..size {
        let odd = rng.below(1 << b) | 1;
        let t = match rng.below(11) {
            0 if !list.is_empty() => one_of(rng, &list),
            1 if !list.is_empty() => one_of(rng, &list).wrapping_neg(),
            2 => one_of(rng, &[0, i32::MIN, 1, -1, 1 << 30]),
            3 => shifted(rng, 1),
            4 => one_of(rng, &top_targets(b)),
            5 | 6 => passing(rng, b),
            _ => shifted(rng, odd),
        };
        list.push(t);
    }
    list
}

/// Two lists for every b and every number of targets.
pub fn mixed_lists() -> Vec<(u32, Vec<i32>)> {
    let mut rng = Rng::new(113);
    let mut all = Vec::new();
    for b in 2..=16 {
        for size in 1..=16 {
            all.push((b, random_list(&mut rng, b, size)));
            all.push((b, random_list(&mut rng, b, size)));
        }
    }
    all
}

fn random_lists(book: &mut Book, rng: &mut Rng) {
    for (i, (b, list)) in mixed_lists().into_iter().enumerate() {
        let room = if i % 2 == 0 { ENOUGH } else { rng.span(ENOUGH, MOST_ROOM) };
        book.generate("generate random lists", b, room, &list);
    }
    for b in 2..=16 {
        for size in 1..=16 {
            let mut list: Vec<i32> = (0..size).map(|_| (rng.below(1 << b) | 1) as i32).collect();
            book.generate("generate random odd lists", b, ENOUGH, &list);
            if size % 4 == 0 {
                list.reverse();
                book.generate("generate random odd lists, reversed", b, ENOUGH, &list);
            }
        }
    }
    for _ in 0..100 {
        let size = rng.span(2, 4);
        let list = random_list(rng, 16, size);
        book.generate("generate short lists, b 16", 16, ENOUGH, &list);
    }
}

/// Found among some hundred thousand random lists: step B's smallest s is above the constant.
pub const ABOVE: [(u32, &[i32]); 14] = [
    (8, &[43, 135, 253, 127]),
    (8, &[245, 7, 179, 255]),
    (8, &[251, 255, 125, 143, 197, 43]),
    (8, &[95, 95, 137, 129, 43, 255]),
    (10, &[377, 645]),
    (10, &[877, 257, 723, 151]),
    (10, &[1017, 615, 773, 695]),
    (10, &[107, 897, 807, 255, 271, 951]),
    (12, &[419, 561, 3579, 2885]),
    (12, &[3395, 683, 2405, 3825]),
    (12, &[2639, 943, 569, 2489, 3999, 3871]),
    (13, &[1787, 4617]),
    (13, &[3217, 7893, 4457, 129]),
    (14, &[10973, 11235, 3201, 16199, 16185, 4707]),
];

/// Found likewise: step C meets a prefix that is ready already, in the last two lists two of them.
pub const READY_PREFIX: [(u32, &[i32]); 14] = [
    (10, &[933, 441]),
    (10, &[849, 67, 603]),
    (12, &[1539, 3305]),
    (12, &[1605, 387, 3709]),
    (12, &[641, 3499, 2419, 3109, 2955]),
    (13, &[6377, 177]),
    (13, &[467, 4103, 2641]),
    (14, &[3427, 14911]),
    (14, &[2755, 15351, 131, 16035, 8739]),
    (15, &[12743, 25041]),
    (16, &[57241, 14381, 33363]),
    (16, &[54117, 52373, 51127, 51775, 49885]),
    (15, &[19099, 18925, 19865]),
    (16, &[53253, 54155]),
];

fn found_lists(book: &mut Book) {
    for (class, found) in [
        ("generate s above the constant", ABOVE),
        ("generate prefixes already ready", READY_PREFIX),
    ] {
        for (b, list) in found {
            let reversed: Vec<i32> = list.iter().rev().map(|t| -4 * t).collect();
            book.generate(class, b, ENOUGH, list);
            book.generate(class, (b + 1).min(16), ENOUGH, list);
            book.generate(class, b, ENOUGH, &reversed);
        }
    }
}

/// Constants with the same upper bits: what one leaves ready, the next finds among its prefixes.
fn same_upper_bits(book: &mut Book, rng: &mut Rng) {
    for round in 0..100 {
        let b = 16 - round % 3;
        let low = rng.span(b - 6, b - 3);
        let top = rng.below(1 << (b - low)) << low;
        let size = rng.span(2, 3);
        let list: Vec<i32> = (0..size).map(|_| (top | rng.below(1 << low) | 1) as i32).collect();
        book.generate("generate lists of the same upper bits", b, ENOUGH, &list);
    }
}

fn refused(book: &mut Book, rng: &mut Rng) {
    for b in OUTSIDE_BITS {
        book.generate("generate bits out of range", b, ENOUGH, &[45]);
        book.generate("generate bits out of range", b, 0, &[]);
    }
    for count in [0, 17, 18, 32, 33, 256, 1000] {
        for b in [2, 16] {
            let list: Vec<i32> = (0..count).map(|_| passing(rng, b)).collect();
            book.generate("generate counts of targets", b, ENOUGH, &list);
        }
    }
    for place in 0..16 {
        let b = rng.span(2, 16);
        let mut list: Vec<i32> = (0..16).map(|_| passing(rng, b)).collect();
        list[place] = failing(rng, b);
        book.generate("generate odd part too large", b, ENOUGH, &list);
        list[15] = failing(rng, b);
        book.generate("generate odd part too large", b, ENOUGH, &list);
    }
    for room in [0, 1, 6, 7, 14, 128, 894, 895, 896, 897, 1000, MOST_ROOM] {
        for list in [&[0][..], &[1, -8], &[5, 5, -10], &[45, -20, 0], &[43]] {
            book.generate("generate rooms", 8, room, list);
        }
    }
}

/// The refusals of the generator in the order in which they count.
pub const GENERATE_ORDER: [u32; 4] = [1, 2, 3, 4];

/// A good call (b, room, targets) with the faults of the mask.
pub fn faulty_generate(mask: u32, variant: usize) -> (u32, u32, Vec<i32>) {
    let (mut b, mut room, mut targets) = (8, ENOUGH + variant as u32, vec![45, -20, 0, 768, 43]);
    let has = |place: u32| mask >> place & 1 == 1;
    if has(3) {
        room = [895, 0, 7, 28, 894, 1][variant];
    }
    if has(2) {
        targets[variant % 5] = [257, -257, 514, i32::MAX, -i32::MAX, 65535 << 8][variant];
    }
    if has(1) && variant % 2 == 0 {
        targets = targets.repeat(4)[..17].to_vec();
    } else if has(1) {
        targets.clear();
    }
    if has(0) {
        b = OUTSIDE_BITS[variant];
    }
    (b, room, targets)
}

pub fn kind_generate(book: &mut Book) {
    let mut rng = Rng::new(112);
    named(book);
    single(book, &mut rng);
    nine_digits(book, &mut rng);
    random_lists(book, &mut rng);
    found_lists(book);
    same_upper_bits(book, &mut rng);
    refused(book, &mut rng);
    for (mask, variant) in masks(4) {
        let (b, room, targets) = faulty_generate(mask, variant);
        book.generate("generate faults together", b, room, &targets);
    }
}
