//! Cases of check, products, widths and ranking.

use crate::book::{Book, Call};
use crate::draw::{one_of, OUTSIDE_BITS};
use crate::graph::{flatten, ROW};
use crate::pool::calls;
use crate::rng::Rng;

const MOST_PRODUCTS: u32 = 40;
const MOST_WIDTHS: u32 = 150;
const INPUTS_OUTSIDE: [u32; 7] = [0, 1, 33, 34, 64, 0x8000_0000, u32::MAX];
const INPUTS: [u32; 14] = [0, 1, 2, 3, 8, 16, 30, 31, 32, 33, 34, 64, 0x8000_0000, u32::MAX];
const VARIANTS: usize = 6;

/// The refusals of check in the order in which they count; a fault's bit in a mask is its place.
pub const CHECK_ORDER: [u32; 6] = [1, 2, 3, 5, 6, 7];

fn too_many_rows(call: &mut Call, variant: usize) {
    match variant {
        0 => call.rows = 129,
        1 => call.rows = u32::MAX,
        2 => call.words.truncate(call.words.len() - 1),
        3 => {
            call.rows += 1;
            call.words.extend([0; ROW - 1]);
        }
        4 => {
            call.rows = 129;
            call.words = call.words.repeat(43);
        }
        _ => call.rows = 0x2492_4925,
    }
}

/// A good call with the faults of the mask; the earliest go in last, so that none is undone.
pub fn faulty(mask: u32, variant: usize) -> Call {
    let rows = [[0, 0, 0, 1, 0, 0, 3], [1, 1, 0, 4, 1, 0, 45], [0, 0, 0, 3, 1, 0, 7]];
    let mut call = Call { b: 8, targets: vec![45, -6, 0, 56], rows: 3, words: flatten(&rows) };
    let has = |place: u32| mask >> place & 1 == 1;
    if has(5) {
        call.targets[variant % 4] = 201;
    }
    if has(4) {
        call.words[variant % 3 * ROW + 4 + variant % 2] += 2;
    }
    if has(3) {
        too_many_rows(&mut call, variant);
    }
    if has(2) {
        call.targets[(variant + 1) % 4] = -514;
    }
    if has(1) && variant % 2 == 0 {
        call.targets = call.targets.repeat(5)[..17].to_vec();
    } else if has(1) {
        call.targets.clear();
    }
    if has(0) {
        call.b = OUTSIDE_BITS[variant];
    }
    call
}

/// A room with or without the fault of being too short.
fn faulty_room(short: bool, variant: usize, needed: u32) -> u32 {
    match (short, variant % 2) {
        (false, _) => needed + variant as u32,
        (true, 0) => needed.saturating_sub(1),
        (true, _) => 0,
    }
}

/// As faulty, and fault 6 of the mask is refusal 4.
pub fn faulty_products(mask: u32, variant: usize) -> (Call, u32) {
    let call = faulty(mask, variant);
    let room = faulty_room(mask >> 6 == 1, variant, call.targets.len() as u32);
    (call, room)
}

/// As faulty, and faults 6 and 7 of the mask are refusals 9 and 4.
pub fn faulty_widths(mask: u32, variant: usize, needed: fn(&Call) -> u32) -> (Call, u32, u32) {
    let call = faulty(mask, variant);
    let needed = needed(&call).min(MOST_WIDTHS - VARIANTS as u32);
    let room = faulty_room(mask >> 7 == 1, variant, needed);
    let outside = mask >> 6 & 1 == 1;
    let input = if outside { INPUTS_OUTSIDE[variant] } else { 2 + 6 * variant as u32 };
    (call, input, room)
}

/// Every set of at most two of these faults in every variant, every other set in one.
pub fn masks(faults: u32) -> Vec<(u32, usize)> {
    let mut list = Vec::new();
    for mask in 0..1u32 << faults {
        let one = mask as usize % VARIANTS;
        let variants = if mask.count_ones() <= 2 { 0..VARIANTS } else { one..one + 1 };
        list.extend(variants.map(|variant| (mask, variant)));
    }
    list
}

fn fault_class(kind: &str, mask: u32) -> String {
    let faults = ["no fault", "one fault", "two faults"];
    let name = faults.get(mask.count_ones() as usize).unwrap_or(&"several faults");
    format!("{kind} {name}")
}

/// For an accepted call a room that suffices, and one that does not if there is one; a call that
/// is refused anyway gets either.
fn rooms(rng: &mut Rng, call: &Call, needed: u32, most: u32) -> Vec<u32> {
    let needed = needed.min(most);
    let longer = rng.span(needed, most);
    let enough = one_of(rng, &[needed, needed, (needed + 1).min(most), longer]);
    if needed == 0 {
        return vec![enough];
    }
    let shorter = rng.below(needed);
    let short = one_of(rng, &[0, needed - 1, needed - 1, shorter]);
    if call.check().is_ok() {
        return vec![enough, short];
    }
    vec![one_of(rng, &[enough, short])]
}

/// Every room about what is needed, and the longest.
fn every_room(needed: u32, most: u32) -> impl Iterator<Item = u32> {
    (0..=needed + 2).chain([most])
}

pub fn widths_needed(call: &Call) -> u32 {
    call.rows.saturating_add(call.targets.len() as u32)
}

pub fn ranking_needed(call: &Call) -> u32 {
    call.rows
}

/// Some accepted calls of few rows, from all over the pool.
fn samples(step: usize, rows: u32) -> impl Iterator<Item = &'static Call> {
    let few = move |call: &&Call| call.rows <= rows && call.check().is_ok();
    calls().iter().map(|(_, call)| call).filter(few).step_by(step)
}

pub fn kind_check(book: &mut Book) {
    for (class, call) in calls() {
        book.check(&format!("check {class}"), call);
    }
    for (mask, variant) in masks(6) {
        book.check(&fault_class("check", mask), &faulty(mask, variant));
    }
}

fn any_x(rng: &mut Rng) -> i32 {
    let drawn = rng.word() as i32;
    let small = drawn >> rng.below(32);
    one_of(rng, &[0, 1, -1, i32::MIN, i32::MAX, small, drawn, drawn])
}

pub fn kind_products(book: &mut Book) {
    let mut rng = Rng::new(108);
    for (class, call) in calls() {
        for room in rooms(&mut rng, call, call.targets.len() as u32, MOST_PRODUCTS) {
            let x = any_x(&mut rng);
            book.products(&format!("products {class}"), call, x, room);
        }
    }
    for call in samples(40, 128) {
        let room = call.targets.len() as u32;
        for x in [0, 1, -1, 2, -2, 7, -7, i32::MIN, i32::MIN + 1, i32::MAX, i32::MAX - 1] {
            book.products("products every x", call, x, room);
        }
    }
    for call in samples(40, 20) {
        for room in every_room(call.targets.len() as u32, MOST_PRODUCTS) {
            let x = any_x(&mut rng);
            book.products("products every room", call, x, room);
        }
    }
    for (mask, variant) in masks(7) {
        let (call, room) = faulty_products(mask, variant);
        book.products(&fault_class("products", mask), &call, -7, room);
    }
}

type Push = fn(&mut Book, &str, &Call, u32, u32);

/// Widths and ranking differ in what is called, and in the room that is needed.
fn both_widths(book: &mut Book, kind: &str, seed: u64, push: Push, needed: fn(&Call) -> u32) {
    let mut rng = Rng::new(seed);
    for (class, call) in calls() {
        for room in rooms(&mut rng, call, needed(call), MOST_WIDTHS) {
            let (outside, within) = (one_of(&mut rng, &INPUTS_OUTSIDE), rng.span(2, 32));
            let input = one_of(&mut rng, &[2, 32, outside, within, within, within, within, within]);
            push(book, &format!("{kind} {class}"), call, input, room);
        }
    }
    for call in samples(60, 128) {
        let room = needed(call);
        for input in INPUTS {
            push(book, &format!("{kind} every input"), call, input, room);
        }
    }
    for call in samples(50, 12) {
        for room in every_room(needed(call), MOST_WIDTHS) {
            let input = rng.span(2, 32);
            push(book, &format!("{kind} every room"), call, input, room);
        }
    }
    for (mask, variant) in masks(8) {
        let (call, input, room) = faulty_widths(mask, variant, needed);
        push(book, &fault_class(kind, mask), &call, input, room);
    }
}

pub fn kind_widths(book: &mut Book) {
    both_widths(book, "widths", 109, Book::widths, widths_needed);
}

pub fn kind_ranking(book: &mut Book) {
    both_widths(book, "ranking", 110, Book::ranking, ranking_needed);
}
