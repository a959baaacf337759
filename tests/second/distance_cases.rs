//! Cases of distance.

use crate::book::{Book, MOST_WORDS};
use crate::constants::{ceiling, limit};
use crate::distance::{distance, gives, reached, serves, MAX_READY};
use crate::draw::{one_of, OUTSIDE_BITS};
use crate::graph_cases::masks;
use crate::operation::{operate, shapes};
use crate::rng::Rng;

fn named(book: &mut Book) {
    for target in [45, 43, 1, 3, 71, 105, 23, 81, 255] {
        book.distance("distance named sums", 8, target, &[1]);
        book.distance("distance named sums", 8, target, &[1, 5]);
        book.distance("distance named sums", 8, target, &[1, 151]);
        book.distance("distance named sums", 8, target, &[151, 1, 151]);
    }
    for target in (1..16).step_by(2) {
        book.distance("distance b 4, ready 9,17", 4, target, &[9, 17]);
        book.distance("distance b 4, ready 9,17", 4, target, &[17, 9, 9]);
    }
    for b in [2, 3, 4, 5, 6, 8, 10, 12, 16] {
        from_1(book, b);
    }
    for b in 2..=6 {
        for target in (1..1u32 << b).step_by(2) {
            book.distance("distance from the top", b, target, &[ceiling(b) - 1]);
        }
    }
}

/// Every odd constant from 1 alone.
pub fn from_1(book: &mut Book, b: u32) {
    for target in (1..1u32 << b).step_by(2) {
        book.distance_from_1(b, target);
    }
}

fn ready_list(rng: &mut Rng, size: u32, value: impl Fn(&mut Rng) -> u32) -> Vec<u32> {
    (0..size).map(|_| value(rng)).collect()
}

/// An odd number from 2^b to G - 1.
fn top_value(rng: &mut Rng, b: u32) -> u32 {
    rng.span(1 << b, ceiling(b) - 1) | 1
}

fn odd_below(rng: &mut Rng, b: u32) -> u32 {
    rng.below(1 << b) | 1
}

/// A target that an operation on a reached value makes, since under a large b few drawn blindly are
/// at distance 2.
fn two_steps(rng: &mut Rng, b: u32, ready: &[u32], hit: &[bool]) -> Option<u32> {
    let first: Vec<u32> = (1..ceiling(b)).step_by(2).filter(|&s| hit[s as usize]).collect();
    let shapes = shapes(b);
    (0..50).find_map(|_| {
        let (s, w) = (one_of(rng, &first), one_of(rng, ready));
        let other = if rng.below(4) == 0 { s } else { w };
        let (u, v) = if rng.below(2) == 0 { (s, other) } else { (other, s) };
        let (l1, l2, sign) = one_of(rng, &shapes);
        operate(b, u, v, l1, l2, sign).map(|o| o.value).filter(|&value| value < 1 << b)
    })
}

/// A target in the list, one that is reached, one two steps away, and some that are neither listed
/// nor reached, as far as there are any.
fn targets(rng: &mut Rng, b: u32, ready: &[u32], others: u32) -> Vec<u32> {
    let hit = reached(b, ready);
    let small: Vec<u32> = (1..1u32 << b).step_by(2).collect();
    let listed: Vec<u32> = ready.iter().copied().filter(|&v| v < 1 << b).collect();
    let (near, far): (Vec<u32>, Vec<u32>) =
        small.iter().filter(|c| !listed.contains(c)).partition(|&&c| hit[c as usize]);
    let mut list = Vec::new();
    for (group, count) in [(listed, 1), (near, 1), (far, others)] {
        if !group.is_empty() {
            list.extend((0..count).map(|_| one_of(rng, &group)));
        }
    }
    list.extend(two_steps(rng, b, ready, &hit));
    list
}

fn push_all(book: &mut Book, rng: &mut Rng, class: &str, b: u32, ready: &[u32], others: u32) {
    for target in targets(rng, b, ready, others) {
        book.distance(class, b, target, ready);
    }
}

fn random_lists(book: &mut Book, rng: &mut Rng) {
    for b in 2..=16 {
        for (least, most) in [(1, 1), (2, 3), (4, 7), (8, 20)] {
            let size = rng.span(least, most);
            let mut ready = ready_list(rng, size, |rng| rng.odd(limit(b)));
            push_all(book, rng, "distance random lists", b, &ready, 1);
            let place = rng.below(size) as usize;
            ready[place] = 1;
            push_all(book, rng, "distance lists with 1", b, &ready, 1);
            let ready = ready_list(rng, size, |rng| odd_below(rng, limit(b)).max(3));
            push_all(book, rng, "distance lists without 1", b, &ready, 1);
        }
        for size in [1, 3, 6] {
            let ready = ready_list(rng, size, |rng| top_value(rng, b));
            push_all(book, rng, "distance values from 2^b", b, &ready, 1);
        }
        let few = ready_list(rng, 3, |rng| rng.odd(limit(b)));
        for size in [2, 9, 129] {
            let ready = ready_list(rng, size, |rng| one_of(rng, &few));
            push_all(book, rng, "distance repeats", b, &ready, 1);
        }
    }
}

/// An odd multiple of the odd factor.
fn multiple(rng: &mut Rng, factor: u32, below: u32) -> u32 {
    let most = ((below - 1) / factor - 1) | 1;
    factor * (rng.below(most) | 1)
}

/// Of multiples of an odd number every operation makes a multiple of it again.
fn multiples(book: &mut Book, rng: &mut Rng) {
    for b in 4..=16 {
        for size in [1, 3, if b <= 9 { 129 } else { 12 }] {
            let factor = one_of(rng, &[3, 5, 7]);
            let ready = ready_list(rng, size, |rng| multiple(rng, factor, ceiling(b)));
            push_all(book, rng, "distance lists of multiples", b, &ready, 1);
            let target = multiple(rng, factor, 1 << b);
            book.distance("distance lists of multiples", b, target, &ready);
        }
    }
}

fn long_lists(book: &mut Book, rng: &mut Rng) {
    for b in 2..=16 {
        for (least, most) in [(21, 60), (61, 127), (128, 128), (129, 129)] {
            let size = rng.span(least, most);
            let ready = ready_list(rng, size, |rng| odd_below(rng, limit(b)));
            push_all(book, rng, "distance long lists", b, &ready, 1);
        }
        let ready = ready_list(rng, MAX_READY as u32, |rng| top_value(rng, b));
        push_all(book, rng, "distance long lists", b, &ready, 1);
        let ready: Vec<u32> = (0..limit(b)).map(|l| (1 << (l + 1)) - 1).collect();
        push_all(book, rng, "distance chains of 2^l - 1", b, &ready, 2);
    }
}

fn refused_lists(book: &mut Book, rng: &mut Rng) {
    for b in OUTSIDE_BITS {
        book.distance("distance bits out of range", b, 1, &[1]);
        book.distance("distance bits out of range", b, 0, &[]);
        book.distance("distance bits out of range", b, 3, &[2, 5]);
    }
    for length in [0, 1, 128, 129, 130, 131, 258, 1000, MOST_WORDS - 2] {
        for b in [2, 8, 16] {
            book.distance("distance lengths", b, 3, &vec![1; length]);
            book.distance("distance lengths", b, 2, &vec![ceiling(b) - 1; length]);
            book.distance("distance lengths", b, 1, &vec![4; length]);
        }
    }
    for b in [2, 3, 8, 15, 16] {
        let g = ceiling(b);
        for bad in [0, 2, g - 2, g, g + 1, 2 * g + 1, 0x8000_0001, u32::MAX] {
            let size = rng.span(1, 9);
            let mut ready = ready_list(rng, size, |rng| rng.odd(limit(b)));
            let place = rng.below(size) as usize;
            ready[place] = bad;
            book.distance("distance bad value", b, 1, &ready);
            ready[size as usize - 1] = one_of(rng, &[0, 4, g, g + 3]);
            book.distance("distance bad value", b, 3, &ready);
        }
        book.distance("distance value G - 1", b, 1, &[g - 1]);
    }
    for place in [0, 1, 63, 127, 128] {
        let mut ready = vec![511; MAX_READY];
        ready[place] = 513;
        book.distance("distance bad value in a long list", 8, 1, &ready);
        ready[128] = 0;
        book.distance("distance bad value in a long list", 8, 1, &ready);
    }
}

fn refused_targets(book: &mut Book) {
    for b in [2, 3, 8, 15, 16] {
        let top = 1 << b;
        for target in [0, 2, top - 2, top - 1, top, top + 1, 2 * top - 1, 2 * top + 1, u32::MAX] {
            book.distance("distance bad target", b, target, &[1]);
            // In the list, and yet no target.
            book.distance("distance bad target", b, target, &[1, 2 * top - 1, top + 1]);
        }
    }
}

/// The reached values that make the target reachable.
pub fn servers(b: u32, ready: &[u32], target: u32) -> Vec<u32> {
    let hit = reached(b, ready);
    let serving = |&s: &u32| hit[s as usize] && serves(b, ready, s, target);
    (1..ceiling(b)).step_by(2).filter(serving).collect()
}

/// What a search that leaves something out would miss, of a target at distance 2.
fn close_calls_of(b: u32, ready: &[u32], target: u32) -> Vec<&'static str> {
    let through = servers(b, ready, target);
    let shapes = shapes(b);
    let pair = |s: u32, w: u32| gives(b, &shapes, s, w, target) || gives(b, &shapes, w, s, target);
    let with_ready = |s: u32| ready.iter().any(|&w| pair(s, w));
    let found = [
        ("distance 2 through one value alone", through.len() == 1),
        ("distance 2 through 1 alone", through == [1]),
        ("distance 2 through greater values alone", through.iter().all(|&s| s > target)),
        ("distance 2 through values from 2^b alone", through.iter().all(|&s| s >= 1 << b)),
        ("distance 2 through a value with itself alone", !through.iter().any(|&s| with_ready(s))),
    ];
    found.into_iter().filter(|f| f.1).map(|f| f.0).collect()
}

fn close_calls(book: &mut Book, rng: &mut Rng) {
    for b in 3..=11 {
        let mut seen = Vec::new();
        for round in 0..600 {
            let size = rng.span(1, 5);
            let value = |rng: &mut Rng| match round % 3 {
                0 => odd_below(rng, limit(b)),
                1 => rng.odd(limit(b)),
                _ => top_value(rng, b),
            };
            let ready = ready_list(rng, size, value);
            let target = odd_below(rng, b);
            if distance(b, &ready, target) != Ok(2) {
                continue;
            }
            for class in close_calls_of(b, &ready, target) {
                if seen.iter().filter(|&&c| c == class).count() < 8 {
                    book.distance(class, b, target, &ready);
                    seen.push(class);
                }
            }
        }
    }
}

/// 2^(b + 1) less a value from 2^b on is the target: the greatest shift is needed.
fn greatest_shift(book: &mut Book, rng: &mut Rng) {
    for b in 2..=16 {
        for _ in 0..4 {
            let target = odd_below(rng, b).max(3);
            book.distance("distance 1 by shift b + 1", b, target, &[ceiling(b) - target, 1]);
            book.distance("distance 1 by shift b", b, target, &[1, (1 << b) - target]);
        }
    }
}

/// The refusals of distance in the order in which they count.
pub const DISTANCE_ORDER: [u32; 4] = [1, 10, 10, 11];

/// A good call (b, target, ready) with the faults of the mask.
pub fn faulty_distance(mask: u32, variant: usize) -> (u32, u32, Vec<u32>) {
    let (mut b, mut target, mut ready) = (8, 45, vec![1, 5, 511, 45, 7]);
    let has = |place: u32| mask >> place & 1 == 1;
    if has(3) {
        target = [0, 44, 256, 257, 511, u32::MAX][variant];
    }
    if has(2) {
        ready[variant % 5] = [0, 2, 510, 512, 513, u32::MAX][variant];
    }
    if has(1) && variant % 2 == 0 {
        ready = ready.repeat(26 + variant);
    } else if has(1) {
        ready.clear();
    }
    if has(0) {
        b = OUTSIDE_BITS[variant];
    }
    (b, target, ready)
}

pub fn kind_distance(book: &mut Book) {
    let mut rng = Rng::new(111);
    named(book);
    random_lists(book, &mut rng);
    multiples(book, &mut rng);
    long_lists(book, &mut rng);
    close_calls(book, &mut rng);
    greatest_shift(book, &mut rng);
    refused_lists(book, &mut rng);
    refused_targets(book);
    for (mask, variant) in masks(4) {
        let (b, target, ready) = faulty_distance(mask, variant);
        book.distance("distance faults together", b, target, &ready);
    }
}
