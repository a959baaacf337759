//! Lists and bit limits, admitted or not: by check, for a graph of no rows, and by generate, with no room.

use crate::book::{Book, Call, MOST_WORDS};
use crate::draw::{failing, passing, OUTSIDE_BITS};
use crate::generate_cases::ENOUGH;
use crate::rng::Rng;

/// The most targets of a line of check, which has three more numbers.
const MOST_TARGETS: usize = MOST_WORDS - 3;

/// Both calls look at bit limit and list first. What they say of an admitted one costs nothing to work out.
fn push(book: &mut Book, class: &str, b: u32, targets: &[i32]) {
    let call = Call { b, targets: targets.to_vec(), rows: 0, words: Vec::new() };
    book.check(&format!("check list {class}"), &call);
    book.generate(&format!("generate list {class}"), b, 0, targets);
}

/// One target, drawn too.
fn push_drawn(book: &mut Book, class: &str, b: u32, t: i32) {
    push(book, class, b, &[t]);
    book.generate(&format!("generate list {class}"), b, ENOUGH, &[t]);
}

fn edges(book: &mut Book) {
    for t in [255, 257, 768, -255, -257, -768, 0, 1, 256, i32::MIN, i32::MAX] {
        push_drawn(book, "of named edges", 8, t);
    }
    for b in 2..=16 {
        for odd in [(1i32 << b) - 1, (1 << b) + 1, 1 << b] {
            for t in [odd, -odd, odd << 1, -odd << 3, odd << (30 - b), -(odd << (30 - b))] {
                push_drawn(book, "of an odd part at the edge", b as u32, t);
            }
        }
        for t in [i32::MIN, i32::MAX, 0, 1, -1] {
            push_drawn(book, "of extremes", b as u32, t);
        }
    }
}

fn limits(book: &mut Book) {
    for b in OUTSIDE_BITS {
        let lists: [&[i32]; 6] = [&[], &[0], &[3], &[i32::MAX], &[5; 16], &[i32::MAX; 17]];
        for list in lists {
            push(book, "under bits out of range", b, list);
        }
    }
    for b in [2, 16] {
        let lists: [&[i32]; 5] = [&[], &[3], &[131071], &[65537; 17], &[1; 16]];
        for list in lists {
            push(book, "under bits at the ends", b, list);
        }
    }
}

fn lengths(book: &mut Book, rng: &mut Rng) {
    for length in (0..=20).chain([31, 32, 33, 64, 100, 128, 256, 1000, MOST_TARGETS]) {
        for b in [2, 8, 16] {
            let mut list: Vec<i32> = (0..length).map(|_| passing(rng, b)).collect();
            push(book, "lengths", b, &list);
            if length > 0 {
                list[length - 1] = failing(rng, b);
                push(book, "lengths, last one bad", b, &list);
                list[0] = failing(rng, b);
                push(book, "lengths, ends bad", b, &list);
            }
        }
    }
}

fn places(book: &mut Book) {
    for place in 0..16 {
        let mut list = [5; 16];
        list[place] = 257;
        push(book, "with one bad place", 8, &list);
        list[15] = -514;
        push(book, "with one bad place", 8, &list);
    }
}

pub fn kind_list(book: &mut Book) {
    let mut rng = Rng::new(102);
    edges(book);
    limits(book);
    lengths(book, &mut rng);
    places(book);
    for _ in 0..300 {
        let b = rng.span(2, 16);
        let length = rng.span(1, 16);
        let odds = rng.span(2, 20);
        let mut list = Vec::new();
        for _ in 0..length {
            let bad = rng.below(odds) == 0;
            list.push(if bad { failing(&mut rng, b) } else { passing(&mut rng, b) });
        }
        push(book, "drawn", b, &list);
    }
}
