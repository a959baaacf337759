//! Cases of apart and canonic.

use crate::book::{Book, MOST_ROOM};
use crate::rng::Rng;

const APART_WORDS: u32 = 3;
const CANONIC_WORDS: u32 = 2;

/// 2^k - 1, 2^k and 2^k + 1 for every k to 31.
fn around_powers() -> Vec<u32> {
    (0..32).flat_map(|k| [(1u32 << k) - 1, 1 << k, (1 << k) + 1]).collect()
}

/// Extremes, and what the document and the papers name.
const NAMED: [i32; 18] = [
    i32::MIN, i32::MIN + 1, i32::MAX, i32::MAX - 1, 255, 257, 768, -255, -257, -768, 45, 43, 71, 105, -45, -43, -71, -105,
];

type Push = fn(&mut Book, &str, i32, u32);

/// What both calls are tried on: `words` is the room that they need.
fn both(book: &mut Book, kind: &str, push: Push, words: u32, rng: &mut Rng) {
    for t in NAMED {
        push(book, &format!("{kind} named edges"), t, words);
    }
    for t in -100..=100 {
        push(book, &format!("{kind} small"), t, words);
    }
    for p in around_powers() {
        push(book, &format!("{kind} around powers"), p as i32, words);
        push(book, &format!("{kind} around powers"), (p as i32).wrapping_neg(), words);
    }
    for _ in 0..200 {
        push(book, &format!("{kind} random"), rng.word() as i32, words);
    }
    for _ in 0..200 {
        let t = rng.word() << rng.below(32);
        push(book, &format!("{kind} random shifted"), t as i32, words);
    }
    for t in [0, 1, -1, 45, -20, i32::MIN, i32::MAX, rng.word() as i32] {
        for room in (0..=words + 3).chain([64, MOST_ROOM]) {
            push(book, &format!("{kind} rooms"), t, room);
        }
    }
}

pub fn kind_apart(book: &mut Book) {
    both(book, "apart", Book::apart, APART_WORDS, &mut Rng::new(101));
}

pub fn kind_canonic(book: &mut Book) {
    let mut rng = Rng::new(103);
    both(book, "canonic", Book::canonic, CANONIC_WORDS, &mut rng);
    for t in 101..600 {
        book.canonic("canonic below 600", t, CANONIC_WORDS);
        book.canonic("canonic below 600", -t, CANONIC_WORDS);
    }
    let repeated = [0x5555_5555, 0xAAAA_AAAA, 0xAAAA_AAAB, 0x3333_3333, 0xCCCC_CCCD, 0xB6DB_6DB7u32];
    for pattern in repeated {
        for cut in 0..24 {
            book.canonic("canonic repeated patterns", (pattern >> cut) as i32, CANONIC_WORDS);
            let negative = ((pattern >> cut) as i32).wrapping_neg();
            book.canonic("canonic repeated patterns", negative, CANONIC_WORDS);
        }
    }
    for p in around_powers() {
        book.canonic("canonic three times a power", p.wrapping_mul(3) as i32, CANONIC_WORDS);
    }
    for _ in 0..300 {
        let odd = rng.word() >> 16 | 1;
        book.canonic("canonic random below 2^16", odd as i32, CANONIC_WORDS);
    }
}
