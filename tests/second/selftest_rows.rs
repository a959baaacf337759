//! Named checks of the calls on one constant, and of the graphs in which single operations, rows and lists are tried.

use crate::chains::{add_chain, operated};
use crate::constants::{admit, ceiling, limit, parts};
use crate::digits::{canonic, Canonic};
use crate::draw::{failing, passing};
use crate::generator::generate;
use crate::graph::{check, value_at, ROW};
use crate::operation::operate;
use crate::rng::Rng;
use crate::row_cases::sensible;
use crate::selftest::Tally;

fn constants_apart(t: &mut Tally) {
    t.same("apart -20", parts(-20, 3), Ok(vec![-1, 2, 5]));
    t.same("apart 0", parts(0, 3), Ok(vec![0, 0, 0]));
    t.same("apart -2147483648", parts(i32::MIN, 3), Ok(vec![-1, 31, 1]));
    t.same("apart 2147483647", parts(i32::MAX, 4), Ok(vec![1, 0, 2147483647]));
    t.same("apart in two words", parts(0, 2), Err((4, 0)));
    let mut rng = Rng::new(14);
    let again = (0..1000).all(|_| {
        let n = rng.word() as i32 >> rng.below(32);
        matches!(parts(n, 3).as_deref(), Ok(&[sign, shift, odd])
            if sign * (odd << shift) == n as i64 && (n == 0 || odd % 2 == 1))
    });
    t.that("sign times 2^shift times odd part is the constant", again);
}

/// Whether the two words are digits of n, with no two neighbours nonzero.
fn proper(n: i32) -> bool {
    let Ok(Canonic { nonzero, plus, minus }) = canonic(n, 2) else {
        return false;
    };
    let all = (plus | minus) as u64;
    plus as i64 - minus as i64 == n as i64
        && plus & minus == 0
        && all & all << 1 == 0
        && all.count_ones() == nonzero
}

fn canonic_words(t: &mut Tally) {
    let form = |nonzero, plus, minus| Ok(Canonic { nonzero, plus, minus });
    t.same("canonic 0", canonic(0, 2), form(0, 0, 0));
    t.same("canonic 45", canonic(45, 2), form(4, 65, 20));
    t.same("canonic -45", canonic(-45, 2), form(4, 20, 65));
    t.same("canonic 71", canonic(71, 3), form(3, 72, 1));
    t.same("canonic 105", canonic(105, 2), form(4, 137, 32));
    t.same("canonic 2147483647", canonic(i32::MAX, 2), form(2, 1 << 31, 1));
    t.same("canonic -2147483648", canonic(i32::MIN, 2), form(1, 0, 1 << 31));
    t.same("canonic with the most digits", canonic(0x5555_5555, 2), form(16, 0x5555_5555, 0));
    t.same("canonic in one word", canonic(45, 1), Err((4, 0)));
    t.same("canonic in no word", canonic(0, 0), Err((4, 0)));
    t.that("canonic digits below 3000", (-3000..3000).all(proper));
    t.that("canonic digits at the ends", (0..300).all(|k| proper(i32::MIN + k) && proper(i32::MAX - k)));
    let mut rng = Rng::new(15);
    let drawn: Vec<i32> = (0..1000).map(|_| rng.word() as i32 >> rng.below(32)).collect();
    t.that("canonic digits of drawn constants", drawn.iter().all(|&n| proper(n)));
    let few = |n: i32| canonic(n, 2).is_ok_and(|c| c.nonzero <= 16);
    t.that("at most 16 are nonzero", drawn.iter().all(|&n| few(n)));
}

fn chains(t: &mut Tally) {
    for b in [2, 3, 4, 5, 8, 11, 16] {
        let step = if b == 16 { 14 } else { 2 };
        let made = (1..ceiling(b)).step_by(step).chain([ceiling(b) - 1]).all(|value| {
            let mut words = Vec::new();
            let index = add_chain(&mut words, value);
            index as usize == words.len() / ROW
                && value_at(&words, index as u64) == value
                && check(b, &[1], index as usize, &words) == Ok(())
        });
        t.that(&format!("odd values below G are made, b {b}"), made);
    }
}

/// A graph of an operation on values below G is accepted exactly if the operation is valid, and else its last row is refused.
fn operations_as_rows(t: &mut Tally) {
    let mut rng = Rng::new(16);
    for b in 2..=16 {
        let (mut agree, mut valid, mut not) = (true, 0, 0);
        for round in 0..100 {
            let mut words = sensible(&mut rng, b);
            if round % 2 == 0 {
                words[3 + round / 2 % 3] = rng.below(limit(b) + 2);
            }
            let [_, u, v, l1, l2, s] = words;
            for graph in operated(words) {
                let rows = graph.len() / ROW;
                let outcome = operate(b, u, v, l1, l2, s);
                let expected = if outcome.is_some() { Ok(()) } else { Err((6, rows as u32)) };
                agree &= check(b, &[1], rows, &graph) == expected;
                agree &= outcome.is_none_or(|o| value_at(&graph, rows as u64) == o.value);
                *(if outcome.is_some() { &mut valid } else { &mut not }) += 1;
            }
        }
        t.that(&format!("operations as rows, b {b}"), agree && valid > 20 && not > 20);
    }
}

/// Check and the generator refuse the same lists, and go on after that: to 7 or acceptance, and to 4 where nothing is lent.
fn lists(t: &mut Tally) {
    let mut rng = Rng::new(17);
    let mut agree = true;
    for round in 0..600 {
        let b = rng.span(1, 17);
        let size = rng.below(19);
        let within = b.clamp(2, 16);
        let one = |rng: &mut Rng| if round % 5 == 0 { failing(rng, within) } else { passing(rng, within) };
        let list: Vec<i32> = (0..size).map(|_| one(&mut rng)).collect();
        let (checked, drawn) = (check(b, &list, 0, &[]), generate(b, &list, 0));
        agree &= match admit(b, &list) {
            Err(refusal) => checked == Err(refusal) && drawn == Err(refusal),
            Ok(()) => checked.map_err(|r| r.0) != Err(3) && drawn == Err((4, 0)),
        };
    }
    t.that("lists by check and by generate", agree);
}

pub const ROWS: [(&str, fn(&mut Tally)); 5] = [
    ("constants apart", constants_apart),
    ("canonic words", canonic_words),
    ("chains", chains),
    ("operations as rows", operations_as_rows),
    ("lists", lists),
];
