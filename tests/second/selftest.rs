//! Named checks: document 01's sums, figures of the papers, and properties tried out plainly.

use crate::book::Book;
use crate::constants::{admit, ceiling, limit, take_apart, wanted, Apart};
use crate::digits::{csd_sum, denoted, form, forms, nonzeros, prefixes, Prefix};
use crate::distance::{distance, reached, serves, BEYOND};
use crate::distance_cases::from_1;
use crate::generate_cases::PAPER_ROWS;
use crate::generator::generate;
use crate::graph::{check, flatten, output, Output, Row, MAX_ROWS, ROW};
use crate::operation::{agrees, operate, shapes, Outcome};
use crate::products::{products, row_products};
use crate::rng::Rng;
use crate::selftest_cases::MORE;
use crate::selftest_rows::ROWS;
use crate::selftest_text::TEXTS;
use crate::widths::{bits, output_width, ranking, row_width, widths, Job};
use std::panic::{catch_unwind, AssertUnwindSafe};

const WORDS: usize = MAX_ROWS * ROW;

pub struct Tally {
    passed: u32,
    failed: u32,
}

impl Tally {
    pub fn that(&mut self, name: &str, holds: bool) {
        if holds {
            self.passed += 1;
        } else {
            self.failed += 1;
            println!("failed: {name}");
        }
    }

    pub fn same<T: PartialEq + std::fmt::Debug>(&mut self, name: &str, got: T, expected: T) {
        let holds = got == expected;
        self.that(name, holds);
        if !holds {
            println!("  got {got:?}, expected {expected:?}");
        }
    }
}

pub fn rows(b: u32, targets: &[i32]) -> Vec<Row> {
    generate(b, targets, WORDS).expect("not refused")
}

fn proved_graphs(t: &mut Tally) {
    let p1 = rows(8, &[45]);
    t.same("P1 rows", p1.clone(), vec![[0, 0, 0, 1, 0, 0, 3], [1, 1, 0, 4, 1, 0, 45]]);
    t.same("P1 n", operate(8, 3, 3, 0, 4, 1).map(|o| o.n), Some(-45));
    let words = flatten(&p1);
    t.same("P1 row product", row_products(2, &words, -7)[2], -315);
    t.same("P1 product", products(8, &[45], 2, &words, -7, 1), Ok(vec![-315]));
    let p2 = vec![[0, 0, 0, 3, 1, 0, 7], [0, 1, 6, 0, 0, 0, 71]];
    t.same("P2", rows(8, &[71]), p2);
    let p3 = vec![[0, 0, 2, 0, 1, 0, 3], [1, 0, 2, 0, 1, 0, 11], [2, 0, 2, 0, 1, 0, 43]];
    t.same("P3", rows(8, &[43]), p3);
}

/// Worked by hand: which constant is smallest decides the rows.
fn tie_breaks(t: &mut Tally) {
    let a = vec![[0, 0, 0, 1, 0, 0, 3], [0, 0, 0, 2, 0, 0, 5]];
    t.same("A takes the smallest", rows(8, &[5, 3]), a);
    let b = vec![[0, 0, 0, 1, 0, 0, 3], [0, 1, 0, 2, 1, 0, 11], [0, 2, 0, 2, 0, 0, 45]];
    t.same("B takes the smallest", rows(8, &[45, 11]), b);
    let mut c = rows(8, &[43]);
    c.push([0, 3, 0, 2, 1, 0, 171]);
    t.same("C takes the smallest", rows(8, &[171, 43]), c);
}

fn proved_distances(t: &mut Tally) {
    t.same("P4 45", distance(8, &[1], 45), Ok(2));
    t.same("P4 43", distance(8, &[1], 43), Ok(BEYOND));
    t.same("P4 1", distance(8, &[1], 1), Ok(0));
    t.same("P5", distance(8, &[1, 5], 45), Ok(1));
    t.same("P6", operate(8, 5, 1, 0, 0, 0), Some(Outcome { n: 6, r: 1, value: 3 }));
    let five = [0, 0, 0, 2, 0, 0, 5];
    let graph = |r, value| flatten(&[five, [1, 0, 0, 0, 0, r, value]]);
    t.that("P6 words r 1", agrees(8, 5, 1, &graph(1, 3)[ROW..]));
    t.same("P6 row r 1", check(8, &[3], 2, &graph(1, 3)), Ok(()));
    t.same("P6 row r 0, value 3", check(8, &[3], 2, &graph(0, 3)), Err((6, 2)));
    t.same("P6 row r 0, value 6", check(8, &[3], 2, &graph(0, 6)), Err((6, 2)));
    for b in 2..=16 {
        let none = (1..ceiling(b)).step_by(2).all(|u| operate(b, u, u, 0, 0, 1).is_none());
        t.that(&format!("P7 b {b}"), none);
    }
}

fn proved_targets(t: &mut Tally) {
    t.same("P8 255", admit(8, &[255]), Ok(()));
    t.same("P8 257", admit(8, &[257]), Err((3, 1)));
    t.same("P8 768", admit(8, &[768]), Ok(()));
    t.same("P8 768 apart", take_apart(768), Apart { sign: 1, shift: 8, odd: 3 });
    t.same("P9 apart", take_apart(i32::MIN), Apart { sign: -1, shift: 31, odd: 1 });
    t.same("P9 rows", rows(8, &[i32::MIN]), vec![]);
    let extreme = products(8, &[i32::MIN], 0, &[], i32::MIN, 1);
    t.same("P9 product", extreme, Ok(vec![4611686018427387904]));
    t.same("P10", row_width(2, 3), 4);
}

fn unmarked_sums(t: &mut Tally) {
    t.same("list 0", rows(8, &[0]), vec![]);
    t.same("list 1,-8", rows(8, &[1, -8]), vec![]);
    t.same("list 5,5,-10", rows(8, &[5, 5, -10]).len(), 1);
    t.same("895 words", generate(8, &[45], 895), Err((4, 0)));
    t.same("896 words", generate(8, &[45], 896).map(|r| r.len()), Ok(2));
    t.same("zero apart", take_apart(0), Apart { sign: 0, shift: 0, odd: 0 });
    t.same("wanted set", wanted(&[-20, 45, 0, 10, 1, 90, -8]), vec![5, 45]);
}

fn sample_listing(t: &mut Tally) {
    let targets = [45, -20, 0];
    let drawn = rows(8, &targets);
    t.same("sample rows", drawn.clone(), vec![[0, 0, 0, 2, 0, 0, 5], [1, 1, 0, 3, 0, 0, 45]]);
    let words = flatten(&drawn);
    let job = Job { b: 8, targets: &targets, row_count: 2, words: &words };
    t.same("sample widths", widths(job, 12, 5), Ok(vec![15, 18, 18, 17, 1]));
    t.same("sample ranking", ranking(job, 12, 2), Ok(vec![2, 1]));
    t.same("sample csd", csd_sum(&targets), 4);
    let out = |i: usize| output(2, &words, targets[i]);
    t.same("sample out 1", out(0), Output { index: 2, shift: 0, sign: 1 });
    t.same("sample out 2", out(1), Output { index: 1, shift: 2, sign: -1 });
    t.same("sample out 3", out(2), Output { index: 0, shift: 0, sign: 0 });
}

/// How many answers of distance 1 and of distance 2 the cases expect for all odd constants from 1.
fn expected_counts(b: u32) -> (usize, usize) {
    let mut book = Book::new();
    from_1(&mut book, b);
    let at = |answer: &str| book.expected.lines().filter(|&line| line == answer).count();
    (at("0 0 1"), at("0 0 2"))
}

fn paper_figures(t: &mut Tally) {
    for (list, count) in PAPER_ROWS {
        t.same(&format!("rows for {list:?}"), rows(8, list).len(), count);
    }
    for (b, one, two) in [(8, 13, 64), (10, 17, 132), (12, 21, 224), (16, 29, 480)] {
        t.same(&format!("constants at 1 and 2, b {b}"), expected_counts(b), (one, two));
    }
    t.same("b 4, ready 9,17: 3", distance(4, &[9, 17], 3), Ok(2));
    let hit = reached(4, &[9, 17]);
    let through: Vec<u32> =
        (0..32).filter(|&s| hit[s as usize] && serves(4, &[9, 17], s, 3)).collect();
    t.same("b 4, ready 9,17: 3 through", through, vec![1]);
    t.same("b 8, ready 1,151: 43", distance(8, &[1, 151], 43), Ok(2));
    t.same("form of 71", form(71), vec![-1, 0, 0, 1, 0, 0, 1]);
    // 128 - 32 + 8 + 1; the text of document 002 has the bar one nonzero too far right (153).
    t.same("form of 105", form(105), vec![1, 0, 0, 1, 0, -1, 0, 1]);
}

fn canonic_forms(t: &mut Tally) {
    let proper = |n: u32, f: &[i64]| {
        f.windows(2).all(|p| p[0] == 0 || p[1] == 0)
            && f.last().is_none_or(|&d| d != 0)
            && denoted(f) == n as i64
    };
    let unique = |n: u32| matches!(&forms(n)[..], [f] if proper(n, f));
    t.that("one form below 4096", (0..4096).all(unique));
    t.that("one form at the top of u32", (u32::MAX - 300..=u32::MAX).all(unique));
    t.same("nonzeros of 0, 1, 45, 43", [0, 1, 45, 43].map(nonzeros), [0, 1, 4, 4]);
    t.that("no prefixes of 0, 1, 8", [0, 1, 8].iter().all(|&n| prefixes(n).is_empty()));
    let p = |before, gap, s, value| Prefix { before, gap, s, value };
    let of_43 = vec![p(1, 2, 1, 3), p(3, 2, 1, 11), p(11, 2, 1, 43)];
    t.same("prefixes of 43", prefixes(43), of_43.clone());
    t.same("prefixes of 344", prefixes(344), of_43);
    t.same("prefixes of 4294967295", prefixes(u32::MAX), vec![p(1, 32, 1, u32::MAX)]);
    let most = (1..1u32 << 16).step_by(2).map(nonzeros).max();
    t.same("most nonzeros below 2^16, so that 128 rows are enough", most, Some(9));
}

/// The fewest two's complement bits that hold every one of the numbers.
pub fn fewest_bits(numbers: impl Fn() -> Vec<i64>) -> u32 {
    let within = |k: u32, y: i128| -(1i128 << (k - 1)) <= y && y < 1i128 << (k - 1);
    let holds = |k: u32| numbers().iter().all(|&y| within(k, y as i128));
    (1..=64).find(|&k| holds(k)).expect("at most 64 bits")
}

fn fewest_widths(t: &mut Tally) {
    for w in 2..=6 {
        let xs = || -(1i64 << (w - 1))..1i64 << (w - 1);
        let times = |c: i64| fewest_bits(|| xs().map(|x| c * x).collect());
        let rows = (1..=40).all(|value| row_width(w, value) == times(value as i64));
        t.that(&format!("fewest row widths, w {w}"), rows);
        let outs = (0..=40).all(|c| output_width(w, c) == times(c as i64));
        t.that(&format!("fewest output widths, w {w}"), outs);
        let shifted = (1..=40).all(|v| (0..4).all(|r| times((v as i64) << r) == row_width(w, v) + r));
        t.that(&format!("r bits wider before the right shift, w {w}"), shifted);
    }
    t.same("output width of -2147483648", output_width(32, i32::MIN), 63);
    t.same("bits", [0, 1, 2, 3, 4, 5, u32::MAX].map(bits), [0, 0, 1, 2, 2, 3, 32]);
}

fn check_order(t: &mut Tally) {
    let good = flatten(&rows(8, &[45]));
    let mut bad = good.clone();
    bad[ROW + 5] = 1;
    t.same("check accepts", check(8, &[45, 0, 12], 2, &good), Ok(()));
    t.same("check 1 first", check(17, &[], 200, &bad), Err((1, 0)));
    t.same("check 2 next", check(8, &[], 200, &bad), Err((2, 0)));
    t.same("check 2 before 3", check(8, &[257; 17], 200, &bad), Err((2, 0)));
    t.same("check 3 next", check(8, &[1, 514], 200, &bad), Err((3, 2)));
    t.same("check 5 rows exceed", check(8, &[45], 3, &bad), Err((5, 0)));
    t.same("check 5 over 128", check(8, &[1], 129, &vec![0; 2000]), Err((5, 0)));
    t.same("check 5 huge", check(8, &[1], usize::MAX, &bad), Err((5, 0)));
    t.same("check 6 before 7", check(8, &[7], 2, &bad), Err((6, 2)));
    t.same("check 6 own index", check(8, &[1], 1, &[1, 0, 0, 0, 0, 1, 1]), Err((6, 1)));
    t.same("check 6 own index twice", check(8, &[1], 1, &[1, 1, 0, 0, 0, 1, 9]), Err((6, 1)));
    t.same("check 7", check(8, &[1, 3, 7, 14], 2, &good), Err((7, 3)));
    t.same("check 7 needs the row count", check(8, &[45], 1, &good), Err((7, 1)));
    t.same("check 128 rows", check(8, &[3], 128, &[0, 0, 0, 1, 0, 0, 3].repeat(128)), Ok(()));
}

fn other_orders(t: &mut Tally) {
    let good = flatten(&rows(8, &[45]));
    let targets = [45, 3];
    let job = |row_count| Job { b: 8, targets: &targets, row_count, words: &good };
    t.same("widths check first", widths(job(3), 1, 0), Err((5, 0)));
    t.same("widths 9 before 4", widths(job(2), 33, 0), Err((9, 0)));
    t.same("widths 4", widths(job(2), 32, 3), Err((4, 0)));
    t.same("widths fit", widths(job(2), 32, 4), Ok(vec![34, 38, 38, 34]));
    t.same("ranking 9 before 4", ranking(job(2), 1, 0), Err((9, 0)));
    t.same("ranking 4", ranking(job(2), 2, 1), Err((4, 0)));
    t.same("products check first", products(8, &targets, 1, &good, 1, 0), Err((7, 1)));
    t.same("products 4", products(8, &targets, 2, &good, 1, 1), Err((4, 0)));
    t.same("generate 3 before 4", generate(8, &[257], 0), Err((3, 1)));
    t.same("distance 1", distance(1, &[], 0), Err((1, 0)));
    t.same("distance 10 empty", distance(8, &[], 0), Err((10, 0)));
    t.same("distance 10 length before values", distance(8, &[2; 130], 0), Err((10, 0)));
    t.same("distance 10 even", distance(8, &[511, 2, 513], 0), Err((10, 2)));
    t.same("distance 10 at G", distance(8, &[511, 513], 0), Err((10, 2)));
    t.same("distance 11", [0, 2, 257].map(|c| distance(8, &[1; 129], c)), [Err((11, 0)); 3]);
    t.same("distance 255", distance(8, &[1; 129], 255), Ok(1));
}

/// Distance once more, straight from its sentence: the list with s added, for every s.
fn distance_by_sets(b: u32, ready: &[u32], target: u32) -> u32 {
    let at = target as usize;
    let hit = reached(b, ready);
    let added = |s: u32| [ready, &[s]].concat();
    let two = || (0..ceiling(b)).any(|s| hit[s as usize] && reached(b, &added(s))[at]);
    match () {
        _ if ready.contains(&target) => 0,
        _ if hit[at] => 1,
        _ if two() => 2,
        _ => BEYOND,
    }
}

fn distances_by_sets(t: &mut Tally) {
    let mut rng = Rng::new(11);
    for b in 2..=6 {
        let mut agree = true;
        for _ in 0..20 {
            let size = rng.span(1, 3);
            let ready: Vec<u32> = (0..size).map(|_| rng.odd(limit(b))).collect();
            let targets = (1..1u32 << b).step_by(2);
            agree &= targets.clone().all(|c| distance(b, &ready, c) == Ok(distance_by_sets(b, &ready, c)));
        }
        t.that(&format!("distance by sets, b {b}"), agree);
    }
}

pub fn sound(b: u32, targets: &[i32]) -> bool {
    let drawn = rows(b, targets);
    let words = flatten(&drawn);
    let times = |x: i32| targets.iter().map(|&c| c as i64 * x as i64).collect();
    let product = |x: i32| products(b, targets, drawn.len(), &words, x, targets.len());
    check(b, targets, drawn.len(), &words) == Ok(())
        && drawn.len() <= csd_sum(targets) as usize
        && [i32::MIN, -7, -1, 0, 1, 5, i32::MAX].iter().all(|&x| product(x) == Ok(times(x)))
}

fn random_target(rng: &mut Rng, b: u32) -> i32 {
    let size = (rng.odd(b) as i64) << rng.span(0, 31 - b);
    (if rng.below(2) == 0 { size } else { -size }) as i32
}

fn random_lists(t: &mut Tally) {
    let mut rng = Rng::new(12);
    for b in 2..=16 {
        let mut all = true;
        for round in 0..8 {
            let size = if round == 0 { 16 } else { rng.span(1, 16) };
            let targets: Vec<i32> = (0..size).map(|_| random_target(&mut rng, b)).collect();
            all &= sound(b, &targets);
        }
        t.that(&format!("generated graphs, b {b}"), all);
    }
    let single = (1..256).all(|c| {
        let few = rows(8, &[c]).len() as u32;
        few == distance(8, &[1], take_apart(c).odd).unwrap() || few >= 3
    });
    t.that("single constants at their distance, b 8", single);
}

fn shapes_and_signs(t: &mut Tally) {
    for b in 2..=16 {
        let list = shapes(b);
        let sorted = list.windows(2).all(|p| p[0] < p[1]);
        t.that(&format!("shapes, b {b}"), sorted && list.len() as u32 == 4 * limit(b) + 2);
    }
    let top = [[0, 0, 9, 0, 1, 0, 511], [1, 1, 0, 0, 0, 1, 511], [0, 2, 0, 0, 1, 1, 255]];
    let words = flatten(&top);
    t.same("rows of r above 0 and negative n", check(8, &[255], 3, &words), Ok(()));
    let exact = [i32::MIN, -1, 1, i32::MAX].iter().all(|&x| {
        row_products(3, &words, x)[1..] == [511, 511, 255].map(|v| v * x as i128)
    });
    t.that("their products", exact);
    let job = Job { b: 8, targets: &[255], row_count: 3, words: &words };
    t.same("their ranking", ranking(job, 32, 3), Ok(vec![1, 2, 3]));
}

const PARTS: [(&str, fn(&mut Tally)); 14] = [
    ("proved graphs", proved_graphs),
    ("tie-breaks", tie_breaks),
    ("proved distances", proved_distances),
    ("proved targets", proved_targets),
    ("unmarked sums", unmarked_sums),
    ("sample listing", sample_listing),
    ("paper figures", paper_figures),
    ("canonic forms", canonic_forms),
    ("fewest widths", fewest_widths),
    ("check order", check_order),
    ("other orders", other_orders),
    ("distances by sets", distances_by_sets),
    ("random lists", random_lists),
    ("shapes and signs", shapes_and_signs),
];

/// Whether every check passed; a panic is one failure, so that the last line always comes.
pub fn run() -> bool {
    let mut tally = Tally { passed: 0, failed: 0 };
    for (name, part) in PARTS.into_iter().chain(MORE).chain(ROWS).chain(TEXTS) {
        let ended = catch_unwind(AssertUnwindSafe(|| part(&mut tally))).is_ok();
        if !ended {
            tally.that(&format!("{name}: panicked"), false);
        }
    }
    println!("{} passed, {} failed", tally.passed, tally.failed);
    tally.failed == 0
}
