//! More named checks: the papers' graphs, and what the classes of cases claim.

use crate::book::{lent, Book, Call};
use crate::constants::{limit, take_apart, wanted, Refusal};
use crate::digits::{nonzeros, prefixes};
use crate::distance::distance;
use crate::distance_cases::{faulty_distance, servers, DISTANCE_ORDER};
use crate::generate_cases::{
    faulty_generate, mixed_lists, ABOVE, GENERATE_ORDER, READY_PREFIX,
};
use crate::generator::generate;
use crate::graph::{check, flatten, row_at, value_at, Row, ROW};
use crate::graph_cases::{
    faulty, faulty_products, faulty_widths, masks, ranking_needed, widths_needed, CHECK_ORDER,
};
use crate::operation::operate;
use crate::papers::FIGURES;
use crate::pool::{calls, PICKED};
use crate::products::{products, row_products};
use crate::rng::Rng;
use crate::selftest::{fewest_bits, rows, sound, Tally};
use crate::widths::{output_width, ranking, row_width, widths};

const SOME_X: [i32; 7] = [i32::MIN, -7, -1, 0, 1, 5, i32::MAX];

fn figures(t: &mut Tally) {
    for (name, targets, drawn) in FIGURES {
        let words = flatten(drawn);
        let own = targets.iter().max().expect("a constant").ilog2() + 1;
        t.same(name, check(own, targets, drawn.len(), &words), Ok(()));
        let short = check(own - 1, targets, drawn.len(), &words).map_err(|refusal| refusal.0);
        t.same(&format!("{name}, one bit less"), short, Err(3));
        let exact = SOME_X.iter().all(|&x| {
            let times = targets.iter().map(|&c| c as i64 * x as i64).collect();
            products(own, targets, drawn.len(), &words, x, targets.len()) == Ok(times)
        });
        t.that(&format!("{name}, products"), exact);
    }
    t.same("23 and 81 by three rows, the rule takes four", rows(8, &[23, 81]).len(), 4);
    // Document 002: never below four adders, so it is beyond; six nonzero digits give five rows.
    t.same("1717 by the rule", rows(11, &[1717]).len(), 5);
}

/// Adder depth, GP count, input load and greatest internal fan-out, as document 002 counts them:
/// a node's GP is one more than those of its two operands together, and the input's is 0.
fn measures(drawn: &[Row]) -> [usize; 4] {
    let (mut depth, mut gp) = (vec![0], vec![0]);
    let mut uses = vec![0; drawn.len() + 1];
    for row in drawn {
        let (u, v) = (row[0] as usize, row[1] as usize);
        depth.push(1 + depth[u].max(depth[v]));
        gp.push(1 + gp[u] + gp[v]);
        uses[u] += 1;
        uses[v] += 1;
    }
    let internal = uses[1..].iter().max().copied().unwrap_or(0);
    [depth[drawn.len()], gp.iter().sum(), uses[0], internal]
}

/// Tables 5 and 6 of document 002, which show that the rows drawn by hand are its figure 14.
fn figure_14(t: &mut Tally) {
    let table = [
        ([3, 11, 693], [4, 14, 4, 2]),
        ([3, 11, 1013], [4, 12, 4, 2]),
        ([63, 189, 693], [4, 15, 3, 3]),
        ([63, 189, 1213], [4, 14, 3, 3]),
        ([63, 1087, 1213], [4, 13, 3, 3]),
        ([63, 1087, 315], [3, 12, 3, 3]),
    ];
    for ((name, _, drawn), (values, figures)) in FIGURES.iter().zip(table) {
        let got: Vec<u32> = drawn[..3].iter().map(|row| row[ROW - 1]).collect();
        t.same(&format!("{name}, table 6"), got, values.to_vec());
        t.same(&format!("{name}, table 5"), measures(drawn), figures);
    }
}

/// The refusal that each class has by the way it is made; 0 is acceptance.
const NUMBERS: [(&str, u32); 28] = [
    ("generated graphs", 0),
    ("random valid graphs", 0),
    ("large values", 0),
    ("repeated values", 0),
    ("right shifts", 0),
    ("negative n in every row", 0),
    ("rows nobody uses", 0),
    ("64 to 128 rows", 0),
    ("all rows equal", 0),
    ("equal widths, other values", 0),
    ("rising values", 0),
    ("rising values twice", 0),
    ("falling values", 0),
    ("ties at many rows", 0),
    ("trailing words", 0),
    ("value in the last row", 0),
    ("damage after the rows", 0),
    ("shift b + 1", 0),
    ("bits out of range", 1),
    ("odd part too large", 3),
    ("rows beyond the slice", 5),
    ("own or later index", 6),
    ("both shifts positive", 6),
    ("shift b + 2", 6),
    ("value at least G", 6),
    ("n = 0", 6),
    ("unserved target", 7),
    ("value after the last row", 7),
];

fn number<T>(result: Result<T, Refusal>) -> u32 {
    result.err().map_or(0, |refusal| refusal.0)
}

fn pool_numbers(t: &mut Tally) {
    for (class, expected) in NUMBERS {
        let mut members = calls().iter().filter(|(c, _)| *c == class).peekable();
        t.that(&format!("class {class} is there"), members.peek().is_some());
        let made = members.all(|(_, call)| number(call.check()) == expected);
        t.that(&format!("class {class} is refused with {expected}"), made);
    }
    for number_wanted in [0, 1, 2, 3, 5, 6, 7] {
        let some = calls().iter().any(|(_, call)| number(call.check()) == number_wanted);
        t.that(&format!("some call on a graph gets {number_wanted}"), some);
    }
}

fn n_of(call: &Call, row: &[u32]) -> i64 {
    let [u, v] = [row[0], row[1]].map(|i| value_at(&call.words, i as u64));
    operate(call.b, u, v, row[2], row[3], row[4]).expect("a valid row").n
}

fn picked(t: &mut Tally) {
    for (class, _) in PICKED {
        let mine = calls().iter().filter(|(c, _)| *c == class);
        let members: Vec<&Call> = mine.map(|(_, call)| call).collect();
        let every = |holds: &dyn Fn(&Call, &[u32]) -> bool| {
            members.iter().all(|call| call.words.chunks(ROW).all(|row| holds(call, row)))
        };
        let twice = |call: &&&Call| {
            let chunks: Vec<&[u32]> = call.words.chunks(ROW).collect();
            (1..chunks.len()).any(|i| chunks[..i].contains(&chunks[i]))
        };
        let top = |call: &&&Call| call.words.chunks(ROW).any(|row| row[ROW - 1] >= 1 << call.b);
        let holds = match class {
            "large values" => members.iter().filter(top).count() * 2 > members.len(),
            "repeated values" => members.iter().filter(twice).count() * 2 > members.len(),
            "right shifts" => every(&|_, row| row[5] > 0),
            "negative n in every row" => every(&|call, row| n_of(call, row) < 0),
            _ => every(&|_, row| row[0] == 0 && row[1] == 0),
        };
        t.that(&format!("class {class} is what it says"), holds);
    }
}

fn accepted() -> impl Iterator<Item = &'static Call> {
    calls().iter().map(|c| &c.1).filter(|call| call.check().is_ok())
}

fn exact_products(call: &Call, x: i32) -> bool {
    let all = row_products(call.rows as usize, &call.words, x);
    let value = |i: usize| value_at(&call.words, i as u64) as i128;
    let times: Vec<i64> = call.targets.iter().map(|&c| c as i64 * x as i64).collect();
    (0..all.len()).all(|i| all[i] == value(i) * x as i128)
        && call.products(x, call.targets.len() as u32) == Ok(times)
}

/// A product grows with x, so the two ends of the inputs decide the fewest bits.
fn fewest(w: u32, factor: i64) -> u32 {
    let (low, high) = (-(1i64 << (w - 1)), (1i64 << (w - 1)) - 1);
    fewest_bits(|| vec![factor * low, factor * high])
}

fn exact_widths(call: &Call, w: u32) -> bool {
    let rows = call.rows as u64;
    let mut list: Vec<u32> =
        (1..=rows).map(|i| fewest(w, value_at(&call.words, i) as i64)).collect();
    // Document 01 gives -2^k the width of 2^k, though times -2^(w - 1) it needs one bit more.
    let less = |t: i32| (t < 0 && t.unsigned_abs().is_power_of_two()) as u32;
    list.extend(call.targets.iter().map(|&t| fewest(w, t as i64) - less(t)));
    widths(call.job(), w, list.len()) == Ok(list)
}

/// A permutation of the rows in which each next one is narrower, or as wide and of higher number.
fn orderly(call: &Call, w: u32) -> bool {
    let Ok(ranks) = ranking(call.job(), w, call.rows as usize) else {
        return false;
    };
    let width = |row: u32| {
        row_width(w, row_at(&call.words, row as u64).expect("a row of the graph")[ROW - 1])
    };
    let mut sorted = ranks.clone();
    sorted.sort();
    sorted == (1..=call.rows).collect::<Vec<u32>>()
        && ranks.windows(2).all(|p| {
            width(p[0]) > width(p[1]) || (width(p[0]) == width(p[1]) && p[0] < p[1])
        })
}

fn accepted_graphs(t: &mut Tally) {
    t.that("many are accepted", accepted().count() > 500);
    for x in SOME_X {
        let exact = accepted().all(|call| exact_products(call, x));
        t.that(&format!("products of accepted graphs, x {x}"), exact);
    }
    for w in [2, 3, 16, 31, 32] {
        let fewest = accepted().all(|call| exact_widths(call, w));
        t.that(&format!("fewest widths of accepted graphs, w {w}"), fewest);
        let ordered = accepted().all(|call| orderly(call, w));
        t.that(&format!("ranking is an ordered permutation, w {w}"), ordered);
    }
    t.same("output width of 0 whatever w", [2, 32].map(|w| output_width(w, 0)), [1, 1]);
}

/// The line that is pushed, and its answer.
fn line(push: impl Fn(&mut Book)) -> (String, String) {
    let mut book = Book::new();
    push(&mut book);
    (String::from_utf8(book.cases).expect("ASCII"), book.expected)
}

fn layouts(t: &mut Tally) {
    t.same("a refusal writes nothing", lent(3, Err((4, 0))), "4 0 7000 7001 7002".to_string());
    t.same("only what is needed", lent(3, Ok(vec![-5])), "0 0 -5 7001 7002".to_string());
    let words = flatten(&[[0, 0, 0, 2, 0, 0, 5], [1, 1, 0, 3, 0, 0, 45]]);
    let call = Call { b: 8, targets: vec![45, -20, 0], rows: 2, words };
    let mut is = |got: (String, String), case: &str, answer: &str| {
        t.same(&format!("case of {case}"), got, (format!("{case}\n"), format!("{answer}\n")));
    };
    let graph = |head: &str| format!("{head} 8 3 45 -20 0 2 0 0 0 2 0 0 5 1 1 0 3 0 0 45");
    is(line(|book| book.check("", &call)), &graph("check"), "0 0");
    is(line(|book| book.products("", &call, -3, 4)), &graph("products -3 4"), "0 0 -135 60 0 7003");
    is(line(|book| book.widths("", &call, 12, 6)), &graph("widths 12 6"), "0 0 15 18 18 17 1 7005");
    is(line(|book| book.ranking("", &call, 12, 3)), &graph("ranking 12 3"), "0 0 2 1 7002");
    is(line(|book| book.distance("", 8, 43, &[1])), "distance 8 43 1", "0 0 3");
    is(line(|book| book.distance("", 8, 43, &[])), "distance 8 43", "10 0");
    let one_row = "0 0 1 0 0 0 2 0 0 5 890";
    is(line(|book| book.generate("", 8, 897, &[5, 5])), "generate 8 897 5 5", one_row);
    is(line(|book| book.generate("", 8, 895, &[-5])), "generate 8 895 -5", "4 0 0 895");
    is(line(|book| book.apart("", -20, 4)), "apart -20 4", "0 0 -1 2 5 7003");
    is(line(|book| book.apart("", -20, 2)), "apart -20 2", "4 0 7000 7001");
    is(line(|book| book.canonic("", -45, 3)), "canonic -45 3", "0 0 4 20 65 7002");
    is(line(|book| book.canonic("", 45, 1)), "canonic 45 1", "4 0 7000");
    is(line(|book| book.text("", b"")), "job", "refused=12 place=1\\n");
    is(line(|book| book.text("", b"b \\\n\xff ")), "job b \\\\\\n\\xff ", "refused=12 place=1\\n");
}

/// The number of the earliest fault in the mask.
pub fn earliest(order: &[u32], mask: u32) -> u32 {
    (0..order.len()).find(|&place| mask >> place & 1 == 1).map_or(0, |place| order[place])
}

fn faults(t: &mut Tally) {
    let with = |more: &[u32]| [&CHECK_ORDER, more].concat();
    let checks = masks(6).into_iter().all(|(mask, variant)| {
        number(faulty(mask, variant).check()) == earliest(&CHECK_ORDER, mask)
    });
    t.that("check: the earliest fault counts", checks);
    let multiplied = masks(7).into_iter().all(|(mask, variant)| {
        let (call, room) = faulty_products(mask, variant);
        number(call.products(1, room)) == earliest(&with(&[4]), mask)
    });
    t.that("products: the earliest fault counts", multiplied);
    let both = masks(8).into_iter().all(|(mask, variant)| {
        let (call, input, room) = faulty_widths(mask, variant, widths_needed);
        let wide = number(widths(call.job(), input, room as usize));
        let (call, input, room) = faulty_widths(mask, variant, ranking_needed);
        let ranked = number(ranking(call.job(), input, room as usize));
        [wide, ranked] == [earliest(&with(&[9, 4]), mask); 2]
    });
    t.that("widths and ranking: the earliest fault counts", both);
    let distances = masks(4).into_iter().all(|(mask, variant)| {
        let (b, target, ready) = faulty_distance(mask, variant);
        number(distance(b, &ready, target)) == earliest(&DISTANCE_ORDER, mask)
    });
    t.that("distance: the earliest fault counts", distances);
    let generated = masks(4).into_iter().all(|(mask, variant)| {
        let (b, room, targets) = faulty_generate(mask, variant);
        number(generate(b, &targets, room as usize)) == earliest(&GENERATE_ORDER, mask)
    });
    t.that("generate: the earliest fault counts", generated);
}

fn distances(t: &mut Tally) {
    // All of them greater than 43, and the smallest is 65.
    t.same("b 8, ready 1,151: 43 through", servers(8, &[1, 151], 43), vec![65, 75, 87]);
    t.same("b 8, ready 1,151 and 65: 43", distance(8, &[1, 151, 65], 43), Ok(1));
    t.same("b 4, ready 9,17: 3 through 1 alone", servers(4, &[9, 17], 3), vec![1]);
    t.same("b 8, ready 1,499: 13 by shift b + 1", distance(8, &[1, 499], 13), Ok(1));
    let mut rng = Rng::new(13);
    for b in [2, 5, 9, 12] {
        let mut same = true;
        for _ in 0..30 {
            let size = rng.span(1, 6);
            let ready: Vec<u32> = (0..size).map(|_| rng.odd(limit(b))).collect();
            let again: Vec<u32> = [&ready[..], &ready].concat().into_iter().rev().collect();
            let target = rng.below(1 << b) | 1;
            same &= distance(b, &ready, target) == distance(b, &again, target);
        }
        t.that(&format!("order and repeats change nothing, b {b}"), same);
    }
}

/// Whether a row that is not wanted is greater than the wanted one after it: step B alone does so,
/// since the prefixes of step C grow.
fn goes_above(targets: &[i32], drawn: &[Row]) -> bool {
    let wanted = wanted(targets);
    drawn.windows(2).any(|pair| {
        let (s, c) = (pair[0][ROW - 1], pair[1][ROW - 1]);
        s > c && !wanted.contains(&s) && wanted.contains(&c)
    })
}

/// Whether step C drew fewer rows for a constant than it has prefixes. Only C puts u above v.
fn meets_ready_prefix(targets: &[i32], drawn: &[Row]) -> bool {
    let wanted = wanted(targets);
    (0..drawn.len()).any(|i| {
        let chain: Vec<u32> = prefixes(drawn[i][ROW - 1]).iter().map(|p| p.value).collect();
        let run = drawn[..=i].iter().rev().take_while(|row| chain.contains(&row[ROW - 1])).count();
        wanted.contains(&drawn[i][ROW - 1]) && drawn[i][0] > drawn[i][1] && run < chain.len()
    })
}

fn generated_lists(t: &mut Tally) {
    for (b, list) in ABOVE {
        t.that(&format!("s above the constant in {list:?}"), goes_above(list, &rows(b, list)));
        t.that(&format!("{list:?} sound"), sound(b, list));
    }
    for (b, list) in READY_PREFIX {
        t.that(&format!("prefix ready in {list:?}"), meets_ready_prefix(list, &rows(b, list)));
        t.that(&format!("{list:?} sound"), sound(b, list));
    }
    let nine: Vec<i32> = (1..1 << 16).step_by(2).filter(|&c| nonzeros(c as u32) == 9).collect();
    // 2^16 - 2^14 and then seven digits two places apart, each of either sign.
    t.same("constants of nine digits", nine.len(), 128);
    t.that("constants of nine digits are sound", nine.iter().all(|&c| sound(16, &[c])));
    t.that("a list of 16 of them is sound", sound(16, &nine[40..56]));
    let list = [3153, 3301, 7681, 8113];
    t.that("3153,3301,7681,8113 sound", sound(13, &list));
    t.that("s above the constant in 3153,3301,7681,8113", goes_above(&list, &rows(13, &list)));
}

/// Whether two targets of the list have the same odd part, and need a row.
fn repeats(list: &[i32]) -> bool {
    let odds: Vec<u32> = list.iter().map(|&t| take_apart(t).odd).filter(|&odd| odd > 1).collect();
    odds.len() > wanted(list).len()
}

fn mixed(t: &mut Tally) {
    for b in 2..=16 {
        let lists: Vec<Vec<i32>> =
            mixed_lists().into_iter().filter(|l| l.0 == b).map(|l| l.1).collect();
        let some = |holds: &dyn Fn(i32) -> bool| lists.iter().flatten().any(|&c| holds(c));
        let power = |c: i32| c.unsigned_abs().is_power_of_two();
        let top = (1 << b) - 1;
        let greatest = top << (31 - b);
        t.that(
            &format!("random lists of every length, b {b}"),
            (1..=16).all(|size| lists.iter().any(|list| list.len() == size)),
        );
        t.that(
            &format!("random lists with zeros, powers of two, signs and repeats, b {b}"),
            some(&|c| c == 0)
                && some(&|c| c > 2 && power(c))
                && some(&|c| c < -2 && power(c))
                && some(&|c| c > 0 && !power(c))
                && some(&|c| c < 0 && !power(c))
                && lists.iter().any(|list| repeats(list)),
        );
        let extremes = [i32::MIN, top, -top, greatest, -greatest];
        t.that(
            &format!("random lists with the extremes, b {b}"),
            extremes.into_iter().all(|extreme| some(&|c| c == extreme)),
        );
    }
}

pub const MORE: [(&str, fn(&mut Tally)); 10] = [
    ("figures", figures),
    ("figure 14", figure_14),
    ("pool numbers", pool_numbers),
    ("picked", picked),
    ("accepted graphs", accepted_graphs),
    ("layouts", layouts),
    ("faults", faults),
    ("distances", distances),
    ("generated lists", generated_lists),
    ("mixed lists", mixed),
];
