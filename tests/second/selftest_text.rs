//! Named checks of job texts: listings and refusals by hand, and what the classes of texts claim.

use crate::constants::Refusal;
use crate::graph::{check, value_at};
use crate::graph_cases::masks;
use crate::jobs::chosen;
use crate::selftest::Tally;
use crate::selftest_cases::earliest;
use crate::text::{listing, printed, read, Report, Request};
use crate::text_cases::{ended, faulty_text, list, text, texts, EXAMPLE, TEXT_ORDER, TEXT_PLACES};
use crate::text_faults::of_length;
use std::collections::HashSet;
use std::sync::OnceLock;

/// Document 01's own.
const DOCUMENT: &str = "bits=8
input=12
report=width
adders=2
csd=4
row=2 u=1 v=1 l1=0 l2=3 s=0 r=0 value=45 width=18
row=1 u=0 v=0 l1=0 l2=2 s=0 r=0 value=5 width=15
out=1 row=2 shift=0 sign=1 width=18
out=2 row=1 shift=2 sign=-1 width=17
out=3 row=0 shift=0 sign=0 width=1
";

/// P3 with its three rows in either order.
const BY_ROW: &str = "bits=8
input=32
report=row
adders=3
csd=3
row=1 u=0 v=0 l1=2 l2=0 s=1 r=0 value=3 width=34
row=2 u=1 v=0 l1=2 l2=0 s=1 r=0 value=11 width=36
row=3 u=2 v=0 l1=2 l2=0 s=1 r=0 value=43 width=38
out=1 row=3 shift=1 sign=-1 width=39
";

/// Equal widths keep the order of the rows, whatever the order of the targets.
const TIES: &str = "bits=8
input=12
report=width
adders=2
csd=2
row=1 u=0 v=0 l1=0 l2=2 s=0 r=0 value=5 width=15
row=2 u=0 v=0 l1=0 l2=3 s=1 r=0 value=7 width=15
out=1 row=2 shift=0 sign=1 width=15
out=2 row=1 shift=0 sign=1 width=15
out=3 row=1 shift=1 sign=-1 width=16
";

const NO_ROWS: &str = "bits=2
input=32
report=width
adders=0
csd=0
out=1 row=0 shift=31 sign=-1 width=63
out=2 row=0 shift=0 sign=0 width=1
out=3 row=0 shift=0 sign=1 width=32
";

fn listings(t: &mut Tally) {
    let same = |t: &mut Tally, name: &str, text: String, lines: &str| {
        t.same(name, printed(text.as_bytes()), lines.to_string());
    };
    same(t, "the document's listing", ended(&EXAMPLE), DOCUMENT);
    same(t, "rows in their order", text(8, 32, "row", "-86"), BY_ROW);
    let mut lines: Vec<&str> = BY_ROW.lines().collect();
    lines.swap(5, 7);
    lines[2] = "report=width";
    same(t, "rows by width", text(8, 32, "width", "-86"), &ended(&lines));
    same(t, "equal widths", text(8, 12, "width", "7,5,-10"), TIES);
    same(t, "no rows", text(2, 32, "width", "-2147483648,0,1"), NO_ROWS);
}

/// Texts and their refusals, both by hand.
const REFUSED: [(&str, Refusal); 52] = [
    ("", (12, 1)),
    ("\n", (12, 1)),
    ("bits=8", (12, 1)),
    ("bits=8\n", (12, 2)),
    ("bits=8\ninput=12", (12, 2)),
    ("bits=8\ninput=12\n", (12, 3)),
    ("bits=8\ninput=12\nreport=width", (12, 3)),
    ("bits=8\ninput=12\nreport=width\n", (12, 4)),
    ("bits=8\ninput=12\nreport=width\ntargets=45", (12, 4)),
    ("bits=8\ninput=12\nreport=width\ntargets=", (12, 4)),
    ("bits=8\ninput=12\nreport=width\ntargets=45\n\n", (12, 5)),
    ("bits=8\ninput=12\nreport=width\ntargets=45\nx", (12, 5)),
    ("bits=8\ninput=12\nreport=width\ntargets=45\n\0", (12, 5)),
    ("bits=8\ninput=12\nreport=width\ntargets=45,\nx", (12, 4)),
    ("bits=8\r\ninput=12\r\nreport=width\r\ntargets=45\r\n", (12, 1)),
    ("input=12\nbits=8\nreport=width\ntargets=45\n", (12, 1)),
    ("bits=8\nreport=width\ninput=12\ntargets=45\n", (12, 2)),
    ("bits=8\ninput=12\ntargets=45\nreport=width\n", (12, 3)),
    ("bits=8\ninput=12\nreport=width\nreport=width\ntargets=45\n", (12, 4)),
    ("Bits=8\ninput=12\nreport=width\ntargets=45\n", (12, 1)),
    ("bits=08\ninput=12\nreport=width\ntargets=45\n", (12, 1)),
    ("bits=+8\ninput=12\nreport=width\ntargets=45\n", (12, 1)),
    ("bits= 8\ninput=12\nreport=width\ntargets=45\n", (12, 1)),
    ("bits=-0\ninput=12\nreport=width\ntargets=45\n", (12, 1)),
    ("bits=\ninput=12\nreport=width\ntargets=45\n", (12, 1)),
    ("bits=8\ninput=12 \nreport=width\ntargets=45\n", (12, 2)),
    ("bits=8\ninput=12,\nreport=width\ntargets=45\n", (12, 2)),
    ("bits=8\ninput=4294967308\nreport=width\ntargets=45\n", (12, 2)),
    ("bits=8\ninput=12\nreport=rows\ntargets=45\n", (12, 3)),
    ("bits=8\ninput=12\nreport=\ntargets=45\n", (12, 3)),
    ("bits=8\ninput=12\nreport=width\ntargets=,\n", (12, 4)),
    ("bits=8\ninput=12\nreport=width\ntargets=45,,3\n", (12, 4)),
    ("bits=8\ninput=12\nreport=width\ntargets=45,-\n", (12, 4)),
    ("bits=8\ninput=12\nreport=width\ntargets=45,00\n", (12, 4)),
    ("bits=8\ninput=12\nreport=width\ntargets=2147483648\n", (12, 4)),
    ("bits=8\ninput=12\nreport=width\ntargets=-2147483649\n", (12, 4)),
    ("bits=17\ninput=33\nreport=width\ntargets=257,x\n", (12, 4)),
    ("bits=1\ninput=12\nreport=width\ntargets=45\n", (1, 0)),
    ("bits=17\ninput=12\nreport=width\ntargets=45\n", (1, 0)),
    ("bits=-8\ninput=12\nreport=width\ntargets=45\n", (1, 0)),
    ("bits=-2147483648\ninput=1\nreport=width\ntargets=\n", (1, 0)),
    ("bits=8\ninput=12\nreport=width\ntargets=\n", (2, 0)),
    ("bits=8\ninput=1\nreport=row\ntargets=\n", (2, 0)),
    ("bits=8\ninput=1\nreport=row\ntargets=257,2,3,4,5,6,7,8,9,0,1,2,3,4,5,6,7\n", (2, 0)),
    ("bits=8\ninput=12\nreport=width\ntargets=257\n", (3, 1)),
    ("bits=8\ninput=12\nreport=width\ntargets=2147483647\n", (3, 1)),
    ("bits=8\ninput=1\nreport=width\ntargets=255,0,-514,257\n", (3, 3)),
    ("bits=2\ninput=12\nreport=width\ntargets=3,2,3,4,3,6,3,8,3,0,1,2,3,4,3,5\n", (3, 16)),
    ("bits=8\ninput=1\nreport=width\ntargets=45\n", (9, 0)),
    ("bits=8\ninput=33\nreport=width\ntargets=45\n", (9, 0)),
    ("bits=8\ninput=-12\nreport=width\ntargets=0\n", (9, 0)),
    ("bits=8\ninput=-2147483648\nreport=row\ntargets=0\n", (9, 0)),
];

fn refused((number, place): Refusal) -> String {
    format!("refused={number} place={place}\n")
}

fn refusals(t: &mut Tally) {
    for (text, refusal) in REFUSED {
        t.same(&format!("refusal of {text:?}"), printed(text.as_bytes()), refused(refusal));
    }
    for (length, refusal) in [(255, (2, 0)), (256, (2, 0)), (257, (12, 0)), (5000, (12, 0))] {
        let text = of_length(length);
        t.same(&format!("a text of {length}"), text.len(), length);
        t.same(&format!("{length} bytes"), printed(text.as_bytes()), refused(refusal));
        let spoiled = text.replace("bits", "Bits");
        let place = if length > 256 { 0 } else { 1 };
        t.same(&format!("{length} bytes, bad"), printed(spoiled.as_bytes()), refused((12, place)));
    }
    let high = b"bits=8\ninput=12\nreport=width\ntargets=45\xff\n";
    t.same("a byte above 127", printed(high), refused((12, 4)));
}

fn precedence(t: &mut Tally) {
    for (mask, variant) in masks(5) {
        let number = earliest(&TEXT_ORDER, mask);
        let got = answer(faulty_text(mask, variant).as_bytes()).err();
        let name = format!("the earliest of faults {mask:05b}, variant {variant}");
        t.same(&name, got.map_or(0, |refusal| refusal.0), number);
        if number == 12 {
            t.same(&format!("{name}: its line"), got, Some((12, TEXT_PLACES[variant])));
        }
    }
}

fn answer(text: &[u8]) -> Result<String, Refusal> {
    read(text).and_then(|request| listing(&request))
}

/// A text of the pile, and what is said of it.
struct Said {
    class: String,
    text: Vec<u8>,
    answer: Result<String, Refusal>,
}

/// Worked once, since it is asked for several times.
fn pile() -> &'static [Said] {
    static PILE: OnceLock<Vec<Said>> = OnceLock::new();
    PILE.get_or_init(|| {
        let said = |(class, text): (String, Vec<u8>)| {
            let answer = answer(&text);
            Said { class, text, answer }
        };
        texts().into_iter().map(said).collect()
    })
}

/// The refusal that each class has by the way it is made; number 0 is a listing.
const NUMBERS: [(&str, u32); 20] = [
    ("of the document", 0),
    ("with zeros", 0),
    ("with powers of two", 0),
    ("with negatives", 0),
    ("with repeats", 0),
    ("with extremes", 0),
    ("with the longest listed text", 0),
    ("every b and w", 0),
    ("1 to 16 targets by width", 0),
    ("1 to 16 targets by row", 0),
    ("of the papers", 0),
    ("with remarkable steps", 0),
    ("with nine digits", 0),
    ("with one target", 0),
    ("bits out of range", 1),
    ("input out of range", 9),
    ("no targets", 2),
    ("over 16 targets", 2),
    ("odd part too large", 3),
    ("nearly or just 256 bytes", 2),
];

/// What the name of a class ends with, if it names a line.
fn claimed(class: &str) -> Option<u32> {
    class.rsplit_once(", line ").map(|(_, line)| line.parse().expect("a line's number"))
}

fn classes(t: &mut Tally) {
    for (class, number) in NUMBERS {
        let name = format!("job {class}");
        let mut members = pile().iter().filter(|said| said.class == name).peekable();
        t.that(&format!("class {name} is there"), members.peek().is_some());
        let holds = |said: &Said| said.answer.as_ref().err().map_or(0, |r| r.0) == number;
        t.that(&format!("class {name} gets {number}"), members.all(holds));
    }
    for said in pile() {
        let place = match said.class.as_str() {
            "job over 256 bytes" => Some(0),
            class => claimed(class),
        };
        if let Some(place) = place {
            let shown = String::from_utf8_lossy(&said.text);
            let name = format!("{} of {shown:?}", said.class);
            t.same(&name, said.answer.as_ref().err(), Some(&(12, place)));
        }
    }
    t.that("at least 3,500 texts", pile().len() >= 3500);
}

/// Every refusal with every place it can have, and listings of every b, w, report and length.
fn reached_all(t: &mut Tally) {
    let got: HashSet<Refusal> = pile().iter().filter_map(|s| s.answer.clone().err()).collect();
    let mut all: HashSet<Refusal> = [(1, 0), (2, 0), (9, 0)].into();
    all.extend((0..=5).map(|line| (12, line)));
    all.extend((1..=16).map(|place| (3, place)));
    t.that("every refusal at every place", got == all);
    let listed: Vec<Request> = listed().map(|(request, _)| request).collect();
    for report in [Report::Width, Report::Row] {
        let some = |holds: &dyn Fn(&Request) -> bool| {
            listed.iter().any(|request| request.report == report && holds(request))
        };
        let name = report.word();
        t.that(&format!("every b by {name}"), (2..=16).all(|b| some(&|r| r.bits == b)));
        t.that(&format!("every w by {name}"), (2..=32).all(|w| some(&|r| r.input == w)));
        let lengths = (1..=16).all(|length| some(&|r| r.targets.len() == length));
        t.that(&format!("every length by {name}"), lengths);
    }
    let changed = ["job every byte put in", "job every byte instead", "job one byte replaced"];
    for class in changed {
        let good = pile().iter().any(|said| said.class == class && said.answer.is_ok());
        t.that(&format!("{class}: some are still good"), good);
    }
}

fn listed() -> impl Iterator<Item = (Request, &'static str)> {
    let good = |said: &'static Said| Some((read(&said.text).ok()?, said.answer.as_deref().ok()?));
    pile().iter().filter_map(good)
}

/// A text that is read is the one way to write what was read.
fn one_writing(t: &mut Tally) {
    let again = |r: Request| text(r.bits, r.input, r.report.word(), &list(&r.targets));
    let same = |said: &Said| read(&said.text).map_or(true, |r| again(r).into_bytes() == said.text);
    t.that("a text that is read has one writing", pile().iter().all(same));
    for (bits, input) in [(0, -1), (i32::MIN, i32::MAX), (1_000_000_000, -10), (10, 100)] {
        let targets = vec![bits, input, 0, -bits.max(1 - i32::MAX)];
        let request = Request { bits, input, report: Report::Row, targets };
        let text = again(request.clone());
        t.same("written and read", read(text.as_bytes()), Ok(request));
    }
}

/// The numbers of a line `name=number name=number ...`.
fn numbers(line: &str) -> Vec<i64> {
    let number = |part: &str| part.split_once('=').expect("a name").1.parse().expect("a number");
    line.split(' ').map(number).collect()
}

/// The numbers of the lines that begin so.
fn lines_of(lines: &str, start: &str) -> Vec<Vec<i64>> {
    lines.lines().filter(|line| line.starts_with(start)).map(numbers).collect()
}

/// Whether the row lines are in the order asked for, and together a graph that passes the check.
fn rows_hold(request: &Request, lines: &str) -> bool {
    let mut rows = lines_of(lines, "row=");
    let key = |row: &Vec<i64>| match request.report {
        Report::Width => (-row[8], row[0]),
        Report::Row => (0, row[0]),
    };
    let sorted = rows.windows(2).all(|pair| key(&pair[0]) < key(&pair[1]));
    rows.sort();
    let words: Vec<u32> = rows.iter().flat_map(|row| &row[1..8]).map(|&word| word as u32).collect();
    let numbered = rows.iter().enumerate().all(|(i, row)| row[0] == i as i64 + 1);
    let fine = check(request.bits as u32, &request.targets, rows.len(), &words) == Ok(());
    let adders = lines_of(lines, "adders=")[0][0];
    sorted && numbered && fine && adders == rows.len() as i64
}

/// Whether each out line makes its target of a row's value, and is just as wide as the target's
/// magnitude times the lowest w-bit number needs; the document's width does not ask for the sign.
fn outs_hold(request: &Request, lines: &str) -> bool {
    let mut rows = lines_of(lines, "row=");
    rows.sort();
    let words: Vec<u32> = rows.iter().flat_map(|row| &row[1..8]).map(|&word| word as u32).collect();
    let outs = lines_of(lines, "out=");
    let holds = |(i, out): (usize, &Vec<i64>)| {
        let (row, shift, sign, width) = (out[1], out[2], out[3], out[4]);
        let target = request.targets[i] as i128;
        let made = (sign as i128) * ((value_at(&words, row as u64) as i128) << shift);
        let most = target.abs() << (request.input - 1);
        let wide = if target == 0 { width == 1 } else { least_width(most) == width };
        out[0] == i as i64 + 1 && made == target && wide
    };
    outs.len() == request.targets.len() && outs.iter().enumerate().all(holds)
}

/// The fewest two's complement bits that hold -most.
fn least_width(most: i128) -> i64 {
    (1..=70).find(|&k| most <= 1i128 << (k - 1)).expect("at most 70 bits")
}

fn listings_hold(t: &mut Tally) {
    for (request, lines) in listed() {
        let shown = text(request.bits, request.input, "...", &list(&request.targets));
        t.that(&format!("rows of {shown:?}"), rows_hold(&request, lines));
        t.that(&format!("outs of {shown:?}"), outs_hold(&request, lines));
    }
}

fn chosen_jobs(t: &mut Tally) {
    let some = chosen(300);
    t.same("300 chosen", some.len(), 300);
    let named: HashSet<&str> = some.iter().map(|one| one.0.as_str()).collect();
    let all = pile().iter().all(|said| named.contains(said.class.as_str()));
    t.that("chosen of every class", all);
    t.that("chosen: the empty text", some.iter().any(|one| one.1.is_empty()));
    t.that("chosen: several megabytes", some.iter().any(|one| one.1.len() > 3 << 20));
}

macro_rules! example {
    ($name:literal) => {
        (
            $name,
            include_bytes!(concat!("../../examples/", $name, ".job")),
            include_str!(concat!("../../examples/", $name, ".listing")),
        )
    };
}

/// The folder of examples, as it was when this was built.
fn examples(t: &mut Tally) {
    let all: [(&str, &[u8], &str); 6] = [
        example!("document"),
        example!("malformed"),
        example!("receiver"),
        example!("refused-constant"),
        example!("row-order"),
        example!("widest"),
    ];
    for (name, job, lines) in all {
        t.same(&format!("example {name}"), printed(job), lines.to_string());
    }
    t.same("example document", all[0].2, DOCUMENT);
    t.same("example malformed", all[1].2, "refused=12 place=4\n");
    t.same("example refused-constant", all[3].2, "refused=3 place=3\n");
}

pub const TEXTS: [(&str, fn(&mut Tally)); 9] = [
    ("listings", listings),
    ("refusals", refusals),
    ("precedence", precedence),
    ("classes of texts", classes),
    ("every refusal", reached_all),
    ("one writing", one_writing),
    ("listings hold", listings_hold),
    ("chosen jobs", chosen_jobs),
    ("examples", examples),
];
