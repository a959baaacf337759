//! The two files as they grow: cases in the format of tests/README.md, and their answers. Each kind has one method that
//! writes a case and its answer.

use crate::constants::{parts, Refusal};
use crate::digits::canonic;
use crate::distance::distance;
use crate::generator::generate;
use crate::graph::{check, flatten, ROW};
use crate::products::products;
use crate::text::printed;
use crate::widths::{ranking, widths, Job};
use std::fmt::Display;

/// The most numbers of a line, and the most bytes of a job's text.
pub const MOST_WORDS: usize = 1200;
pub const MOST_LINE: usize = 16384;
/// The longest lent buffer, and that of products.
pub const MOST_ROOM: u32 = 1200;
pub const MOST_PRODUCTS_ROOM: u32 = 64;

/// What every call on a graph is given; `rows` may be more than the words hold.
#[derive(Clone)]
pub struct Call {
    pub b: u32,
    pub targets: Vec<i32>,
    pub rows: u32,
    pub words: Vec<u32>,
}

impl Call {
    pub fn job(&self) -> Job<'_> {
        Job { b: self.b, targets: &self.targets, row_count: self.rows as usize, words: &self.words }
    }

    pub fn check(&self) -> Result<(), Refusal> {
        check(self.b, &self.targets, self.rows as usize, &self.words)
    }

    pub fn products(&self, x: i32, room: u32) -> Result<Vec<i64>, Refusal> {
        products(self.b, &self.targets, self.rows as usize, &self.words, x, room as usize)
    }

    /// Behind the name, and the two numbers that all but check have there.
    fn line(&self, name: &str) -> String {
        let Call { b, targets, rows, words } = self;
        let count = targets.len();
        format!("{name} {b} {count}{} {rows}{}", spaced(targets), spaced(words))
    }
}

/// The numbers, each behind a space.
fn spaced<N: Display>(list: &[N]) -> String {
    list.iter().map(|n| format!(" {n}")).collect()
}

/// Printable ASCII stands for itself, but for the backslash.
pub fn escaped(text: &[u8]) -> String {
    let one = |&byte: &u8| match byte {
        b'\n' => "\\n".to_string(),
        b'\\' => "\\\\".to_string(),
        b' '..=b'~' => (byte as char).to_string(),
        _ => format!("\\x{byte:02x}"),
    };
    text.iter().map(one).collect()
}

/// What a lent buffer holds after a call that was to fill it from the front; a refusal fills nothing.
fn filled(room: u32, result: &Result<Vec<i64>, Refusal>) -> String {
    let mut buffer: Vec<i64> = (0..room as i64).map(|i| 7000 + i).collect();
    if let Ok(answer) = result {
        buffer[..answer.len()].copy_from_slice(answer);
    }
    spaced(&buffer)
}

/// Number and place.
fn told<T>(result: &Result<T, Refusal>) -> String {
    let (number, place) = result.as_ref().err().unwrap_or(&(0, 0));
    format!("{number} {place}")
}

/// Number, place and buffer.
pub fn lent(room: u32, result: Result<Vec<i64>, Refusal>) -> String {
    told(&result) + &filled(room, &result)
}

fn signed(list: Vec<u32>) -> Vec<i64> {
    list.into_iter().map(i64::from).collect()
}

pub struct Book {
    pub cases: Vec<u8>,
    pub expected: String,
    /// In the order of first use.
    pub classes: Vec<(String, u32)>,
}

impl Book {
    pub fn new() -> Book {
        Book { cases: Vec::new(), expected: String::new(), classes: Vec::new() }
    }

    /// A line that is wholly the caller's.
    pub fn push(&mut self, class: &str, line: impl AsRef<[u8]>, answer: impl AsRef<str>) {
        self.cases.extend(line.as_ref());
        self.cases.push(b'\n');
        self.expected += answer.as_ref();
        self.expected.push('\n');
        match self.classes.iter_mut().find(|c| c.0 == class) {
            Some(c) => c.1 += 1,
            None => self.classes.push((class.to_string(), 1)),
        }
    }

    pub fn apart(&mut self, class: &str, t: i32, room: u32) {
        let answer = lent(room, parts(t, room as usize));
        self.push(class, format!("apart {t} {room}"), answer);
    }

    pub fn canonic(&mut self, class: &str, t: i32, room: u32) {
        let form = canonic(t, room as usize);
        let count = form.map_or(String::new(), |f| format!(" {}", f.nonzero));
        let buffer = filled(room, &form.map(|f| vec![f.plus as i64, f.minus as i64]));
        self.push(class, format!("canonic {t} {room}"), told(&form) + &count + &buffer);
    }

    pub fn check(&mut self, class: &str, call: &Call) {
        self.push(class, call.line("check"), told(&call.check()));
    }

    pub fn products(&mut self, class: &str, call: &Call, x: i32, room: u32) {
        let answer = lent(room, call.products(x, room));
        self.push(class, call.line(&format!("products {x} {room}")), answer);
    }

    pub fn widths(&mut self, class: &str, call: &Call, input: u32, room: u32) {
        let answer = lent(room, widths(call.job(), input, room as usize).map(signed));
        self.push(class, call.line(&format!("widths {input} {room}")), answer);
    }

    pub fn ranking(&mut self, class: &str, call: &Call, input: u32, room: u32) {
        let answer = lent(room, ranking(call.job(), input, room as usize).map(signed));
        self.push(class, call.line(&format!("ranking {input} {room}")), answer);
    }

    pub fn distance(&mut self, class: &str, b: u32, target: u32, ready: &[u32]) {
        let answer = match distance(b, ready, target) {
            Ok(d) => format!("0 0 {d}"),
            Err((number, place)) => format!("{number} {place}"),
        };
        self.push(class, format!("distance {b} {target}{}", spaced(ready)), answer);
    }

    /// The distance from 1 alone, in a class named after it: so the classes count the constants.
    pub fn distance_from_1(&mut self, b: u32, target: u32) {
        let d = distance(b, &[1], target).expect("an odd target below 2^b");
        let far = ["at 0", "at 1", "at 2", "beyond"][d as usize];
        self.distance(&format!("distance from 1, b {b}, {far}"), b, target, &[1]);
    }

    pub fn generate(&mut self, class: &str, b: u32, room: u32, targets: &[i32]) {
        let (number, place, words) = match generate(b, targets, room as usize) {
            Ok(rows) => (0, 0, flatten(&rows)),
            Err((number, place)) => (number, place, Vec::new()),
        };
        let rows = words.len() / ROW;
        let untouched = room as usize - words.len();
        let answer = format!("{number} {place} {rows}{} {untouched}", spaced(&words));
        self.push(class, format!("generate {b} {room}{}", spaced(targets)), answer);
    }

    pub fn text(&mut self, class: &str, text: &[u8]) {
        let space = if text.is_empty() { "" } else { " " };
        let line = format!("job{space}{}", escaped(text));
        self.push(class, line, escaped(printed(text).as_bytes()));
    }
}
