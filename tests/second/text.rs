//! Job texts: what the program prints for a text's bytes.

use crate::constants::Refusal;
use crate::digits::csd_sum;
use crate::generator::generate;
use crate::graph::{flatten, output, Output, Row, MAX_ROWS, ROW};
use crate::widths::{ranking, widths, Job};

/// The most bytes of a text.
pub const MOST_BYTES: usize = 256;

#[derive(Clone, Copy, PartialEq, Debug)]
pub enum Report {
    Width,
    Row,
}

impl Report {
    pub fn word(self) -> &'static str {
        match self {
            Report::Width => "width",
            Report::Row => "row",
        }
    }
}

/// What a text that is not malformed asks for; the numbers may still be out of range.
#[derive(Clone, PartialEq, Debug)]
pub struct Request {
    pub bits: i32,
    pub input: i32,
    pub report: Report,
    pub targets: Vec<i32>,
}

/// Every number has one writing, the one in which it is printed: so a reading that allows more is
/// enough, and what it allows too much (plus, leading zeros, -0) is printed otherwise.
fn number(text: &[u8]) -> Option<i32> {
    let text = std::str::from_utf8(text).ok()?;
    text.parse().ok().filter(|n: &i32| n.to_string() == text)
}

fn report(text: &[u8]) -> Option<Report> {
    [Report::Width, Report::Row].into_iter().find(|report| report.word().as_bytes() == text)
}

/// The empty list is none of the grammar's faults: the list of no targets is refused later.
fn targets(text: &[u8]) -> Option<Vec<i32>> {
    if text.is_empty() {
        return Some(Vec::new());
    }
    text.split(|&byte| byte == b',').map(number).collect()
}

/// The lines keep their line feeds, so that one without is seen, and any byte after line 4 is a
/// fifth piece.
pub fn read(text: &[u8]) -> Result<Request, Refusal> {
    if text.len() > MOST_BYTES {
        return Err((12, 0));
    }
    let lines: Vec<&[u8]> = text.split_inclusive(|&byte| byte == b'\n').collect();
    let value = |line: usize, name: &str| {
        lines.get(line - 1)?.strip_suffix(b"\n")?.strip_prefix(name.as_bytes())
    };
    let request = Request {
        bits: value(1, "bits=").and_then(number).ok_or((12, 1))?,
        input: value(2, "input=").and_then(number).ok_or((12, 2))?,
        report: value(3, "report=").and_then(report).ok_or((12, 3))?,
        targets: value(4, "targets=").and_then(targets).ok_or((12, 4))?,
    };
    if lines.len() > 4 { Err((12, 5)) } else { Ok(request) }
}

fn row_line(i: u32, row: &Row, width: u32) -> String {
    let [u, v, l1, l2, s, r, value] = row;
    format!("row={i} u={u} v={v} l1={l1} l2={l2} s={s} r={r} value={value} width={width}\n")
}

fn out_line(target: usize, out: Output, width: u32) -> String {
    let Output { index, shift, sign } = out;
    format!("out={target} row={index} shift={shift} sign={sign} width={width}\n")
}

/// What the listing says of the job itself and of the counts.
fn head(request: &Request, adders: usize) -> String {
    let Request { bits, input, report, targets } = request;
    let (report, csd) = (report.word(), csd_sum(targets));
    format!("bits={bits}\ninput={input}\nreport={report}\nadders={adders}\ncsd={csd}\n")
}

/// The generator refuses with 1, 2, 3 or 8, and after it the widths with 9: the program's order. A
/// negative number is far above every range once it is taken without its sign.
pub fn listing(request: &Request) -> Result<String, Refusal> {
    let (b, w, targets) = (request.bits as u32, request.input as u32, &request.targets[..]);
    let rows = generate(b, targets, MAX_ROWS * ROW)?;
    let (count, words) = (rows.len(), flatten(&rows));
    let graph = Job { b, targets, row_count: count, words: &words };
    let wide = widths(graph, w, count + targets.len())?;
    let order = match request.report {
        Report::Width => ranking(graph, w, count)?,
        Report::Row => (1..=count as u32).collect(),
    };
    let mut lines = head(request, count);
    for i in order {
        lines += &row_line(i, &rows[i as usize - 1], wide[i as usize - 1]);
    }
    for (i, &t) in targets.iter().enumerate() {
        lines += &out_line(i + 1, output(count, &words, t), wide[count + i]);
    }
    Ok(lines)
}

/// All that the program prints.
pub fn printed(text: &[u8]) -> String {
    match read(text).and_then(|request| listing(&request)) {
        Ok(lines) => lines,
        Err((number, place)) => format!("refused={number} place={place}\n"),
    }
}
