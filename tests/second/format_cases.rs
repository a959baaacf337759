//! Lines at the edges of the format of tests/README.md, and outside it.

use crate::book::{escaped, Book, Call, MOST_LINE, MOST_PRODUCTS_ROOM, MOST_ROOM, MOST_WORDS};
use crate::text::printed;

/// A good line of each call, its answer, and which of its numbers, counted from 0, are signed.
const GOOD: [(&str, &str, &[usize]); 8] = [
    ("apart -20 3", "0 0 -1 2 5", &[0]),
    ("canonic 45 2", "0 0 4 65 20", &[0]),
    ("check 8 2 3 -6 1 0 0 0 1 0 0 3", "0 0", &[2, 3]),
    ("products -7 2 8 2 3 -6 1 0 0 0 1 0 0 3", "0 0 -21 42", &[0, 4, 5]),
    ("widths 12 3 8 2 3 -6 1 0 0 0 1 0 0 3", "0 0 14 14 15", &[4, 5]),
    ("ranking 12 1 8 2 3 -6 1 0 0 0 1 0 0 3", "0 0 1", &[4, 5]),
    ("distance 8 45 1 5", "0 0 1", &[]),
    ("generate 8 896 0 -8", "0 0 0 896", &[2, 3]),
];

/// The calls that take just so many numbers.
const FIXED: [&str; 2] = ["apart", "canonic"];

/// Names of functions and of words that are no call's.
const NO_CALLS: [&str; 12] = [
    "times 2 check 8 1 1 0",
    "admit 8 45",
    "digits 3",
    "operate 8 5 1 0 0 0",
    "row 8 1 0 0 0 1 0 0 3",
    "bits 45",
    "multiply 1 1 8 1 1 0",
    "rank 12 0 8 1 1 0",
    "tauwaage_check 8 1 1 0",
    "jobs",
    "jo",
    "check,8,1,1,0",
];

const NO_NUMBERS: [&str; 18] = [
    "", "-", "+", "+1", "01", "00", "-0", "-01", "--1", "1-", "1.0", "0x1", "1x", "x", "/", ":",
    "18446744073709551617", "99999999999999999999999",
];

fn bad(book: &mut Book, class: &str, line: impl AsRef<[u8]>) {
    book.push(&format!("format {class}"), line, "bad");
}

/// Every number of a good line exchanged for what is none, or none there.
fn exchanged(book: &mut Book, line: &str, signed: &[usize]) {
    let tokens: Vec<&str> = line.split(' ').collect();
    for place in 1..tokens.len() {
        let outside: &[&str] = match signed.contains(&(place - 1)) {
            true => &["2147483648", "-2147483649", "4294967295"],
            false => &["-1", "4294967296", "-2147483648"],
        };
        for new in NO_NUMBERS.iter().chain(outside) {
            let mut other = tokens.clone();
            other[place] = new;
            bad(book, "no number there", other.join(" "));
        }
    }
}

/// The name and the spaces of a good line spoiled; what is too short is found by leaving numbers out.
fn spoiled(book: &mut Book, line: &str) {
    let (name, numbers) = line.split_once(' ').expect("a name and numbers");
    for other in [name.to_uppercase(), format!("{name}s"), name[1..].to_string(), format!("x{name}")] {
        bad(book, "unknown name", format!("{other} {numbers}"));
    }
    let spaces = ["  ", "\t", " \t", ",", "\0"].map(|space| line.replacen(' ', space, 1));
    for other in spaces.into_iter().chain([format!(" {line}"), format!("{line} "), format!("{line}\r")]) {
        bad(book, "spaces", other);
    }
    bad(book, "too few numbers", name);
    if FIXED.contains(&name) {
        bad(book, "too many numbers", format!("{line} 0"));
        bad(book, "too few numbers", line.rsplit_once(' ').expect("numbers").0);
    }
}

/// A zero byte ends no line, no name and no number.
fn zero_bytes(book: &mut Book, line: &str) {
    let (name, numbers) = line.split_once(' ').expect("a name and numbers");
    let others = [
        format!("\0{line}"),
        format!("{name}\0 {numbers}"),
        format!("{name} \0{numbers}"),
        format!("{line}\0"),
        format!("{line}\0 0"),
        format!("{line} \0"),
    ];
    for other in others {
        bad(book, "zero bytes", other);
    }
}

fn good_and_spoiled(book: &mut Book) {
    for (line, answer, signed) in GOOD {
        book.push("format good lines", line, answer);
        exchanged(book, line, signed);
        spoiled(book, line);
        zero_bytes(book, line);
    }
    for line in NO_CALLS {
        bad(book, "no such call", line);
    }
    for line in ["bad", "0 0", " ", "", "\0", "job\tx", "\r", "check", "-1", "#"] {
        bad(book, "other lines", line);
    }
    for line in ["check 8", "check 8 0", "check 8 2 3", "check 8 2 3 0", "products 1 1 8 1", "ranking 12 1 8"] {
        bad(book, "too few numbers", line);
    }
    for line in ["products 1", "widths 12 0 8 4294967295 0 0", "distance 8", "generate 8", "widths 12 0 8 1 0"] {
        bad(book, "too few numbers", line);
    }
    book.push("format empty lists", "check 8 0 0", "2 0");
    book.push("format empty lists", "generate 8 896", "2 0 0 896");
    book.push("format empty lists", "distance 8 45", "10 0");
}

fn rooms(book: &mut Book) {
    let graph = "8 1 3 0";
    for room in ["65", "1200", "4294967295"] {
        bad(book, "too much room", format!("products 1 {room} {graph}"));
    }
    for room in ["1201", "65536", "4294967295"] {
        bad(book, "too much room", format!("apart 3 {room}"));
        bad(book, "too much room", format!("canonic 3 {room}"));
        bad(book, "too much room", format!("widths 12 {room} {graph}"));
        bad(book, "too much room", format!("ranking 12 {room} {graph}"));
        bad(book, "too much room", format!("generate 8 {room} 3"));
    }
    let call = Call { b: 8, targets: vec![1], rows: 0, words: Vec::new() };
    let most = "format most room";
    book.apart(most, 3, MOST_ROOM);
    book.canonic(most, 3, MOST_ROOM);
    book.products(most, &call, -7, MOST_PRODUCTS_ROOM);
    book.widths(most, &call, 12, MOST_ROOM);
    book.ranking(most, &call, 12, MOST_ROOM);
    book.generate(most, 8, MOST_ROOM, &[3]);
}

/// Lines about as long as a line may be, and far longer than any buffer; each is followed by a short one.
fn lengths(book: &mut Book) {
    for count in [MOST_WORDS - 1, MOST_WORDS, 3000] {
        bad(book, "too many numbers", format!("generate 8 896{}", " -2147483648".repeat(count)));
        bad(book, "too many numbers", format!("distance 16 65535{}", " 4294967295".repeat(count)));
    }
    for length in [MOST_LINE - 1, MOST_LINE, MOST_LINE + 1, 65535, 65536, 65537, 200_000] {
        for filling in ["0", " ", " 0", "\\n", "\0"] {
            let line = "job ".to_string() + &filling.repeat(length);
            bad(book, "longer lines", &line[..length]);
            book.apart("format after a longer line", length as i32, 3);
        }
    }
    let most = "format most numbers";
    book.generate(most, 8, 0, &[i32::MIN; MOST_WORDS - 2]);
    book.distance(most, 8, 45, &[u32::MAX; MOST_WORDS - 2]);
    let rows = MOST_WORDS as u32;
    book.check(most, &Call { b: 8, targets: vec![i32::MIN; MOST_WORDS - 3], rows, words: Vec::new() });
    book.check(most, &Call { b: 8, targets: Vec::new(), rows, words: vec![u32::MAX; MOST_WORDS - 3] });
}

fn jobs(book: &mut Book) {
    for end in ["\\", "\\x", "\\x4", "\\x4g", "\\xg4", "\\xAF", "\\X41", "\\N", "\\t", "\\0", "\\ n"] {
        bad(book, "no escape", format!("job bits=8{end}"));
    }
    bad(book, "too long a text", format!("job {}", "\\n".repeat(MOST_WORDS + 1)));
    bad(book, "too long a text", format!("job {}", "x".repeat(MOST_WORDS + 1)));
    book.text("format longest text", &[255; MOST_WORDS]);
    let text = "bits=8\ninput=12\nreport=row\ntargets=45\n";
    let all: String = text.bytes().map(|byte| format!("\\x{byte:02x}")).collect();
    book.push("format other escapes", format!("job {all}"), escaped(printed(text.as_bytes()).as_bytes()));
    book.push("format other escapes", "job ", "refused=12 place=1\\n");
    for raw in [&b"job \xff\x00\t\r\x80"[..], b"job \x00", b"job  ", b"job \r"] {
        book.push("format raw bytes", raw, "refused=12 place=1\\n");
    }
}

pub fn kind_format(book: &mut Book) {
    good_and_spoiled(book);
    rooms(book);
    lengths(book);
    jobs(book);
    book.apart("format without a line feed", 5, 3);
}
