//! The malformed job texts, each class with the line at which it is refused.

use crate::book::MOST_WORDS;
use crate::draw::one_of;
use crate::rng::Rng;
use crate::text::MOST_BYTES;
use crate::text_cases::{ended, text, Pile, EXAMPLE};

/// The example with one of its lines, from 1, replaced.
fn with_line(line: usize, new: &str) -> String {
    let mut lines = EXAMPLE;
    lines[line - 1] = new;
    ended(&lines)
}

/// Every beginning of a text breaks off in the line after its last line feed.
fn cut_short(pile: &mut Pile) {
    pile.add_bad("empty", 1, "");
    let others = [text(16, 32, "row", "-2147483648"), text(2, 2, "width", "3,0,1")];
    for whole in [ended(&EXAMPLE)].iter().chain(&others) {
        for length in 1..whole.len() {
            let line = 1 + whole[..length].matches('\n').count();
            pile.add_bad("cut short", line, &whole[..length]);
        }
    }
}

/// Every choice of lines but all four; the first that is not there makes its place bad.
fn missing(pile: &mut Pile) {
    for mask in 0..15u32 {
        let kept: Vec<&str> = (0..4).filter(|i| mask >> i & 1 == 1).map(|i| EXAMPLE[i]).collect();
        pile.add_bad("missing lines", mask.trailing_ones() as usize + 1, ended(&kept));
    }
}

fn unended(pile: &mut Pile) {
    for line in 1..=4 {
        for instead in ["", "\r", "\0", " ", ";", ",", "\\n"] {
            let end = |i: usize| if i == line { instead } else { "\n" };
            let all: String = (1..=4).map(|i| EXAMPLE[i - 1].to_string() + end(i)).collect();
            pile.add_bad("without a line feed", line, all);
        }
    }
    for separator in ["", "\r", "\0", " ", ";", "\r\r"] {
        pile.add_bad("without any line feed", 1, EXAMPLE.join(separator));
    }
}

fn carriage_returns(pile: &mut Pile) {
    pile.add_bad("carriage return", 1, ended(&EXAMPLE).replace('\n', "\r\n"));
    pile.add_bad("carriage return", 2, ended(&EXAMPLE).replace('\n', "\n\r"));
    for (i, old) in EXAMPLE.iter().enumerate() {
        pile.add_bad("carriage return", i + 1, with_line(i + 1, &format!("{old}\r")));
        pile.add_bad("carriage return", i + 1, with_line(i + 1, &format!("\r{old}")));
    }
}

/// Around everything that a line consists of; the third blank is no ASCII.
fn blanks(pile: &mut Pile) {
    for blank in [" ", "\t", "\u{a0}", "\x0b", "\x0c", "   ", "\0"] {
        for (i, old) in EXAMPLE.iter().enumerate() {
            let mut add = |new: &str| pile.add_bad("blanks", i + 1, with_line(i + 1, new));
            add(&format!("{blank}{old}"));
            add(&format!("{old}{blank}"));
            add(&old.replace('=', &format!("{blank}=")));
            add(&old.replace('=', &format!("={blank}")));
        }
        for at in [",", "-"] {
            for new in [format!("{blank}{at}"), format!("{at}{blank}")] {
                pile.add_bad("blanks", 4, with_line(4, &EXAMPLE[3].replace(at, &new)));
            }
        }
        pile.add_bad("blanks", 1, with_line(1, &format!("bits=1{blank}2")));
        pile.add_bad("blanks", 2, with_line(2, &format!("input=1{blank}2")));
        pile.add_bad("blanks", 3, with_line(3, &format!("report=ro{blank}w")));
        pile.add_bad("blanks", 4, with_line(4, &format!("targets={blank}")));
    }
}

/// Writings that are no numbers, and two alphabets' digit 8.
const NO_NUMBERS: [&str; 35] = [
    "", "-", "+", "--", "+8", "+0", "-+8", "+-8", "--8", "8-", "8+", "-0", "-00", "-08", "00", "08",
    "008", "0008", "8.", "8.0", ".8", "0x8", "8h", "1e1", "8e0", "1_0", "1'000", "(8)", "\"8\"",
    "a", "B", "/", ":", "\u{668}", "\u{ff18}",
];

/// Just outside 32 bits; and what is 8 or 12 again in 32, 64 or 128 bits.
const TOO_LARGE: [&str; 14] = [
    "2147483648",
    "-2147483649",
    "2147483650",
    "3000000000",
    "4294967295",
    "4294967304",
    "-4294967284",
    "6442450944",
    "9223372036854775808",
    "-9223372036854775809",
    "18446744073709551616",
    "18446744073709551624",
    "-18446744073709551604",
    "340282366920938463463374607431768211464",
];

/// Long runs of digits, with leading zeros before a good number too.
fn digit_runs() -> Vec<String> {
    let mut all = Vec::new();
    for length in (10..=22).chain([31, 32, 33, 39, 40, 64, 100, 128, 150, 200]) {
        all.push("9".repeat(length));
        all.push(format!("-1{}", "0".repeat(length)));
        all.push(format!("{}8", "0".repeat(length)));
    }
    all
}

fn numbers(pile: &mut Pile) {
    let mut bad: Vec<(&str, String)> = Vec::new();
    bad.extend(NO_NUMBERS.map(|n| ("no number", n.to_string())));
    bad.extend(TOO_LARGE.map(|n| ("number outside 32 bits", n.to_string())));
    bad.extend(digit_runs().into_iter().map(|n| ("long digit run", n)));
    for (class, n) in bad {
        pile.add_bad(class, 1, with_line(1, &format!("bits={n}")));
        pile.add_bad(class, 2, with_line(2, &format!("input={n}")));
        for targets in [format!("{n},3"), format!("3,{n},-5"), format!("3,{n}")] {
            pile.add_bad(class, 4, with_line(4, &format!("targets={targets}")));
        }
        // Alone, the empty writing is the empty list.
        if !n.is_empty() {
            pile.add_bad(class, 4, with_line(4, &format!("targets={n}")));
        }
    }
}

fn empty_items(pile: &mut Pile) {
    let sixteen = ["3"; 16].join(",");
    let few = [",", ",,", ",,,", ",45", "45,", "45,,3", ",45,3", "45,3,", "45,3,,", ",,45", ",0,"];
    let long = [format!(",{sixteen}"), format!("{sixteen},"), ",".repeat(15), ",".repeat(100)];
    let sides = ["45;3", "45, 3", "45.3", "45 3", "45,-,3", "-,45", "45,-", "0,-0", "[45]", "45;"];
    for targets in few.into_iter().chain(sides).chain(long.iter().map(|l| l.as_str())) {
        pile.add_bad("empty or broken items", 4, with_line(4, &format!("targets={targets}")));
    }
    for after in 1..16 {
        let items = [&vec!["3"; after][..], &[""], &vec!["-5"; 16 - after]].concat();
        let targets = items.join(",");
        pile.add_bad("empty or broken items", 4, with_line(4, &format!("targets={targets}")));
    }
}

/// The form of the list is looked at before the count of its targets, however late it breaks.
fn too_many_and_bad(pile: &mut Pile) {
    let class = "over 16 targets and malformed";
    for count in [17, 18, 33, 80] {
        for bad in ["", "-", "-0", "07", "x", "2147483648"] {
            for at in [0, 15, 16, count / 2, count - 1] {
                let mut items = vec!["3"; count];
                items[at] = bad;
                pile.add_bad(class, 4, with_line(4, &format!("targets={}", items.join(","))));
            }
        }
        let whole = text(8, 12, "row", &vec!["3"; count].join(","));
        pile.add_bad(class, 4, whole.trim_end());
        pile.add_bad(class, 5, whole + "\n");
    }
}

/// The line of this name and value with the name misspelt in every way we think of.
fn misspelt(name: &str, value: &str) -> Vec<String> {
    let (first, rest) = name.split_at(1);
    let (front, last) = name.split_at(name.len() - 1);
    let (first, last) = (first.to_uppercase(), last.to_uppercase());
    let mut names: Vec<String> = ["bits", "input", "report", "targets", "adders", "csd", "", "x"]
        .iter()
        .filter(|other| **other != name)
        .map(|other| other.to_string())
        .collect();
    names.extend([name.to_uppercase(), first + rest, front.to_string() + &last]);
    names.extend([rest, front].map(|cut| cut.to_string()));
    names.extend(["s", "=", "x", "\0"].map(|more| format!("{name}{more}")));
    names.extend(["x", "=", "#", "-", "\u{feff}"].map(|more| format!("{more}{name}")));
    let mut lines: Vec<String> = names.iter().map(|n| format!("{n}={value}")).collect();
    lines.extend(["", ":", ": ", " ", "-", "=="].map(|sign| format!("{name}{sign}{value}")));
    lines.extend([String::new(), name.to_string(), value.to_string(), format!("{name}={name}=")]);
    lines.extend(["=", ",", "\0"].map(|more| format!("{name}={value}{more}")));
    lines.extend(["=", ",", "\"", "x"].map(|more| format!("{name}={more}{value}")));
    lines
}

fn names(pile: &mut Pile) {
    for (i, line) in EXAMPLE.iter().enumerate() {
        let (name, value) = line.split_once('=').expect("a name and a value");
        for new in misspelt(name, value) {
            pile.add_bad("misspelt", i + 1, with_line(i + 1, &new));
        }
    }
}

fn report_words(pile: &mut Pile) {
    let words = [
        "", "Width", "WIDTH", "widtH", "widths", "widt", "width=", "width,", "width,row", "wwidth",
        "widthrow", "Row", "ROW", "roW", "rows", "ro", "r", "w", "rrow", "rowwidth", "row,width",
        "wor", "none", "1", "0", "8", "adders", "value", "-", "\"row\"", "row\0", "\0row",
        "r\u{f6}w",
    ];
    for word in words {
        pile.add_bad("report word", 3, with_line(3, &format!("report={word}")));
    }
}

/// The four lines in this order; the first that is not in its place is bad.
fn reordered(order: [usize; 4]) -> Option<(usize, String)> {
    let place = (0..4).find(|&i| order[i] != i)?;
    Some((place + 1, ended(&order.map(|i| EXAMPLE[i]))))
}

/// Every order of the lines, also with some twice and others left out.
fn orders(pile: &mut Pile) {
    for code in 0..256 {
        let order = [code >> 6, code >> 4 & 3, code >> 2 & 3, code & 3];
        if let Some((line, all)) = reordered(order) {
            pile.add_bad("lines in another order", line, all);
        }
    }
    for at in 0..=4 {
        for (i, new) in EXAMPLE.iter().chain(&["", "adders=2"]).enumerate() {
            let mut lines = EXAMPLE.to_vec();
            lines.insert(at, new);
            // A line put in at its own place is good; the old one after it is not.
            let line = if i == at && at < 4 { at + 2 } else { at + 1 };
            pile.add_bad("a line too many", line, ended(&lines));
        }
    }
}

/// Every choice of bad lines, the bytes after line 4 among them; the first is the place.
fn several(pile: &mut Pile) {
    let bad = [
        ["bits=08", "input=", "report=col", "targets=45,,3", "x"],
        ["BITS=8", "input=+12", "report=Row", "targets=-0", "targets=45"],
        ["bits=8 ", "input=4294967308", "report=row ", "target=45", ""],
    ];
    for mask in 1..32u32 {
        for faults in bad {
            let mut lines = EXAMPLE.to_vec();
            lines.push(faults[4]);
            for i in (0..4).filter(|i| mask >> i & 1 == 1) {
                lines[i] = faults[i];
            }
            let count = 4 + (mask >> 4) as usize;
            let line = mask.trailing_zeros() as usize + 1;
            pile.add_bad("several bad lines", line, ended(&lines[..count]));
        }
    }
}

/// Good lines whose numbers would be refused are followed by the same.
fn after_line_4(pile: &mut Pile) {
    let whole = ended(&EXAMPLE);
    let tails = [
        "\n", "\n\n", " ", "x", "\0", "\t", "\r", "\r\n", ",", "0", "-", ",3", ",3\n", "\u{1a}",
        "#", "bits=8\n", "targets=45\n", "targets=45", "adders=2\n", "\u{feff}", "\n\0", " \n",
    ];
    let refused = [text(17, 12, "row", "3"), text(8, 12, "row", ""), text(8, 1, "row", "257")];
    for start in [&whole].into_iter().chain(&refused) {
        for tail in tails.into_iter().chain([&whole[..]]) {
            pile.add_bad("bytes after the end", 5, format!("{start}{tail}"));
        }
        for length in [1, 2, 16, 100] {
            pile.add_bad("bytes after the end", 5, format!("{start}{}", "\n".repeat(length)));
        }
    }
}

/// A good form of exactly this many bytes; it has over 16 targets from 71 bytes on.
pub fn of_length(length: usize) -> String {
    let room = length - text(8, 12, "width", "").len();
    let mut targets = if room % 2 == 1 { "7" } else { "45" }.to_string();
    while targets.len() < room {
        targets += ",7";
    }
    text(8, 12, "width", &targets)
}

/// Malformed texts of exactly this many bytes, each with its line, were the length no fault.
fn spoiled(length: usize) -> [(usize, String); 10] {
    let all = of_length(length);
    let digits = "9".repeat(length - text(8, 12, "row", "").len());
    [
        (1, all.replacen("bits", "Bits", 1)),
        (1, text(format!("8{digits}"), 12, "row", "")),
        (2, text(8, format!("12{digits}"), "row", "")),
        (3, text(8, 12, &format!("row{digits}"), "")),
        (4, text(8, 12, "row", &digits)),
        (4, all[..length - 1].to_string() + "3"),
        (5, of_length(length - 1) + "\n"),
        (5, ended(&EXAMPLE) + &" ".repeat(length - ended(&EXAMPLE).len())),
        (1, "\n".repeat(length)),
        (1, "\0".repeat(length)),
    ]
}

/// Whatever else is wrong, one byte more than 256 and the place is 0.
fn lengths(pile: &mut Pile) {
    for length in 250..=MOST_BYTES {
        pile.add("nearly or just 256 bytes", of_length(length));
        for (line, bad) in spoiled(length) {
            pile.add_bad("nearly or just 256 bytes", line, bad);
        }
    }
    for length in MOST_BYTES + 1..=262 {
        pile.add("over 256 bytes", of_length(length));
        for (_, bad) in spoiled(length) {
            pile.add("over 256 bytes", bad);
        }
    }
}

/// What is said of a text over 256 bytes does not depend on what it holds.
pub fn overlong(length: usize) -> Vec<Vec<u8>> {
    let whole = ended(&EXAMPLE);
    vec![
        of_length(length).into_bytes(),
        (whole.clone() + &"\n".repeat(length - whole.len())).into_bytes(),
        whole.into_bytes().repeat(length / 46 + 1)[..length].to_vec(),
        vec![0; length],
        vec![b'9'; length],
        (0..length).map(|i| i as u8).collect(),
    ]
}

fn long(pile: &mut Pile) {
    for length in [257, 258, 300, 511, 512, 513, 768, 1000, 1023, 1024, 1025, 1199, MOST_WORDS] {
        for all in overlong(length) {
            pile.add("over 256 bytes", all);
        }
    }
}

/// Any bytes, or any of those that a job consists of.
fn noise(pile: &mut Pile) {
    let mut rng = Rng::new(115);
    let usual: Vec<u8> = ended(&EXAMPLE).into_bytes();
    for round in 0..120 {
        let length = rng.span(0, if round % 4 == 0 { 400 } else { 60 });
        let any = |rng: &mut Rng| match round % 2 {
            0 => rng.word() as u8,
            _ => one_of(rng, &usual),
        };
        let bytes: Vec<u8> = (0..length).map(|_| any(&mut rng)).collect();
        pile.add("noise", bytes);
    }
}

pub fn add_malformed(pile: &mut Pile) {
    cut_short(pile);
    missing(pile);
    unended(pile);
    carriage_returns(pile);
    blanks(pile);
    numbers(pile);
    empty_items(pile);
    too_many_and_bad(pile);
    names(pile);
    report_words(pile);
    orders(pile);
    several(pile);
    after_line_4(pile);
    lengths(pile);
    long(pile);
    noise(pile);
}
