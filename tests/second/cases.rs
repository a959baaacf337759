//! The kinds of cases. A kind is one function that pushes its cases into the book.

use crate::book::Book;
use crate::constant_cases::{kind_apart, kind_canonic};
use crate::distance_cases::kind_distance;
use crate::format_cases::kind_format;
use crate::generate_cases::kind_generate;
use crate::graph_cases::{kind_check, kind_products, kind_ranking, kind_widths};
use crate::list_cases::kind_list;
use crate::row_cases::{kind_operation, kind_row};
use crate::text_cases::kind_text;
use crate::width_cases::kind_width;

const KINDS: [fn(&mut Book); 14] = [
    kind_apart,
    kind_canonic,
    kind_list,
    kind_operation,
    kind_row,
    kind_width,
    kind_check,
    kind_products,
    kind_widths,
    kind_ranking,
    kind_distance,
    kind_generate,
    kind_text,
    kind_format,
];

/// Writes both files and prints the classes; whether both could be written. The last line has no line feed.
pub fn write(cases: &str, expected: &str) -> bool {
    let mut book = Book::new();
    for kind in KINDS {
        kind(&mut book);
    }
    book.cases.pop();
    for (class, count) in &book.classes {
        println!("{class} {count}");
    }
    println!("{} cases", book.classes.iter().map(|c| c.1).sum::<u32>());
    let written = std::fs::write(cases, &book.cases).and(std::fs::write(expected, &book.expected));
    if let Err(error) = &written {
        eprintln!("{error}");
    }
    written.is_ok()
}
