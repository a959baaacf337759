//! Graphs that the source papers speak of, as rows.

use crate::graph::Row;

/// A name, the constants and the rows.
pub type Figure = (&'static str, &'static [i32], &'static [Row]);

const INPUT_TIMES_3: Row = [0, 0, 0, 1, 0, 0, 3];
const THREE_PLUS_8: Row = [1, 0, 0, 3, 0, 0, 11];
const INPUT_TIMES_63: Row = [0, 0, 6, 0, 1, 0, 63];
const SIXTY_THREE_TIMES_3: Row = [1, 1, 0, 1, 0, 0, 189];
const SIXTY_THREE_PLUS_1024: Row = [1, 0, 0, 10, 0, 0, 1087];
const LAST_PLUS_1024: Row = [3, 0, 0, 10, 0, 0, 1717];
const LAST_PLUS_504: Row = [3, 1, 0, 3, 0, 0, 1717];
const FIVE_PLUS_8: Row = [1, 0, 0, 3, 0, 0, 13];
const LAST_TIMES_4_PLUS_1: Row = [3, 0, 2, 0, 0, 0, 1717];

/// Document 002 gives figure 14's values in table 6 and the sum in equation (23), but not the
/// rows; document 004 gives of figure 5 only the constants and that three operations make them.
/// The rows are drawn by hand from that.
pub const FIGURES: [Figure; 12] = [
    (
        "002 figure 14b",
        &[1717],
        &[INPUT_TIMES_3, THREE_PLUS_8, [2, 2, 6, 0, 1, 0, 693], LAST_PLUS_1024],
    ),
    (
        "002 figure 14c",
        &[1717],
        &[INPUT_TIMES_3, THREE_PLUS_8, [0, 2, 10, 0, 1, 0, 1013], [3, 2, 0, 6, 0, 0, 1717]],
    ),
    (
        "002 figure 14d",
        &[1717],
        &[INPUT_TIMES_63, SIXTY_THREE_TIMES_3, [2, 1, 0, 3, 0, 0, 693], LAST_PLUS_1024],
    ),
    (
        "002 figure 14e",
        &[1717],
        &[INPUT_TIMES_63, SIXTY_THREE_TIMES_3, [2, 0, 0, 10, 0, 0, 1213], LAST_PLUS_504],
    ),
    (
        "002 figure 14f",
        &[1717],
        &[INPUT_TIMES_63, SIXTY_THREE_PLUS_1024, [2, 1, 0, 1, 0, 0, 1213], LAST_PLUS_504],
    ),
    (
        "002 figure 14g",
        &[1717],
        &[INPUT_TIMES_63, SIXTY_THREE_PLUS_1024, [1, 1, 0, 2, 0, 0, 315], [2, 3, 0, 1, 0, 0, 1717]],
    ),
    (
        "002 equation 24",
        &[1717],
        &[[0, 0, 0, 2, 0, 0, 5], FIVE_PLUS_8, [2, 2, 0, 5, 0, 0, 429], LAST_TIMES_4_PLUS_1],
    ),
    (
        "004 figure 5",
        &[23, 81],
        &[[0, 0, 0, 3, 0, 0, 9], [0, 1, 5, 0, 1, 0, 23], [1, 1, 0, 3, 0, 0, 81]],
    ),
    (
        "004 figure 2 top",
        &[45],
        &[[0, 0, 2, 0, 1, 0, 3], [1, 0, 2, 0, 1, 0, 11], [2, 0, 2, 0, 0, 0, 45]],
    ),
    ("004 figure 2 bottom", &[45], &[[0, 0, 0, 2, 0, 0, 5], [1, 1, 0, 3, 0, 0, 45]]),
    (
        "004 71 in binary",
        &[71],
        &[INPUT_TIMES_3, [1, 0, 0, 2, 0, 0, 7], [2, 0, 0, 6, 0, 0, 71]],
    ),
    ("004 71 in canonic digits", &[71], &[[0, 0, 3, 0, 0, 0, 9], [1, 0, 3, 0, 1, 0, 71]]),
];
