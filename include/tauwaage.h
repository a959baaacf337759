/* tauwaage.h: the calls of Tauwaage for C and for every language that can call C.
 *
 * Build the archive with tools/archive and link target/staticlib/libexports.a (x86-64 Linux); it needs nothing but the C
 * library. examples/c/ has a program, and a script that builds and runs it.
 *
 * The words that recur (docs/MANUAL.md explains them):
 *   targets  1 to 16 signed 32-bit constants;
 *   bits     the bit limit b, 2 to 16: odd parts of targets lie below 2^b, values of rows below 2^(b+1);
 *   words    a graph, TAUWAAGE_ROW_WORDS words for each row: u v l1 l2 s r value. Words behind the rows are ignored;
 *   rows     how many rows of `words` count, 0 to 128;
 *   input    the input width w, 2 to 32.
 *
 * A slice is two arguments, a pointer and the number of its elements (not bytes). The caller owns it. It is lent for the
 * call alone: no call keeps a pointer, takes memory from the heap or has a state, so calls may run side by side. A pointer
 * is to be aligned for its type, and to as many elements as are said, of less than 2^63 bytes in all; a slice that is
 * written must not overlap another of the same call. Of a slice with no elements nothing is read or written, but the pointer
 * must not be null: any pointer to the type will do.
 *
 * Stack: tauwaage_job takes up to 84 KB, tauwaage_generate 80 KB, tauwaage_distance 72 KB and every other call 4 KB
 * (bench/stack measures it). With TAUWAAGE_STACK_BYTES free there is enough for each.
 *
 * The answer of each call is one signed 64-bit number. 0 or more is what the call says below; less than 0 is a refusal,
 * -(1000 * number + place), which TAUWAAGE_REFUSAL and TAUWAAGE_PLACE take apart. Places count from 1, are at most 129,
 * and are 0 where there is none. The first refusal of the order given counts.
 *
 * On a refusal nothing is written. Else only what is named is written, from the front; the rest keeps its contents.
 */
#ifndef TAUWAAGE_H
#define TAUWAAGE_H

#if !defined(__x86_64__) || defined(__ILP32__) || !defined(__linux__)
#error "tauwaage: the archive is for x86-64 Linux alone; elsewhere compile with x86_64-linux-gnu-gcc, as examples/c/run does"
#endif

#include <stddef.h>
#include <stdint.h>

#ifdef __cplusplus
extern "C" {
#endif

/* ---- limits */

#define TAUWAAGE_MOST_TARGETS 16
#define TAUWAAGE_MOST_ROWS 128
#define TAUWAAGE_MOST_READY 129
#define TAUWAAGE_ROW_WORDS 7
/* the words that tauwaage_apart and tauwaage_canonic write */
#define TAUWAAGE_APART_WORDS 3
#define TAUWAAGE_CANONIC_WORDS 2
/* the room that tauwaage_generate asks for, in words: 128 rows */
#define TAUWAAGE_GENERATE_WORDS 896
/* the longest job that is not refused, and the room that tauwaage_job asks for, in bytes */
#define TAUWAAGE_JOB_TEXT_BYTES 256
#define TAUWAAGE_JOB_BYTES 8769

/* the stack that no call uses up */
#define TAUWAAGE_STACK_BYTES 98304

/* ---- refusals */

enum tauwaage_refusal {
    TAUWAAGE_BITS = 1,          /* bits is not in 2..16 */
    TAUWAAGE_LIST = 2,          /* no target, or more than 16 */
    TAUWAAGE_ODD_PART = 3,      /* an odd part is 2^bits or more; place: the first such target */
    TAUWAAGE_BUFFER = 4,        /* the slice to be written is too short */
    TAUWAAGE_ROW_COUNT = 5,     /* more than 128 rows, or more than the words hold */
    TAUWAAGE_ROW = 6,           /* a row is not valid; place: the first such row */
    TAUWAAGE_UNSERVED = 7,      /* no row has a target's odd part; place: the first such target */
    TAUWAAGE_TOO_MANY_ROWS = 8, /* a 129th row is needed: cannot happen, the number is kept */
    TAUWAAGE_WIDTH = 9,         /* input is not in 2..32 */
    TAUWAAGE_READY = 10,        /* no ready value, or more than 129 (place 0); or one is not odd below 2^(bits+1); place: the first such value */
    TAUWAAGE_TARGET = 11,       /* a distance target is not odd below 2^bits */
    TAUWAAGE_JOB = 12           /* a job is malformed: in a job's text only, never in a code */
};

/* of a code below 0: its number and its place */
#define TAUWAAGE_REFUSAL(code) ((int)(-(code) / 1000))
#define TAUWAAGE_PLACE(code) ((int)(-(code) % 1000))

/* ---- the calls */

/* Takes a constant apart: constant = sign * 2^shift * odd part. Writes sign (-1, 0 or 1), shift and odd part to `out`, for
 * which TAUWAAGE_APART_WORDS words must be lent: 0, 0, 0 for zero, and -1, 31, 1 for -2147483648.
 * Answers 3. Refusals: 4. */
int64_t tauwaage_apart(int32_t constant, int32_t *out, size_t out_len);

/* The canonic signed-digit form of a constant: digits -1, 0 and 1, of which no two nonzero ones are neighbours; a negative
 * constant has the digits of its magnitude with their signs changed. Writes the places of the digits 1 (bit k for 2^k) and
 * the places of the digits -1 to `out`, for which TAUWAAGE_CANONIC_WORDS words must be lent; the first word less the second
 * is the constant.
 * Answers the number of nonzero digits, 0 to 16. Refusals: 4. */
int64_t tauwaage_canonic(int32_t constant, uint32_t *out, size_t out_len);

/* Draws a graph for the targets. Writes its rows to `words`, for which TAUWAAGE_GENERATE_WORDS words must be lent.
 * Answers the number of rows, 0 to 128. Refusals in order: 1, 2, 3 (target), 4. */
int64_t tauwaage_generate(uint32_t bits, const int32_t *targets, size_t targets_len, uint32_t *words, size_t words_len);

/* Checks any graph for the targets. Writes nothing.
 * Answers 0. Refusals in order: 1, 2, 3 (target), 5, 6 (row), 7 (target). */
int64_t tauwaage_check(uint32_t bits, const int32_t *targets, size_t targets_len, size_t rows, const uint32_t *words, size_t words_len);

/* Multiplies x through a graph. Writes target * x for each target, in their order, to `out`: targets_len elements.
 * Answers the number of targets. Refusals: as tauwaage_check, then 4. */
int64_t tauwaage_products(uint32_t bits, const int32_t *targets, size_t targets_len, size_t rows, const uint32_t *words, size_t words_len,
    int32_t x, int64_t *out, size_t out_len);

/* Measures a graph. Writes the width in bits of each row, in row order, and then of each target's output to `out`:
 * rows + targets_len elements.
 * Answers rows + targets_len. Refusals: as tauwaage_check, then 9, then 4. */
int64_t tauwaage_widths(uint32_t bits, const int32_t *targets, size_t targets_len, size_t rows, const uint32_t *words, size_t words_len,
    uint32_t input, uint32_t *out, size_t out_len);

/* Ranks a graph's rows. Writes the row numbers, from 1, widest first and equal widths by lower row, to `out`: rows elements.
 * Answers rows. Refusals: as tauwaage_check, then 9, then 4. */
int64_t tauwaage_ranking(uint32_t bits, const int32_t *targets, size_t targets_len, size_t rows, const uint32_t *words, size_t words_len,
    uint32_t input, uint32_t *out, size_t out_len);

/* How many operations the target is away from the ready values, 1 to 129 odd numbers below 2^(bits+1), of which 1 need not
 * be one. The target is an odd part, below 2^bits. Writes nothing.
 * Answers 0, 1, 2, or 3 for beyond. Refusals in order: 1, 10 (value), 11. */
int64_t tauwaage_distance(uint32_t bits, const uint32_t *ready, size_t ready_len, uint32_t target);

/* The listing of a job's text, or the line `refused=N place=P` of a job that is refused, to `out`, for which
 * TAUWAAGE_JOB_BYTES bytes must be lent. The text need not end in a 0 byte, and none is written.
 * Answers the number of bytes. Refusals: 4, and no other, since a refused job has its text. */
int64_t tauwaage_job(const uint8_t *text, size_t text_len, uint8_t *out, size_t out_len);

#ifdef __cplusplus
}
#endif

#endif
