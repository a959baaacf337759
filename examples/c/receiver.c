/* A receiver's three constants through the library: each taken apart, a graph drawn and checked, its widths, order and
 * products, a distance, a refusal, and a whole job. examples/c/run builds and runs it; receiver.out is what it prints. */
#include <inttypes.h>
#include <stdio.h>
#include <string.h>

#include "tauwaage.h"

#define BITS 8
#define INPUT 12
#define TARGETS 3

static const int32_t targets[TARGETS] = {45, -20, 0};
static uint32_t words[TAUWAAGE_GENERATE_WORDS];

/* Tells a refusal; other answers are the caller's. */
static int64_t told(const char *call, int64_t code) {
    if (code < 0)
        printf("%s: refused=%d place=%d\n", call, TAUWAAGE_REFUSAL(code), TAUWAAGE_PLACE(code));
    return code;
}

static void take_apart(int32_t constant) {
    int32_t parts[TAUWAAGE_APART_WORDS];
    uint32_t digits[TAUWAAGE_CANONIC_WORDS];
    told("apart", tauwaage_apart(constant, parts, TAUWAAGE_APART_WORDS));
    printf("%" PRId32 ": sign %" PRId32 ", shift %" PRId32 ", odd part %" PRId32, constant, parts[0], parts[1], parts[2]);
    int64_t nonzero = told("canonic", tauwaage_canonic(constant, digits, TAUWAAGE_CANONIC_WORDS));
    printf("; %" PRId64 " nonzero digits, %" PRIu32 " less %" PRIu32 "\n", nonzero, digits[0], digits[1]);
}

static void print_rows(size_t rows) {
    for (size_t i = 0; i < rows; i++) {
        const uint32_t *row = words + TAUWAAGE_ROW_WORDS * i;
        printf("row %zu:", i + 1);
        for (size_t k = 0; k < TAUWAAGE_ROW_WORDS; k++)
            printf(" %" PRIu32, row[k]);
        printf("\n");
    }
}

static void print_numbers(const char *name, const uint32_t *numbers, int64_t count) {
    printf("%s:", name);
    for (int64_t i = 0; i < count; i++)
        printf(" %" PRIu32, numbers[i]);
    printf("\n");
}

static void measure_and_rank(size_t rows) {
    uint32_t out[TAUWAAGE_MOST_ROWS + TAUWAAGE_MOST_TARGETS];
    size_t room = sizeof out / sizeof out[0];
    int64_t count = told("widths", tauwaage_widths(BITS, targets, TARGETS, rows, words, TAUWAAGE_GENERATE_WORDS, INPUT, out, room));
    print_numbers("widths", out, count);
    count = told("ranking", tauwaage_ranking(BITS, targets, TARGETS, rows, words, TAUWAAGE_GENERATE_WORDS, INPUT, out, room));
    print_numbers("ranking", out, count);
}

static void multiply(size_t rows, int32_t x) {
    int64_t out[TAUWAAGE_MOST_TARGETS];
    int64_t count = told("products", tauwaage_products(BITS, targets, TARGETS, rows, words, TAUWAAGE_GENERATE_WORDS, x, out, TAUWAAGE_MOST_TARGETS));
    printf("products for x = %" PRId32 ":", x);
    for (int64_t i = 0; i < count; i++)
        printf(" %" PRId64, out[i]);
    printf("\n");
}

static void list_job(void) {
    static const char text[] = "bits=8\ninput=12\nreport=width\ntargets=45,-20,0\n";
    static uint8_t out[TAUWAAGE_JOB_BYTES];
    int64_t bytes = told("job", tauwaage_job((const uint8_t *)text, strlen(text), out, sizeof out));
    if (bytes > 0)
        fwrite(out, 1, (size_t)bytes, stdout);
}

int main(void) {
    static const uint32_t ready[] = {1};
    static const int32_t too_wide[] = {45, 513};
    for (size_t i = 0; i < TARGETS; i++)
        take_apart(targets[i]);
    int64_t rows = told("generate", tauwaage_generate(BITS, targets, TARGETS, words, TAUWAAGE_GENERATE_WORDS));
    if (rows < 0)
        return 1;
    printf("rows: %" PRId64 "\n", rows);
    print_rows((size_t)rows);
    printf("check: %" PRId64 "\n", tauwaage_check(BITS, targets, TARGETS, (size_t)rows, words, TAUWAAGE_GENERATE_WORDS));
    measure_and_rank((size_t)rows);
    multiply((size_t)rows, -7);
    printf("distance of 45 from 1: %" PRId64 "\n", told("distance", tauwaage_distance(BITS, ready, 1, 45)));
    told("generate 45 and 513", tauwaage_generate(BITS, too_wide, 2, words, TAUWAAGE_GENERATE_WORDS));
    list_job();
    return 0;
}
