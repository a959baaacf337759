/* Answers cases, one a line, by the calls of include/tauwaage.h; tests/README.md has the lines' format. It is linked with the
   library's archive for the tests, and with plain C too for bench/run, so that one driver times all.
   `driver --times M` makes the call of every line M times and prints the last one's answer. */
#include <inttypes.h>
#include <stdio.h>
#include <stdlib.h>
#include <string.h>
#include <unistd.h>

#include "tauwaage.h"

enum {
    LONGEST = 16384,   /* bytes of a line */
    MOST_WORDS = 1200, /* numbers of a line */
    MOST_TEXT = 1200,  /* bytes of a job's text */
    MOST_ROOM = 1200,  /* words of a lent buffer */
    MOST_PRODUCTS = 64,
    BEHIND = 64, /* words behind every buffer, to see that no call writes there */
    ROW = TAUWAAGE_ROW_WORDS,
    UNUSED = 0xa5 /* a byte of a job's buffer before the call */
};

/* The numbers of a line as words, signed ones in two's complement. */
static uint32_t words[MOST_WORDS], count;
static uint8_t text[MOST_TEXT];
static size_t text_len;

/* What a call writes to. */
static uint32_t out[MOST_ROOM + BEHIND];
static int64_t wide[MOST_PRODUCTS + BEHIND];
static uint8_t listing[TAUWAAGE_JOB_BYTES + BEHIND];

/* A call: its numbers' form, and how it is made and answered. */
typedef struct {
    const char *name;
    uint32_t least, most; /* how many numbers it takes */
    uint32_t most_room;   /* of the lent buffer, whose length is the second number; 0 where none is lent */
    int first_signed;
    uint32_t targets_at; /* where its targets begin; 0 where there are none */
    int on_graph;        /* the targets' number stands before them, and b before that; behind them the rows' and the rows */
    int64_t (*call)(void);
    void (*print)(int64_t code);
} Call;

static void die(const char *what)
{
    fflush(stdout);
    fprintf(stderr, "driver: %s\n", what);
    exit(2);
}

/* ---- the calls, of the words that were read */

static const int32_t *targets_from(uint32_t at)
{
    return (const int32_t *)(words + at);
}

/* A graph's part of a line: b, the targets behind their number, and the rows' words behind the rows' number. */
typedef struct {
    uint32_t b;
    size_t count, rows, length; /* of targets, rows and words */
    const int32_t *targets;
    const uint32_t *words;
} Graph;

static Graph graph_from(uint32_t at)
{
    uint32_t rows_at = at + 2 + words[at + 1];
    return (Graph){words[at], words[at + 1], words[rows_at], count - rows_at - 1, targets_from(at + 2), words + rows_at + 1};
}

static int64_t call_apart(void)
{
    return tauwaage_apart((int32_t)words[0], (int32_t *)out, words[1]);
}

static int64_t call_canonic(void)
{
    return tauwaage_canonic((int32_t)words[0], out, words[1]);
}

static int64_t call_check(void)
{
    Graph g = graph_from(0);
    return tauwaage_check(g.b, g.targets, g.count, g.rows, g.words, g.length);
}

static int64_t call_products(void)
{
    Graph g = graph_from(2);
    return tauwaage_products(g.b, g.targets, g.count, g.rows, g.words, g.length, (int32_t)words[0], wide, words[1]);
}

static int64_t call_widths(void)
{
    Graph g = graph_from(2);
    return tauwaage_widths(g.b, g.targets, g.count, g.rows, g.words, g.length, words[0], out, words[1]);
}

static int64_t call_ranking(void)
{
    Graph g = graph_from(2);
    return tauwaage_ranking(g.b, g.targets, g.count, g.rows, g.words, g.length, words[0], out, words[1]);
}

static int64_t call_distance(void)
{
    return tauwaage_distance(words[0], words + 2, count - 2, words[1]);
}

static int64_t call_generate(void)
{
    return tauwaage_generate(words[0], targets_from(2), count - 2, out, words[1]);
}

static int64_t call_job(void)
{
    return tauwaage_job(text, text_len, listing, TAUWAAGE_JOB_BYTES);
}

/* ---- their answers */

/* The number that a lent buffer's place holds before a call. */
static uint32_t filling(size_t k)
{
    return 7000 + (uint32_t)k;
}

static void fill(void)
{
    for (size_t k = 0; k < sizeof out / sizeof *out; k++)
        out[k] = filling(k);
    for (size_t k = 0; k < sizeof wide / sizeof *wide; k++)
        wide[k] = filling(k);
    memset(listing, UNUSED, sizeof listing);
}

/* How many words from a place on hold what they held before the call, up to the first that does not. */
static size_t untouched(size_t from, size_t to)
{
    size_t k = from;
    while (k < to && out[k] == filling(k))
        k++;
    return k - from;
}

static void print_told(int64_t code)
{
    if (code < 0)
        printf("%d %d", TAUWAAGE_REFUSAL(code), TAUWAAGE_PLACE(code));
    else
        printf("0 0");
}

static void print_words(size_t n)
{
    for (size_t k = 0; k < n; k++)
        printf(" %" PRIu32, out[k]);
}

static void print_buffer(int64_t code)
{
    print_told(code);
    print_words(words[1]);
}

static void print_signed(int64_t code)
{
    print_told(code);
    for (size_t k = 0; k < words[1]; k++)
        printf(" %" PRId32, (int32_t)out[k]);
}

static void print_wide(int64_t code)
{
    print_told(code);
    for (size_t k = 0; k < words[1]; k++)
        printf(" %" PRId64, wide[k]);
}

static void print_number(int64_t code)
{
    print_told(code);
    if (code >= 0)
        printf(" %" PRId64, code);
}

static void print_canonic(int64_t code)
{
    print_number(code);
    print_words(words[1]);
}

/* The rows' words, and of the others, which are many, how many the call left as they were. */
static void print_rows(int64_t code)
{
    size_t rows = code < 0 ? 0 : (size_t)code;
    if (ROW * rows > words[1])
        die("more rows than the buffer has room for");
    print_told(code);
    printf(" %zu", rows);
    print_words(ROW * rows);
    printf(" %zu", untouched(ROW * rows, words[1]));
}

static void print_listing(int64_t code)
{
    if (code < 0 || code > TAUWAAGE_JOB_BYTES)
        die("a job has no text");
    for (size_t k = (size_t)code; k < sizeof listing; k++)
        if (listing[k] != UNUSED)
            die("a byte behind the listing is written");
    for (size_t k = 0; k < (size_t)code; k++)
        if (listing[k] == '\n')
            fputs("\\n", stdout);
        else
            putchar(listing[k]);
}

/* No call writes behind the buffer that it is lent. */
static void hold_behind(size_t room)
{
    size_t all = sizeof out / sizeof *out;
    if (untouched(room, all) != all - room)
        die("a word behind the lent buffer is written");
    for (size_t k = room < MOST_PRODUCTS ? room : MOST_PRODUCTS; k < sizeof wide / sizeof *wide; k++)
        if (wide[k] != filling(k))
            die("a product behind the lent buffer is written");
}

/* ---- a line read */

static const Call calls[] = {
    {"apart", 2, 2, MOST_ROOM, 1, 0, 0, call_apart, print_signed},
    {"canonic", 2, 2, MOST_ROOM, 1, 0, 0, call_canonic, print_canonic},
    {"check", 3, MOST_WORDS, 0, 0, 2, 1, call_check, print_told},
    {"products", 5, MOST_WORDS, MOST_PRODUCTS, 1, 4, 1, call_products, print_wide},
    {"widths", 5, MOST_WORDS, MOST_ROOM, 0, 4, 1, call_widths, print_buffer},
    {"ranking", 5, MOST_WORDS, MOST_ROOM, 0, 4, 1, call_ranking, print_buffer},
    {"distance", 2, MOST_WORDS, 0, 0, 0, 0, call_distance, print_number},
    {"generate", 2, MOST_WORDS, MOST_ROOM, 0, 2, 0, call_generate, print_rows},
};

static const Call job = {.name = "job", .call = call_job, .print = print_listing};

/* Digits as a number of at most 32 bits, without leading zeros; 0 where they are none. */
static int read_natural(const uint8_t *at, const uint8_t *end, uint64_t *n)
{
    if (at == end || (*at == '0' && end - at > 1))
        return 0;
    for (*n = 0; at < end; at++) {
        if (*at < '0' || *at > '9')
            return 0;
        *n = 10 * *n + (uint64_t)(*at - '0');
        if (*n > UINT32_MAX)
            return 0;
    }
    return 1;
}

static int read_signed(const uint8_t *at, const uint8_t *end, uint32_t *word)
{
    uint64_t n, minus = at < end && *at == '-', most = (uint64_t)INT32_MAX + minus;
    if (!read_natural(at + minus, end, &n) || n > most || (minus && n == 0))
        return 0;
    *word = (uint32_t)(minus ? -n : n);
    return 1;
}

static int read_unsigned(const uint8_t *at, const uint8_t *end, uint32_t *word)
{
    uint64_t n;
    if (!read_natural(at, end, &n))
        return 0;
    *word = (uint32_t)n;
    return 1;
}

/* Whether the number at a place is signed: T, x or a target. The words before it are read already. */
static int is_signed(const Call *call, uint32_t place)
{
    if (place == 0 && call->first_signed)
        return 1;
    if (call->targets_at == 0 || place < call->targets_at)
        return 0;
    return !call->on_graph || place - call->targets_at < words[call->targets_at - 1];
}

static const uint8_t *next_space(const uint8_t *at, const uint8_t *end)
{
    const uint8_t *space = memchr(at, ' ', (size_t)(end - at));
    return space ? space : end;
}

/* The numbers, each behind one space. */
static int read_words(const Call *call, const uint8_t *at, const uint8_t *end)
{
    for (count = 0; at < end; count++) {
        const uint8_t *start = at + 1;
        at = next_space(start, end);
        if (count == call->most)
            return 0;
        if (!(is_signed(call, count) ? read_signed : read_unsigned)(start, at, words + count))
            return 0;
    }
    return count >= call->least;
}

/* Whether the lent buffer is not too long, and a graph's lists are there. */
static int fits(const Call *call)
{
    if (call->most_room && words[1] > call->most_room)
        return 0;
    return !call->on_graph || words[call->targets_at - 1] < count - call->targets_at;
}

/* The value of a hexadecimal digit, or -1. */
static int nibble(uint8_t c)
{
    if (c >= '0' && c <= '9')
        return c - '0';
    return c >= 'a' && c <= 'f' ? c - 'a' + 10 : -1;
}

/* One byte of a job's text, escaped or not, and how many bytes it takes on the line; 0 for what is no escape. */
static size_t read_byte(const uint8_t *at, const uint8_t *end, uint8_t *byte)
{
    size_t left = (size_t)(end - at);
    *byte = *at;
    if (*at != '\\')
        return 1;
    if (left > 1 && at[1] == '\\')
        return 2;
    if (left > 1 && at[1] == 'n') {
        *byte = '\n';
        return 2;
    }
    if (left < 4 || at[1] != 'x' || nibble(at[2]) < 0 || nibble(at[3]) < 0)
        return 0;
    *byte = (uint8_t)(16 * nibble(at[2]) + nibble(at[3]));
    return 4;
}

/* What stands behind `job`: a space and the text, or nothing. */
static int read_text(const uint8_t *at, const uint8_t *end)
{
    at += at < end;
    for (text_len = 0; at < end; text_len++) {
        uint8_t byte;
        size_t step = read_byte(at, end, &byte);
        if (step == 0 || text_len == MOST_TEXT)
            return 0;
        text[text_len] = byte;
        at += step;
    }
    return 1;
}

static int is_name(const uint8_t *name, size_t length, const Call *call)
{
    return length == strlen(call->name) && !memcmp(name, call->name, length);
}

/* The call of a line, with its words or its text read; NULL where the line is not in the format. */
static const Call *read_case(const uint8_t *line, size_t length)
{
    const uint8_t *end = line + length, *behind = next_space(line, end);
    size_t named = (size_t)(behind - line);
    if (length > LONGEST)
        return NULL;
    if (is_name(line, named, &job))
        return read_text(behind, end) ? &job : NULL;
    for (size_t k = 0; k < sizeof calls / sizeof *calls; k++)
        if (is_name(line, named, calls + k))
            return read_words(calls + k, behind, end) && fits(calls + k) ? calls + k : NULL;
    return NULL;
}

/* ---- line by line */

/* The next byte of the input, or -1 at its end. Answers go out before more is waited for, so that a typed line is answered
   at once. */
static int next_byte(void)
{
    static uint8_t block[65536];
    static ssize_t held, at;
    if (at == held) {
        if (fflush(stdout))
            die("the answers cannot be written");
        held = read(STDIN_FILENO, block, sizeof block);
        at = 0;
        if (held < 0)
            die("the cases cannot be read");
        if (held == 0)
            return -1;
    }
    return block[at++];
}

/* The next line, of a longer one as much as shows that; 0 where the input has ended. */
static int read_line(uint8_t *line, size_t *length)
{
    int byte = next_byte();
    if (byte < 0)
        return 0;
    for (*length = 0; byte >= 0 && byte != '\n'; byte = next_byte())
        if (*length <= LONGEST)
            line[(*length)++] = (uint8_t)byte;
    return 1;
}

static void answer(const Call *call, uint64_t times)
{
    for (; times > 1; times--)
        call->call();
    fill();
    int64_t code = call->call();
    hold_behind(call->most_room ? words[1] : 0);
    call->print(code);
}

static uint64_t times_of(int argc, char **argv)
{
    uint64_t times = 1;
    if (argc == 1)
        return times;
    if (argc != 3 || strcmp(argv[1], "--times"))
        die("usage: driver [--times M]");
    const uint8_t *number = (const uint8_t *)argv[2];
    if (!read_natural(number, number + strlen(argv[2]), &times) || times == 0)
        die("M is a number from 1 on");
    return times;
}

int main(int argc, char **argv)
{
    static uint8_t line[LONGEST + 1];
    uint64_t times = times_of(argc, argv);
    for (size_t length; read_line(line, &length);) {
        const Call *call = read_case(line, length);
        if (call)
            answer(call, times);
        else
            fputs("bad", stdout);
        putchar('\n');
    }
    return 0;
}
