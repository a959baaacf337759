/* The generator and the distance in plain C, to hold the library's speed to; the calls on a graph are in graphs.c. The search
   has a byte for each odd number that one operation reaches, kept from row to row; the values that would serve a constant are
   looked up in it, and the smallest is kept. */
#include "search.h"

enum { PLACES = 65536 };

typedef struct {
    uint32_t top; /* values are below 2^top, and shifts at most top */
    int count;
    uint32_t value[MOST_READY];
    uint8_t reach[PLACES];
} Set;

/* n without its trailing zeros is marked, if that is below 2^top. */
static inline void mark(uint8_t *map, uint32_t top, uint64_t n)
{
    if (n == 0)
        return;
    n >>= __builtin_ctzll(n);
    if (n >> top == 0)
        map[n / 2] = 1;
}

/* All results of operations on u as it is and v shifted: both are odd, so once even the difference is not below 2^top,
   nothing more comes. */
static inline void mark_side(uint8_t *map, uint32_t top, uint64_t u, uint64_t v)
{
    uint64_t far = u + ((uint64_t)1 << top);
    for (uint32_t l = 0; l <= top; l++) {
        uint64_t a = v << l;
        if (a >= far)
            return;
        mark(map, top, u + a);
        mark(map, top, u < a ? a - u : u - a);
    }
}

static void mark_with_each(uint8_t *map, const Set *set, uint32_t v)
{
    for (int i = 0; i < set->count; i++) {
        mark_side(map, set->top, v, set->value[i]);
        mark_side(map, set->top, set->value[i], v);
    }
}

static void include(Set *set, uint32_t v)
{
    mark_with_each(set->reach, set, v);
    mark_side(set->reach, set->top, v, v);
    set->value[set->count++] = v;
}

static void start(Set *set, uint32_t top)
{
    set->top = top;
    set->count = 0;
    memset(set->reach, 0, (size_t)1 << (top - 1));
}

static int reached(const Set *set, uint32_t c)
{
    return set->reach[c / 2];
}

/* m, if it is reached, not below low and below best; otherwise best. */
static inline uint32_t lower(const Set *set, uint64_t m, uint32_t low, uint32_t best)
{
    return m < low || m >= best || !set->reach[m / 2] ? best : (uint32_t)m;
}

static inline uint32_t look(const Set *set, uint64_t n, uint32_t low, uint32_t best)
{
    return n == 0 ? best : lower(set, n >> __builtin_ctzll(n), low, best);
}

static inline uint32_t look_side(const Set *set, uint64_t u, uint64_t v, uint32_t low, uint32_t best)
{
    uint64_t far = u + ((uint64_t)1 << set->top);
    for (uint32_t l = 0; l <= set->top; l++) {
        uint64_t a = v << l;
        if (a >= far)
            return best;
        best = look(set, u + a, low, best);
        best = look(set, u < a ? a - u : u - a, low, best);
    }
    return best;
}

/* The values from which, taken twice, one operation gives c. */
static uint32_t look_twice(const Set *set, uint32_t c, uint32_t low, uint32_t best)
{
    for (uint32_t l = 1; l <= set->top; l++) {
        uint32_t less = (1u << l) - 1, more = (1u << l) + 1;
        if (c % less == 0)
            best = lower(set, c / less, low, best);
        if (c % more == 0)
            best = lower(set, c / more, low, best);
    }
    return best;
}

/* The smallest value, not below low, that one operation reaches and that serves c, or 0. The operation is symmetric, so a
   value that makes c with a ready one is a value that c makes with it. */
static uint32_t server(const Set *set, uint32_t c, uint32_t low)
{
    uint32_t none = 1u << set->top, best = none;
    for (int i = 0; i < set->count; i++) {
        best = look_side(set, c, set->value[i], low, best);
        best = look_side(set, set->value[i], c, low, best);
    }
    best = look_twice(set, c, low, best);
    return best < none ? best : 0;
}

static int distance(uint32_t b, const uint32_t *ready, int count, uint32_t target)
{
    Set set;
    if (in(ready, count, target))
        return 0;
    start(&set, b + 1);
    for (int i = 0; i < count; i++)
        include(&set, ready[i]);
    if (reached(&set, target))
        return 1;
    return server(&set, target, 1) ? 2 : 3;
}

typedef struct {
    uint32_t word[ROW];
} Row;

/* Whether one choice makes c, and its row. */
static inline int makes(const Set *set, int i, int j, uint32_t l1, uint32_t l2, uint32_t s, uint32_t c, Row *row)
{
    uint64_t u = (uint64_t)set->value[i] << l1, v = (uint64_t)set->value[j] << l2;
    uint64_t n = s == 0 ? u + v : u < v ? v - u : u - v;
    if (n == 0)
        return 0;
    uint32_t r = (uint32_t)__builtin_ctzll(n);
    if (n >> r != c)
        return 0;
    *row = (Row){{(uint32_t)i, (uint32_t)j, l1, l2, s, r, c}};
    return 1;
}

/* The shifts in their order: l1 first, so that all of l2 come with l1 = 0. */
static int pair_makes(const Set *set, int i, int j, uint32_t c, Row *row)
{
    for (uint32_t l = 0; l <= set->top; l++)
        if (makes(set, i, j, 0, l, 0, c, row) || makes(set, i, j, 0, l, 1, c, row))
            return 1;
    for (uint32_t l = 1; l <= set->top; l++)
        if (makes(set, i, j, l, 0, 0, c, row) || makes(set, i, j, l, 0, 1, c, row))
            return 1;
    return 0;
}

static int first_row(const Set *set, uint32_t c, Row *row)
{
    for (int i = 0; i < set->count; i++)
        for (int j = i; j < set->count; j++)
            if (pair_makes(set, i, j, c, row))
                return 1;
    return 0;
}

static void add_row(Set *set, uint32_t *out, const Row *row)
{
    memcpy(out + ROW * (set->count - 1), row, sizeof *row);
    include(set, row->word[ROW - 1]);
}

static void add_first(Set *set, uint32_t *out, uint32_t c)
{
    Row row;
    if (first_row(set, c, &row))
        add_row(set, out, &row);
}

/* One turn of the rule, for constants that are not ready. */
static void turn(Set *set, uint32_t *out, const uint32_t *left, int count)
{
    for (int i = 0; i < count; i++)
        if (reached(set, left[i])) {
            add_first(set, out, left[i]);
            return;
        }
    for (int i = 0; i < count; i++) {
        uint32_t s = server(set, left[i], 3);
        if (s) {
            add_first(set, out, s);
            add_first(set, out, left[i]);
            return;
        }
    }
    Row row;
    while (prefix_row(set->value, set->count, left[0], row.word))
        add_row(set, out, &row);
}

static int without_ready(const Set *set, uint32_t *left, int count)
{
    int kept = 0;
    for (int i = 0; i < count; i++)
        if (!in(set->value, set->count, left[i]))
            left[kept++] = left[i];
    return kept;
}

static int generate(uint32_t b, const uint32_t *wanted, int count, uint32_t *out)
{
    Set set;
    uint32_t left[MOST_TARGETS];
    memcpy(left, wanted, (size_t)count * sizeof *left);
    start(&set, b + 1);
    include(&set, 1);
    while ((count = without_ready(&set, left, count)) > 0)
        turn(&set, out, left, count);
    return set.count - 1;
}
