/* The naive search: for each candidate s, every pair of ready values and every shift. No map, and nothing kept from one
   turn to the next. */
#include "search.h"

typedef struct {
    uint32_t top;
    int count;
    uint32_t value[MOST_READY + 1]; /* a candidate is put behind 129 ready values */
} Set;

/* Whether one choice makes c, and the trailing zeros dropped. */
static int makes(uint64_t u, uint64_t v, uint32_t s, uint32_t c, uint32_t *r)
{
    uint64_t n = s == 0 ? u + v : u < v ? v - u : u - v;
    if (n == 0)
        return 0;
    *r = (uint32_t)__builtin_ctzll(n);
    return n >> *r == c;
}

/* The first row that makes c, in the order u index, v index, l1, l2, s. */
static int first_row(const Set *set, uint32_t c, uint32_t *row)
{
    for (int i = 0; i < set->count; i++)
        for (int j = i; j < set->count; j++)
            for (uint32_t l1 = 0; l1 <= set->top; l1++)
                for (uint32_t l2 = 0; l2 <= (l1 == 0 ? set->top : 0); l2++)
                    for (uint32_t s = 0; s <= 1; s++) {
                        uint64_t u = (uint64_t)set->value[i] << l1, v = (uint64_t)set->value[j] << l2;
                        uint32_t r;
                        if (!makes(u, v, s, c, &r))
                            continue;
                        memcpy(row, (uint32_t[]){(uint32_t)i, (uint32_t)j, l1, l2, s, r, c}, ROW * sizeof *row);
                        return 1;
                    }
    return 0;
}

static int reached(const Set *set, uint32_t c)
{
    uint32_t row[ROW];
    return first_row(set, c, row);
}

/* One operation on the ready values and s makes c. */
static int serves(Set *set, uint32_t s, uint32_t c)
{
    set->value[set->count++] = s;
    int served = reached(set, c);
    set->count--;
    return served;
}

/* The smallest value from a number on that is reached and serves c, or 0. */
static uint32_t server(Set *set, uint32_t c, uint32_t from)
{
    for (uint32_t s = from; s < 1u << set->top; s += 2)
        if (reached(set, s) && serves(set, s, c))
            return s;
    return 0;
}

static int distance(uint32_t b, const uint32_t *ready, int count, uint32_t target)
{
    Set set = {.top = b + 1, .count = count};
    memcpy(set.value, ready, (size_t)count * sizeof *ready);
    if (in(ready, count, target))
        return 0;
    if (reached(&set, target))
        return 1;
    return server(&set, target, 1) ? 2 : 3;
}

static void add(Set *set, uint32_t *out, const uint32_t *row)
{
    memcpy(out + ROW * (set->count - 1), row, ROW * sizeof *row);
    set->value[set->count++] = row[ROW - 1];
}

static void add_first(Set *set, uint32_t *out, uint32_t c)
{
    uint32_t row[ROW];
    if (first_row(set, c, row))
        add(set, out, row);
}

/* One turn of the rule; 0 where no constant is left. */
static int turn(Set *set, uint32_t *out, const uint32_t *wanted, int count)
{
    uint32_t s, least = 0, row[ROW];
    for (int i = 0; i < count; i++)
        if (!in(set->value, set->count, wanted[i]) && reached(set, wanted[i])) {
            add_first(set, out, wanted[i]);
            return 1;
        }
    for (int i = 0; i < count; i++) {
        if (in(set->value, set->count, wanted[i]))
            continue;
        least = least ? least : wanted[i];
        if ((s = server(set, wanted[i], 3))) {
            add_first(set, out, s);
            add_first(set, out, wanted[i]);
            return 1;
        }
    }
    while (least && prefix_row(set->value, set->count, least, row))
        add(set, out, row);
    return least != 0;
}

static int generate(uint32_t b, const uint32_t *wanted, int count, uint32_t *out)
{
    Set set = {.top = b + 1, .count = 1, .value = {1}};
    while (turn(&set, out, wanted, count))
        ;
    return set.count - 1;
}
