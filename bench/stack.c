/* Linked with tests/driver.c, by --wrap: paints the stack before each call, and at the end says on standard error how much of it
   each call took at most. The exit status is 1 if that is more than include/tauwaage.h says. */
#include <stdio.h>
#include <string.h>
#include <unistd.h>

#include "tauwaage.h"

enum { ROOM = 2 * TAUWAAGE_STACK_BYTES, PAINT = 0xa5 };

static const uint8_t *lowest; /* where the paint begins */

typedef struct {
    const char *name;
    size_t most;
} Taken;

static Taken taken[] = {{"apart", 0}, {"canonic", 0}, {"check", 0}, {"distance", 0}, {"generate", 0}, {"job", 0}, {"products", 0},
    {"ranking", 0}, {"widths", 0}};

enum { APART, CANONIC, CHECK, DISTANCE, GENERATE, JOB, PRODUCTS, RANKING, WIDTHS, CALLS };

/* Below the caller's frame; what is called next finds it there. */
__attribute__((noinline)) static void paint(void)
{
    uint8_t room[ROOM];
    memset(room, PAINT, ROOM);
    __asm__ volatile("" : "=r"(lowest) : "0"(room) : "memory");
}

/* From the caller's frame down to the lowest byte that is no paint. */
__attribute__((noinline)) static void note(int call, const void *frame)
{
    const volatile uint8_t *at = lowest;
    while (*at == PAINT)
        at++;
    size_t took = (size_t)((const uint8_t *)frame - (const uint8_t *)at);
    if (took > taken[call].most)
        taken[call].most = took;
}

__attribute__((destructor)) static void tell(void)
{
    size_t most = 0;
    for (int k = 0; k < CALLS; k++) {
        fprintf(stderr, "tauwaage_%-9s %6zu bytes of stack\n", taken[k].name, taken[k].most);
        most = taken[k].most > most ? taken[k].most : most;
    }
    if (most > TAUWAAGE_STACK_BYTES) {
        fprintf(stderr, "stack: include/tauwaage.h says %d\n", TAUWAAGE_STACK_BYTES);
        _exit(1);
    }
}

/* A call as the driver makes it, over the paint. */
#define WRAP(call, name, parameters, arguments)          \
    int64_t __real_##name parameters;                    \
    int64_t __wrap_##name parameters                     \
    {                                                    \
        paint();                                         \
        int64_t code = __real_##name arguments;          \
        note(call, __builtin_frame_address(0));          \
        return code;                                     \
    }

#define GRAPH uint32_t bits, const int32_t *targets, size_t targets_len, size_t rows, const uint32_t *words, size_t words_len
#define GIVEN bits, targets, targets_len, rows, words, words_len

WRAP(APART, tauwaage_apart, (int32_t constant, int32_t *out, size_t out_len), (constant, out, out_len))
WRAP(CANONIC, tauwaage_canonic, (int32_t constant, uint32_t *out, size_t out_len), (constant, out, out_len))
WRAP(CHECK, tauwaage_check, (GRAPH), (GIVEN))
WRAP(PRODUCTS, tauwaage_products, (GRAPH, int32_t x, int64_t *out, size_t out_len), (GIVEN, x, out, out_len))
WRAP(WIDTHS, tauwaage_widths, (GRAPH, uint32_t input, uint32_t *out, size_t out_len), (GIVEN, input, out, out_len))
WRAP(RANKING, tauwaage_ranking, (GRAPH, uint32_t input, uint32_t *out, size_t out_len), (GIVEN, input, out, out_len))
WRAP(DISTANCE, tauwaage_distance, (uint32_t bits, const uint32_t *ready, size_t ready_len, uint32_t target),
    (bits, ready, ready_len, target))
WRAP(GENERATE, tauwaage_generate,
    (uint32_t bits, const int32_t *targets, size_t targets_len, uint32_t *words, size_t words_len),
    (bits, targets, targets_len, words, words_len))
WRAP(JOB, tauwaage_job, (const uint8_t *text, size_t text_len, uint8_t *out, size_t out_len), (text, text_len, out, out_len))
