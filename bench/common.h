/* What the C programs share: refusals as codes (include/tauwaage.h), and what every call on targets looks at first. */
#include <string.h>

#include "tauwaage.h"

enum { MOST_READY = TAUWAAGE_MOST_READY, MOST_ROWS = TAUWAAGE_MOST_ROWS, MOST_TARGETS = TAUWAAGE_MOST_TARGETS, ROW = TAUWAAGE_ROW_WORDS };

static int64_t refusal(int64_t number, size_t place)
{
    return -(1000 * number + (int64_t)place);
}

static uint32_t odd_part(int32_t t)
{
    uint32_t m = t < 0 ? -(uint32_t)t : (uint32_t)t;
    return m == 0 ? 0 : m >> __builtin_ctz(m);
}

/* 0, or a refusal. */
static inline int64_t admit(uint32_t b, const int32_t *targets, size_t count)
{
    if (b < 2 || b > 16)
        return refusal(1, 0);
    if (count < 1 || count > MOST_TARGETS)
        return refusal(2, 0);
    for (size_t i = 0; i < count; i++)
        if (odd_part(targets[i]) >> b)
            return refusal(3, i + 1);
    return 0;
}
