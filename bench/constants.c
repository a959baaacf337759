/* The calls on one constant in plain C. */
#include "common.h"

int64_t tauwaage_apart(int32_t constant, int32_t *out, size_t out_len)
{
    if (out_len < TAUWAAGE_APART_WORDS)
        return refusal(4, 0);
    out[0] = (constant > 0) - (constant < 0);
    out[1] = constant == 0 ? 0 : __builtin_ctz((uint32_t)constant);
    out[2] = (int32_t)odd_part(constant);
    return TAUWAAGE_APART_WORDS;
}

/* A digit of m is nonzero at a place where m and 3 m differ in the next bit: 1 where 3 m has it, -1 where m has it. */
int64_t tauwaage_canonic(int32_t constant, uint32_t *out, size_t out_len)
{
    uint64_t m = constant < 0 ? -(uint64_t)constant : (uint64_t)constant, thrice = 3 * m;
    uint64_t plus = (thrice & ~m) >> 1, minus = (m & ~thrice) >> 1;
    if (out_len < TAUWAAGE_CANONIC_WORDS)
        return refusal(4, 0);
    out[constant < 0] = (uint32_t)plus;
    out[constant >= 0] = (uint32_t)minus;
    return __builtin_popcountll(plus | minus);
}

/* The driver has jobs too; they are not timed. */
int64_t tauwaage_job(const uint8_t *text, size_t text_len, uint8_t *out, size_t out_len)
{
    (void)text, (void)text_len, (void)out, (void)out_len;
    return refusal(4, 0);
}
