/* Run lengths by a walk, one pulse after the other: what the library's are compared with, in value and in time. */
#include <string.h>

#include "bench.h"

/* A pulse modulo f and n = p²: the state times x. A sum here is at most 63,001·63,000 + 63,000, which is below 2^32. */
static void pulse(const unsigned *f, unsigned n, unsigned *state)
{
    unsigned top = n - state[DEGREE - 1];
    for (unsigned i = DEGREE - 1; i > 0; i--)
        state[i] = (state[i - 1] + top * f[i]) % n;
    state[0] = top * f[0] % n;
}

unsigned plain_walk(const polynomial *f)
{
    unsigned n = f->prime * f->prime, first[DEGREE] = {1}, state[DEGREE] = {1};
    for (unsigned pulses = 1; pulses <= RUN_LIMIT; pulses++) {
        pulse(f->coefs, n, state);
        if (memcmp(state, first, sizeof state) == 0)
            return pulses;
    }
    return 0;
}

unsigned table_walk(const polynomial *f)
{
    static uint8_t multiples[256][DEGREE];
    uint8_t n = (uint8_t)(f->prime * f->prime), first[DEGREE] = {1}, state[DEGREE + 1] = {0, 1}, next[DEGREE];
    for (unsigned top = 0; top < n; top++)
        for (unsigned i = 0; i < DEGREE; i++)
            multiples[top][i] = (uint8_t)((n - top) * f->coefs[i] % n);
    for (unsigned pulses = 1; pulses <= RUN_LIMIT; pulses++) {
        const uint8_t *taken = multiples[state[DEGREE]];
        for (unsigned i = 0; i < DEGREE; i++) {
            uint8_t sum = (uint8_t)(state[i] + taken[i]), less = (uint8_t)(sum - n);
            next[i] = sum < less ? sum : less;
        }
        memcpy(state + 1, next, sizeof next);
        if (memcmp(next, first, sizeof next) == 0)
            return pulses;
    }
    return 0;
}

/* The answer ends with 0x14, the run in two bytes, low byte first, and 0x0F. */
int run_agrees(const polynomial *f, const uint8_t *answer, size_t length)
{
    const uint8_t *end = answer + length;
    return length > 4 && end[-4] == 0x14 && end[-3] + 256u * end[-2] == plain_walk(f);
}
