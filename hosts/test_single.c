/*
 * test_single: calls pag_single with every step from -16,777,217 to 16,777,217, and with the largest and the smallest numbers, each against a reference by whole
 * numbers and, where the compiler's singles are evaluated as singles, against its own product. CHECKED asks for every 997th step alone.
 */
#include "pag.h"

#include <float.h>
#include <inttypes.h>
#include <stdio.h>
#include <stdlib.h>
#include <string.h>

enum { MOST = 16777216 };

static size_t calls;

static void fail(int64_t step, const char *why)
{
    printf("step %" PRId64 ": %s\n", step, why);
    exit(1);
}

/* The nearest of all singles, found without rounding: among the singles of magnitude up to 1,048,576, whose order is that of their bits, the last that is not
 * above the product, or the next one. A single of exponent e (1 or more) and fraction f is (2^23 + f) * 2^(e - 150); the product is in units of 2^-28. */
static uint32_t nearest(uint64_t product)
{
    uint32_t low = 0x3D000000, high = 0x4A000000; /* 2^-5 and 2^21 */
    while (high - low > 1) {
        uint32_t middle = low + (high - low) / 2, exponent = middle >> 23;
        uint64_t value = (uint64_t)((middle & 0x7FFFFF) | 0x800000) << (exponent - 122);
        if (value <= product)
            low = middle;
        else
            high = middle;
    }
    uint64_t below = (uint64_t)((low & 0x7FFFFF) | 0x800000) << ((low >> 23) - 122);
    uint64_t above = (uint64_t)((high & 0x7FFFFF) | 0x800000) << ((high >> 23) - 122);
    uint64_t down = product - below, up = above - product;
    return down < up || (down == up && low % 2 == 0) ? low : high;
}

static uint32_t reference(int64_t step)
{
    if (step == 0) return 0;
    uint64_t magnitude = (uint64_t)(step < 0 ? -step : step);
    return nearest(magnitude * 13421773u) | (step < 0 ? 0x80000000u : 0);
}

static void check(int64_t step)
{
    pag_answer got = pag_single(step);
    calls++;
    if (step < -MOST || step > MOST) {
        if (got.reason != PAG_STEP_BEYOND_SINGLES || got.number) fail(step, "it is not refused by 29, 0");
        return;
    }
    if (got.reason) fail(step, "it is refused");
    if (got.number != reference(step)) fail(step, "another single is nearest");
#if FLT_EVAL_METHOD == 0
    float single = (float)step * 0.05f;
    uint32_t bits;
    memcpy(&bits, &single, sizeof bits);
    if (got.number != bits) fail(step, "the compiler's product is another");
#endif
}

int main(void)
{
    int stride = getenv("CHECKED") ? 997 : 1;
    for (int64_t step = -MOST - 1; step <= MOST + 1; step += stride) check(step);
    static const int64_t others[] = { -MOST - 1, -MOST, -1, 0, 1, 2, 3, 10, 20, 100, MOST, MOST + 1, INT64_MIN, INT64_MIN + 1, -4294967296, 4294967296, INT64_MAX };
    for (size_t i = 0; i < sizeof others / sizeof *others; i++) check(others[i]);
    if (pag_single(1).number != 0x3D4CCCCD || pag_single(-20).number != 0xBF800000 || pag_single(100).number != 0x40A00000) fail(1, "by hand it is another");
    printf("%zu steps\n", calls);
    return 0;
}
