// Random numbers of the programs here: the same from the same seed.
#ifndef DRAWS_H
#define DRAWS_H
#include <math.h>
#include <stdint.h>
#include <string.h>

static uint64_t state;

static uint64_t next(void) { // xorshift64*
    state ^= state >> 12;
    state ^= state << 25;
    state ^= state >> 27;
    return state * 2685821657736338717u;
}

static void seed(uint64_t x) { state = x * 0x9e3779b97f4a7c15u + 1; }

enum { STYLES = 5 };

// A number of a style: whole, halves, middling, finite, any.
static inline double styled(int style) {
    uint64_t r = next();
    double x;
    switch (style) {
    case 0: // small whole numbers and both zeros
        x = (double)(r % 7) - 3;
        return x == 0 && r & 0x100 ? -x : x;
    case 1: // halves
        return ((double)(r % 33) - 16) * 0.5;
    case 2: // middling
        return ldexp((double)(int64_t)r * 0x1p-63, (int)(next() % 21) - 10);
    case 3: // any finite
        do {
            r = next();
            memcpy(&x, &r, 8);
        } while (!isfinite(x));
        return x;
    default: // any bits, one in eight not finite
        memcpy(&x, &r, 8);
        return next() % 8 ? x : next() % 2 ? NAN : next() % 2 ? INFINITY : -INFINITY;
    }
}

#endif
