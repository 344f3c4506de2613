/* random.h: seeded numbers (splitmix64), and choices that favour the edges, where the rules change. */
#ifndef RANDOM_H
#define RANDOM_H

#include <stddef.h>
#include <stdint.h>

typedef struct {
    uint64_t state;
} rng;

static inline uint64_t draw(rng *r) {
    uint64_t z = r->state += UINT64_C(0x9e3779b97f4a7c15);
    z = (z ^ z >> 30) * UINT64_C(0xbf58476d1ce4e5b9);
    z = (z ^ z >> 27) * UINT64_C(0x94d049bb133111eb);
    return z ^ z >> 31;
}

/* 0 to n - 1; n is not 0. The bias of a remainder does not matter here. */
static inline uint64_t below(rng *r, uint64_t n) { return draw(r) % n; }

static inline int one_in(rng *r, uint64_t n) { return below(r, n) == 0; }

/* A number of any width up to 64 bits less `least`. Here as elsewhere no expression draws twice: compilers differ in which draw comes first, and
 * a case is to be the same with all of them. */
static inline uint64_t any_width(rng *r, uint64_t least) {
    uint64_t n = draw(r), shift = least + below(r, 64 - least);
    return n >> shift;
}

/* A case has its own numbers, so that it can be run again without those before it. */
static inline rng rng_of(uint64_t seed, uint64_t number) {
    rng r = {seed};
    r.state = draw(&r) ^ number * UINT64_C(0xd1342543de82ef95);
    draw(&r);
    return r;
}

/* Numbers around every bound of the layout, of 32 and of 64 bits. */
static inline uint64_t edge(rng *r) {
    static const uint64_t middle[] = {
        0, 1, 2, 8, 16, 17, 83, 1024, 2048, 4096, 32768, UINT64_C(1) << 31, UINT64_C(4294967295), UINT64_C(1) << 32,
        UINT64_C(1) << 60, UINT64_C(1) << 63, UINT64_MAX,
    };
    uint64_t n = middle[below(r, sizeof middle / sizeof *middle)];
    return n + below(r, 3) - 1;
}

#endif
