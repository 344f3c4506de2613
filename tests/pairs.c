#include "pairs.h"

#include <string.h>

uint32_t some_serial(rng *r) {
    static const uint32_t middle[] = {0, HALF_WAY, 1, UINT32_MAX, HALF_WAY - 1, HALF_WAY + 1};
    uint32_t serial = middle[below(r, sizeof middle / sizeof *middle)];
    switch (below(r, 4)) {
    case 0: return serial;
    case 1: return serial + (uint32_t)below(r, 9) - 4;
    case 2: return serial - 1 - (uint32_t)below(r, 40); /* a run of sends passes the place */
    default: return (uint32_t)draw(r);
    }
}

uint32_t serial_near(rng *r, uint32_t other) {
    switch (below(r, 8)) {
    case 0: return other;
    case 1: return other - 1 - (uint32_t)below(r, 3);
    case 2: case 3: return other + 1 + (uint32_t)below(r, 3);
    case 4: return other + HALF_WAY;
    case 5: return other + HALF_WAY + (uint32_t)below(r, 3) - 1;
    case 6: return other + (uint32_t)below(r, 2000) - 1000;
    default: return some_serial(r);
    }
}

uint32_t some_mark(rng *r) {
    switch (below(r, 12)) {
    case 0: case 1: return 1;
    case 2: return UINT32_MAX;
    case 3: return one_in(r, 2) ? 2 : UINT32_C(1) << below(r, 32);
    case 4: return 1 + (uint32_t)below(r, UINT32_MAX);
    default: return 0;
    }
}

static void some_noise(rng *r, wg_ledger *l) {
    size_t k;
    for (k = 0; k < sizeof l->pairs; k += 8) {
        uint64_t n = draw(r);
        memcpy((char *)l->pairs + k, &n, 8);
    }
}

static void some_pair(rng *r, wg_pair *p) {
    p->unsent = some_mark(r);
    p->unheard = some_mark(r);
    p->next = some_serial(r);
    p->heard = p->unheard != 0 ? 0 : serial_near(r, p->next - 1);
}

void some_pairs(rng *r, const shape *s, wg_ledger *l) {
    uint64_t from, to;
    some_noise(r, l);
    for (from = 0; from < s->sites; from++)
        for (to = 0; to < s->sites; to++)
            if (from != to) some_pair(r, &l->pairs[from][to]);
}
