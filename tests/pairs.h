/* pairs.h: serials, marks and the pairs of a ledger, favouring the places where the order of serials turns. */
#ifndef PAIRS_H
#define PAIRS_H

#include "states.h"

/* Half of all serials: two that are so far apart have no order. */
#define HALF_WAY UINT32_C(2147483648)

/* Around 0, half way and the last serial, on both sides of each; or any. */
uint32_t some_serial(rng *r);

/* Equal to another, a little newer or older, half of all serials away or next to that; or as above. */
uint32_t serial_near(rng *r, uint32_t other);

/* 0, or a mark that stands: 1, the largest, or another. */
uint32_t some_mark(rng *r);

/* Sound pairs for the sites of the run. What no call may look at, the pairs of a site with itself and those of sites that the run does not have, is
 * left full of noise: nearly all of it would be unsound, and all of it must stay. */
void some_pairs(rng *r, const shape *s, wg_ledger *l);

#endif
