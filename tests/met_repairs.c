/* met_repairs.c: what was met of repairs in two orders. */
#include "met.h"

enum { JUST_FIT, SPARE, ONE_TOO_MANY, DIFFER, WAYS };

const char *const repair_names[] = {
    "at one site, just fit", "room to spare", "one id too many", "and end with other tables",
    "at all sites, just fit", "room to spare", "one id too many", "and end with other tables",
    "three grouped, just fit", "room to spare", "one id too many", "and end with other tables",
    "16 sites", "2,048 places",
};

enum { SIXTEEN = WAYS * REPAIR_KINDS, LARGEST, EVENTS };

uint64_t repairs[EVENTS];
const int repair_count = EVENTS;

void meet_repairs(int kind, const shape *s, size_t needs, int same) {
    uint64_t *of = repairs + WAYS * kind;
    of[JUST_FIT] += needs == s->capacity;
    of[SPARE] += needs < s->capacity;
    of[ONE_TOO_MANY] += needs == s->capacity + 1;
    of[DIFFER] += needs > s->capacity && !same;
    repairs[SIXTEEN] += s->sites == 16;
    repairs[LARGEST] += s->capacity == WG_CAPACITY_MAX;
}
