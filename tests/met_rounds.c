/* met_rounds.c: what was met of repair rounds. */
#include "met.h"

#include <string.h>

#define M UINT64_C(4294967295)

enum {
    RAREST_DAMAGE, DAMAGED_AND_TOO_MANY, NO_SITES, SITES_ABOVE, CAPACITY_ABOVE, SLOTS_ABOVE, OTHER_WORDS, /* refused with 1 or 2 */
    ALONE, ALONE_AND_FULL, TWO, THREE, SIXTEEN, OTHER_SITES,
    JUST_FIT, SPARE, NO_CAPACITY, EMPTY, EQUAL, ONE_WORD_OFF, ONE_TABLE_OFF, FIRST_HAS_ALL, FIRST_EMPTY, LAST_ALONE,
    UP_TO_M, ID_0, ID_LAST, LARGEST, ALL_LARGEST, WAITING, UNKNOWN_WAITING, LINK_IN_USE,
    REFUSED_TWO, REFUSED_THREE, REFUSED_SIXTEEN, REFUSED_OTHER,
    ONE_TOO_MANY, FAR_TOO_MANY, EVERY_TWO_FIT, LAST_TOO_MANY, REFUSED_LARGEST, REFUSED_WAITING,
    EVENTS
};

const char *const round_names[] = {
    "the rarest damage", "damaged and too many ids", "no sites", "17 sites and more", "C above 2,048", "1,025 slots", "words that are not as many",
    "1 site", "1 site and full", "2 sites", "3 sites", "16 sites", "other numbers of sites",
    "just fit", "room to spare", "C = 0", "all tables empty", "all equal already", "equal but for one word", "equal but for one table",
    "site 0 has all ids", "site 0 empty", "the last site alone has ids",
    "from M - 1 to M", "id 0", "largest id", "2,048 ids", "16 sites of 2,048 places", "parcels waiting", "a parcel with an id of no table", "a link in use",
    "refused at 2 sites", "at 3", "at 16", "at others",
    "one id too many", "twice as many and more", "too many where every two tables fit", "too many by the last site's", "at 2,048 places", "parcels waiting",
};

uint64_t rounds[EVENTS];
const int round_count = EVENTS;

static uint64_t damaged[DAMAGES];

void meet_damaged_round(unsigned way, int too_many) {
    damaged[way]++;
    rounds[DAMAGED_AND_TOO_MANY] += too_many != 0;
}

void meet_round_of_bad_sizes(const shape *s) {
    rounds[NO_SITES] += s->sites == 0;
    rounds[SITES_ABOVE] += s->sites > 16;
    rounds[CAPACITY_ABOVE] += s->capacity > 2048;
    rounds[SLOTS_ABOVE] += s->n_slots > 1024;
    rounds[OTHER_WORDS] += s->sites >= 1 && s->sites <= 16 && s->capacity <= 2048 && s->n_words != s->sites * 2 * s->capacity;
}

void sum_up_rounds(void) {
    int k;
    rounds[RAREST_DAMAGE] = damaged[0];
    for (k = 1; k < DAMAGES; k++)
        if (damaged[k] < rounds[RAREST_DAMAGE]) rounds[RAREST_DAMAGE] = damaged[k];
}

static const uint64_t *table_at(const shape *s, const kept *before, uint64_t site) { return before->words + site * 2 * s->capacity; }

static int anywhere(const shape *s, const kept *before, uint64_t id) {
    size_t k;
    for (k = 0; k < s->sites * s->capacity; k++)
        if (before->words[2 * k] == id && before->words[2 * k + 1] != 0) return 1;
    return 0;
}

static int waits(const shape *s, const kept *before) {
    size_t k;
    for (k = 0; k < s->n_slots; k++)
        if (before->slots[k].length != 0) return 1;
    return 0;
}

/* One of the first few parcels has an id that no table has: a round does not take it in. */
static int unknown_waits(const shape *s, const kept *before) {
    size_t k;
    for (k = 0; k < s->n_slots && k < 4; k++)
        if (before->slots[k].length != 0 && !anywhere(s, before, before->slots[k].id)) return 1;
    return 0;
}

static int every_two_fit(const shape *s, const kept *before) {
    uint64_t a, b;
    for (a = 0; a < s->sites; a++)
        for (b = 0; b < a; b++)
            if (joint_of(table_at(s, before, a), table_at(s, before, b), s->capacity).all > s->capacity) return 0;
    return 1;
}

static void meet_refused(const shape *s, const kept *before, size_t all, size_t but_last) {
    rounds[s->sites == 2 ? REFUSED_TWO : s->sites == 3 ? REFUSED_THREE : s->sites == 16 ? REFUSED_SIXTEEN : REFUSED_OTHER]++;
    rounds[ONE_TOO_MANY] += all == s->capacity + 1;
    rounds[FAR_TOO_MANY] += s->capacity > 0 && all >= 2 * s->capacity;
    rounds[EVERY_TWO_FIT] += every_two_fit(s, before);
    rounds[LAST_TOO_MANY] += but_last <= s->capacity;
    rounds[REFUSED_LARGEST] += s->capacity == WG_CAPACITY_MAX;
    rounds[REFUSED_WAITING] += waits(s, before);
}

/* How the tables of several sites lay beside that of site 0. */
static void meet_beside(const shape *s, const kept *before, size_t all, size_t but_last) {
    const uint64_t *first = before->words;
    size_t held = in_use(first, s->capacity), others = 0, off = 0, k, n = (size_t)(2 * s->capacity);
    uint64_t site;
    for (site = 1; site < s->sites; site++) {
        const uint64_t *table = table_at(s, before, site);
        others += memcmp(table, first, 8 * n) != 0;
        for (k = 0; k < n; k++) off += table[k] != first[k];
    }
    rounds[JUST_FIT] += all == s->capacity && others > 0;
    rounds[EQUAL] += all > 0 && others == 0;
    rounds[ONE_WORD_OFF] += off == 1;
    rounds[ONE_TABLE_OFF] += s->sites > 2 && others == 1;
    rounds[FIRST_HAS_ALL] += held == all && others > 0;
    rounds[FIRST_EMPTY] += held == 0 && all > 0;
    rounds[LAST_ALONE] += but_last == 0 && all > 0;
    rounds[UP_TO_M] += first[1] == M - 1 && table_at(s, before, 1)[0] == first[0] && table_at(s, before, 1)[1] == M;
    rounds[LINK_IN_USE] += before->ledger.pairs[0][1].unsent == 0 && before->ledger.pairs[0][1].unheard == 0;
}

static void meet_accepted(const shape *s, const kept *before, size_t all) {
    rounds[s->sites == 1 ? ALONE : s->sites == 2 ? TWO : s->sites == 3 ? THREE : s->sites == 16 ? SIXTEEN : OTHER_SITES]++;
    rounds[ALONE_AND_FULL] += s->sites == 1 && all == s->capacity && all > 0;
    rounds[SPARE] += all < s->capacity && all > 0;
    rounds[NO_CAPACITY] += s->capacity == 0;
    rounds[EMPTY] += all == 0 && s->capacity > 0;
    rounds[ID_0] += anywhere(s, before, 0);
    rounds[ID_LAST] += anywhere(s, before, UINT64_MAX);
    rounds[LARGEST] += all == WG_CAPACITY_MAX;
    rounds[ALL_LARGEST] += s->sites == 16 && s->capacity == WG_CAPACITY_MAX;
    rounds[WAITING] += waits(s, before);
    rounds[UNKNOWN_WAITING] += unknown_waits(s, before);
}

void meet_round(const shape *s, const kept *before, size_t all, size_t but_last, uint32_t refusal) {
    if (refusal == 8) meet_refused(s, before, all, but_last);
    if (refusal != 0) return;
    meet_accepted(s, before, all);
    if (s->sites > 1 && s->capacity > 0) meet_beside(s, before, all, but_last);
}
