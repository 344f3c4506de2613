#include "cases.h"

#include <inttypes.h>
#include <stdio.h>
#include <string.h>

#include "compare.h"
#include "groups.h"
#include "met.h"
#include "model.h"

uint32_t do_absorb(rng *r, const shape *s, uint64_t site, const uint8_t *bytes, size_t n) {
    static area *const areas[] = {&words, &slots, &ledger, &value, &group_bytes, 0};
    place_bytes(r, bytes, n);
    snprintf(doing, sizeof doing, "wg_absorb sites=%" PRIu64 " capacity=%" PRIu64 " n_words=%zu n_slots=%zu site=%" PRIu64 " n=%zu bytes",
             s->sites, s->capacity, s->n_words, s->n_slots, site, n);
    tell_bytes(bytes, n);
    *LIB(value, uint64_t) = *MOD(value, uint64_t) = draw(r);
    uint32_t a = wg_absorb(LIB(words, uint64_t), s->n_words, LIB(slots, wg_parcel), s->n_slots, LIB(ledger, wg_ledger), s->sites, s->capacity,
                           site, LIB(group_bytes, uint8_t), n, LIB(value, uint64_t));
    uint32_t b = model_absorb(MOD(words, uint64_t), s->n_words, MOD(slots, wg_parcel), s->n_slots, MOD(ledger, wg_ledger), s->sites, s->capacity,
                              site, MOD(group_bytes, uint8_t), n, MOD(value, uint64_t));
    same_answers(a, b, "refusal");
    same_answers(*LIB(value, uint64_t), *MOD(value, uint64_t), "*rose");
    same_areas(areas);
    if (b != 0) same_answers(*LIB(value, uint64_t), 0, "*rose of a refusal (model: what it must be)");
    meet(ABSORB, b);
    return b;
}

/* The table that is to gain and the group, while they are laid: the capacity is chosen by what they come to. Behind the entries both are 0. */
static struct {
    size_t held, count, most; /* entries in the table, entries in the group, and how many the group may have */
    uint64_t table[2 * WG_CAPACITY_MAX], group[2 * WG_CAPACITY_MAX];
} laid;

static void lay_in_table(uint64_t id, uint64_t length) {
    if (laid.held == WG_CAPACITY_MAX) return;
    laid.table[2 * laid.held] = id;
    laid.table[2 * laid.held + 1] = length;
    laid.held++;
}

static void lay_in_group(uint64_t id, uint64_t length) {
    if (laid.count == laid.most) return;
    laid.group[2 * laid.count] = id;
    laid.group[2 * laid.count + 1] = length;
    laid.count++;
}

/* A common id's length in the group is that of the table, one next to it, or any. */
static uint64_t length_beside(rng *r, uint64_t own) {
    uint64_t other = some_length(r);
    switch (below(r, 4)) {
    case 0: return own;
    case 1: return own > 1 ? own - 1 : own;
    case 2: return own < WG_LENGTH_MAX ? own + 1 : own;
    default: return other;
    }
}

static size_t some_many_ids(rng *r, int large) {
    if (large) return one_in(r, 2) ? WG_CAPACITY_MAX : WG_CAPACITY_MAX - 8 + (size_t)below(r, 20);
    return one_in(r, 3) ? 1 + (size_t)below(r, 8) : 1 + (size_t)below(r, 150);
}

/* So many of a hundred ids are the table's, and so many the group's; in large cases nearly all the table's, and the others the group's. `kept` is what a
 * repeated datagram brings: no new id and no longer length. */
static void lay_ids(rng *r, uint64_t tables, uint64_t groups, int large, int kept) {
    size_t k;
    for (k = 0; k < ids_of_case.count; k++) {
        uint64_t id = ids_of_case.id[k], own = some_length(r), other = kept ? own : length_beside(r, own);
        int in_table = kept || below(r, 100) < tables, in_group = below(r, 100) < groups;
        if (in_table) lay_in_table(id, own);
        if ((in_group && (!kept || laid.held < WG_CAPACITY_MAX)) || (large && !in_table)) lay_in_group(id, other);
    }
}

static void lay_both(rng *r, int large) {
    uint64_t tables = large ? 99 : one_in(r, 6) ? 0 : one_in(r, 6) ? 100 : 20 + below(r, 80);
    uint64_t groups = large ? 1 : one_in(r, 6) ? 100 : 10 + below(r, 90);
    memset(&laid, 0, sizeof laid);
    laid.most = large ? WG_GROUP_ENTRIES : some_group_size(r);
    some_pool(r, &ids_of_case, some_many_ids(r, large));
    if (one_in(r, 4)) ids_of_case.id[0] = 0;
    if (one_in(r, 4)) ids_of_case.id[ids_of_case.count - 1] = UINT64_MAX;
    lay_ids(r, tables, groups, large, one_in(r, 6));
}

/* The table fits; with the group it just fits, is one entry too many, or has room to spare; or the table is full as it is. */
static shape shape_around(rng *r, size_t all) {
    shape s;
    s.sites = one_in(r, 12) ? 16 : 1 + below(r, 3);
    s.n_slots = (size_t)below(r, 4);
    switch (below(r, 8)) {
    case 0: case 1: s.capacity = all; break;
    case 2: case 3: s.capacity = all > 0 ? all - 1 : 0; break;
    case 4: s.capacity = laid.held; break;
    default: s.capacity = all + below(r, 9);
    }
    if (s.capacity < laid.held) s.capacity = laid.held;
    if (s.capacity > WG_CAPACITY_MAX) s.capacity = WG_CAPACITY_MAX;
    s.n_words = (size_t)(s.sites * 2 * s.capacity);
    return s;
}

/* The other tables have ids of the same list, so that one that is taken for another is seen. */
static void place_table(rng *r, const shape *s, uint64_t site) {
    place_state(r, s);
    some_state(r, s, &ids_of_case, LIB(words, uint64_t), LIB(slots, wg_parcel), LIB(ledger, wg_ledger));
    memcpy(table_of(s, site), laid.table, (size_t)(16 * s->capacity));
    share_state();
}

/* The library against itself: a run of two sites, of which one has the group's entries for its table, merged into the other. */
static void same_as_a_merge(const shape *s, uint64_t site, uint32_t refusal) {
    static uint64_t two[4 * WG_CAPACITY_MAX];
    static wg_ledger nothing;
    wg_parcel none;
    size_t bytes = (size_t)(16 * s->capacity);
    uint64_t rose;
    if (laid.count > s->capacity) return; /* no table has so many */
    memcpy(two, laid.group, bytes);
    memcpy(two + 2 * s->capacity, laid.table, bytes);
    if (wg_step(two, (size_t)(4 * s->capacity), &none, 0, &nothing, 2, s->capacity, WG_MERGE, 0, 1, 0, &rose) != refusal ||
        rose != *LIB(value, uint64_t) || memcmp(two + 2 * s->capacity, table_of(s, site), bytes) != 0)
        differ("a group absorbed and a table of the same entries merged do not come to the same");
}

static size_t right_bytes(uint8_t *bytes) {
    static fields f;
    fields_of(laid.group, laid.count, &f);
    return join_fields(&f, bytes);
}

static void absorb_right(rng *r, int large) {
    static uint8_t bytes[GROUP_BYTES];
    joint before = joint_of(laid.table, laid.group, WG_CAPACITY_MAX);
    shape s = shape_around(r, before.all);
    uint64_t site = below(r, s.sites);
    size_t n = right_bytes(bytes);
    uint32_t refusal;
    place_table(r, &s, site);
    refusal = do_absorb(r, &s, site, bytes, n);
    if (refusal != (before.all > s.capacity ? 8u : 0u)) differ("a group is refused otherwise than by its room");
    if (!large || one_in(r, 4)) same_as_a_merge(&s, site, refusal);
    meet_absorb(&before, &s, refusal, *LIB(value, uint64_t));
    if (refusal != 0) return;
    meet_group(ABSORB, laid.group, laid.count, n);
    if (!one_in(r, 3)) return;
    do_absorb(r, &s, site, bytes, n);
    if (*LIB(value, uint64_t) != 0) differ("a group absorbed a second time raises a length");
}

/* Bytes that are no group, or now and then bytes that are one. */
static size_t some_bytes(rng *r, uint8_t *bytes, int *wrong) {
    unsigned way = (unsigned)below(r, BYTE_DAMAGES);
    size_t n;
    *wrong = !one_in(r, 3) && damaged_bytes(r, way, laid.group, laid.count, bytes, &n);
    return *wrong ? n : right_bytes(bytes);
}

/* Often with a full table, in which there would be no room for the entries either. */
static void absorb_wrong(rng *r) {
    static uint8_t bytes[GROUP_BYTES];
    unsigned way = (unsigned)below(r, BYTE_DAMAGES);
    joint before = joint_of(laid.table, laid.group, WG_CAPACITY_MAX);
    shape s = shape_around(r, one_in(r, 2) ? 0 : before.all);
    uint64_t site = below(r, s.sites);
    size_t n;
    if (!damaged_bytes(r, way, laid.group, laid.count, bytes, &n)) return;
    place_table(r, &s, site);
    meet_wrong_absorb(way, before.all > s.capacity);
    if (do_absorb(r, &s, site, bytes, n) != 17) differ("bytes with %s are taken for a group", byte_damage_names[way]);
}

static void absorb_outside(rng *r) {
    static uint8_t bytes[GROUP_BYTES];
    int wrong;
    shape s = shape_around(r, laid.held);
    size_t n = some_bytes(r, bytes, &wrong);
    uint64_t site = one_in(r, 2) ? s.sites : one_in(r, 2) ? UINT64_MAX : s.sites + below(r, 20);
    place_table(r, &s, 0);
    meet_outside(wrong);
    if (do_absorb(r, &s, site, bytes, n) != 3) differ("a site that is not there is not refused with 3");
}

static void absorb_in_damaged(rng *r, int large) {
    static uint8_t bytes[GROUP_BYTES];
    int wrong;
    shape s = some_shape(r, large);
    unsigned way = (unsigned)below(r, DAMAGES);
    size_t n = some_bytes(r, bytes, &wrong);
    place_sound(r, &s);
    if (!damage(r, way, &s, LIB(words, uint64_t), LIB(slots, wg_parcel), LIB(ledger, wg_ledger))) return;
    meet_damage(way);
    share_state();
    if (do_absorb(r, &s, below(r, s.sites + 1), bytes, n) != 2) differ("a state damaged by \"%s\" is not refused with 2", damage_names[way]);
}

static void absorb_in_bad_sizes(rng *r) {
    static uint8_t bytes[GROUP_BYTES];
    int wrong;
    size_t n = some_bytes(r, bytes, &wrong);
    shape s = place_bad_sizes(r);
    if (do_absorb(r, &s, below(r, 3), bytes, n) != 1) differ("sizes outside the limits are not refused with 1");
}

void case_absorb(rng *r, int large) {
    lay_both(r, large);
    switch (below(r, 12)) {
    case 0: absorb_in_bad_sizes(r); break;
    case 1: absorb_in_damaged(r, large); break;
    case 2: absorb_outside(r); break;
    case 3: case 4: case 5: absorb_wrong(r); break;
    default: absorb_right(r, large);
    }
}

void absorb_some(rng *r, const shape *s) {
    static uint8_t bytes[GROUP_BYTES];
    size_t k, n;
    memset(&laid, 0, sizeof laid);
    laid.most = WG_GROUP_ENTRIES;
    for (k = 0; k < ids_of_case.count; k++)
        if (one_in(r, 3)) lay_in_group(ids_of_case.id[k], some_length(r));
    n = right_bytes(bytes);
    if (one_in(r, 8)) n = scrambled_bytes(r, bytes, n);
    do_absorb(r, s, below(r, s->sites), bytes, n);
}
