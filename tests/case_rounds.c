/* case_rounds.c: one repair round for all sites. Each is compared with the model, as ever; what it must come to is asked of the library alone, by the
 * tables as they stood before and by the same merges made one by one in a copy. */
#include "cases.h"

#include <inttypes.h>
#include <stdio.h>
#include <string.h>

#include "compare.h"
#include "met.h"
#include "model.h"

static uint32_t do_round(rng *r, const shape *s) {
    static area *const areas[] = {&words, &slots, &ledger, &value, 0};
    snprintf(doing, sizeof doing, "wg_repair sites=%" PRIu64 " capacity=%" PRIu64 " n_words=%zu n_slots=%zu", s->sites, s->capacity, s->n_words, s->n_slots);
    *LIB(value, uint64_t) = *MOD(value, uint64_t) = draw(r);
    uint32_t a = wg_repair(LIB(words, uint64_t), s->n_words, LIB(slots, wg_parcel), s->n_slots, LIB(ledger, wg_ledger), s->sites, s->capacity,
                           LIB(value, uint64_t));
    uint32_t b = model_repair(MOD(words, uint64_t), s->n_words, MOD(slots, wg_parcel), s->n_slots, MOD(ledger, wg_ledger), s->sites, s->capacity,
                              MOD(value, uint64_t));
    same_answers(a, b, "refusal");
    same_answers(*LIB(value, uint64_t), *MOD(value, uint64_t), "*merges");
    same_areas(areas);
    if (b != 0) same_answers(*LIB(value, uint64_t), 0, "*merges of a refusal (model: what it must be)");
    meet(REPAIR, b);
    return b;
}

/* ---- what a round must come to ---- */

/* Every id that a site has, with the largest length that a site has for it; 0 behind them. */
static uint64_t largest[WG_WORDS(WG_SITES_MAX, WG_CAPACITY_MAX)];

/* The entry at a place of a table, or none behind the last. */
static const uint64_t *entry_at(const uint64_t *table, uint64_t capacity, size_t place) {
    return place < capacity && table[2 * place + 1] != 0 ? table + 2 * place : 0;
}

/* The lowest id that is left at any site, again and again. Returns how many there are. */
static size_t find_largest(const uint64_t *tables, uint64_t sites, uint64_t capacity) {
    size_t passed[WG_SITES_MAX] = {0}, all = 0;
    uint64_t k;
    for (;; all++) {
        const uint64_t *lowest = 0, *next;
        for (k = 0; k < sites; k++) {
            next = entry_at(tables + 2 * k * capacity, capacity, passed[k]);
            if (next && (!lowest || next[0] < lowest[0])) lowest = next;
        }
        if (!lowest) break;
        largest[2 * all] = lowest[0];
        largest[2 * all + 1] = 0;
        for (k = 0; k < sites; k++) {
            next = entry_at(tables + 2 * k * capacity, capacity, passed[k]);
            if (!next || next[0] != lowest[0]) continue;
            if (next[1] > largest[2 * all + 1]) largest[2 * all + 1] = next[1];
            passed[k]++;
        }
    }
    if (all < capacity) memset(largest + 2 * all, 0, (size_t)(16 * (capacity - all)));
    return all;
}

static kept before, by_hand;

/* The merges of a round one by one, in the copy. Returns how many were refused. */
static size_t merge_by_hand(const shape *s) {
    const wg_run run = {by_hand.words, s->n_words, by_hand.slots, s->n_slots, &by_hand.ledger, s->sites, s->capacity};
    uint64_t k, rose;
    size_t refused = 0;
    for (k = 1; k < s->sites; k++) refused += wg_merge(&run, k, 0, &rose) != WG_ACCEPTED;
    for (k = 1; k < s->sites; k++) refused += wg_merge(&run, 0, k, &rose) != WG_ACCEPTED;
    return refused;
}

/* What an accepted round answers, and what it leaves; done a second time, it must leave the same. */
static void levelled(const shape *s) {
    uint64_t k;
    if (*LIB(value, uint64_t) != 2 * (s->sites - 1)) differ("a round does not return 2 x (sites - 1)");
    for (k = 0; k < s->sites; k++)
        if (memcmp(table_of(s, k), largest, (size_t)(16 * s->capacity)) != 0)
            differ("after a round site %" PRIu64 " has not each id with the largest length that a site held", k);
    if (!kept_slots(s, &before)) differ("a round changes the slots or the ledger");
}

void round_placed(rng *r, const shape *s) {
    size_t but_last = find_largest(LIB(words, uint64_t), s->sites - 1, s->capacity), all = find_largest(LIB(words, uint64_t), s->sites, s->capacity);
    uint32_t refusal;
    size_t refused;
    keep(s, &before);
    keep(s, &by_hand);
    refusal = do_round(r, s);
    meet_round(s, &before, all, but_last, refusal);
    if (refusal != (all > s->capacity ? 8u : 0u)) differ("a round is refused otherwise than by its room: %zu ids in all", all);
    refused = merge_by_hand(s);
    if (refusal == 0 && refused > 0) differ("a round is accepted, and of the same merges one by one %zu are refused", refused);
    if (refusal != 0 && refused == 0) differ("a round is refused, and the same merges one by one are not");
    if (refusal != 0) {
        if (!kept_tables(s, &before) || !kept_slots(s, &before)) differ("a refused round changes something");
        return;
    }
    levelled(s);
    if (!kept_tables(s, &by_hand)) differ("a round and the same merges one by one come to different tables");
    if (!one_in(r, 3)) return;
    if (do_round(r, s) != 0) differ("a round done a second time is refused");
    levelled(s);
}

/* ---- tables for a round ---- */

/* Which sites have an id. ONE_OFF is ALIKE but for one entry of one site. */
enum { SCATTERED, APART, ONE_HAS_ALL, ALL_BUT_FIRST, LAST_ALONE, ALIKE, ONE_OFF, NOTHING, WAYS };

/* The tables while they are laid, each with room for all that a table can have: the capacity is chosen by what they come to. */
static struct {
    uint64_t sites;
    size_t held[WG_SITES_MAX];
    uint64_t words[WG_WORDS(WG_SITES_MAX, WG_CAPACITY_MAX)];
} laid;

static uint64_t *laid_at(uint64_t site) { return laid.words + 2 * site * WG_CAPACITY_MAX; }

/* A full table takes no more. */
static void lay(uint64_t site, uint64_t id, uint64_t length) {
    uint64_t *entry = laid_at(site) + 2 * laid.held[site];
    if (laid.held[site] == WG_CAPACITY_MAX) return;
    entry[0] = id;
    entry[1] = length;
    laid.held[site]++;
}

static int has_it(rng *r, unsigned way, uint64_t site, uint64_t chosen, uint64_t of_a_hundred) {
    int by_chance = below(r, 100) < of_a_hundred;
    switch (way) {
    case SCATTERED: return by_chance;
    case APART: return site == chosen;
    case ONE_HAS_ALL: return site == chosen || by_chance;
    case ALL_BUT_FIRST: return site > 0 && by_chance;
    case LAST_ALONE: return site + 1 == laid.sites;
    case NOTHING: return 0;
    default: return 1;
    }
}

/* A site has the usual length of an id, the next one, or any. */
static uint64_t length_beside(rng *r, uint64_t usual) {
    uint64_t other = some_length(r);
    switch (below(r, 4)) {
    case 0: return other;
    case 1: return usual < WG_LENGTH_MAX ? usual + 1 : usual - 1;
    default: return usual;
    }
}

/* A length that changes, or an entry that is missing, at one site. */
static void take_one_off(rng *r) {
    uint64_t site = below(r, laid.sites), *entry;
    size_t place;
    if (laid.held[site] == 0) return;
    place = (size_t)below(r, laid.held[site]);
    entry = laid_at(site) + 2 * place;
    if (one_in(r, 2)) {
        entry[1] += entry[1] < WG_LENGTH_MAX ? 1 : UINT64_MAX;
        return;
    }
    laid.held[site]--;
    memmove(entry, entry + 2, 16 * (laid.held[site] - place));
    memset(laid_at(site) + 2 * laid.held[site], 0, 16);
}

static void lay_ids(rng *r, unsigned way) {
    uint64_t of_a_hundred = one_in(r, 3) ? 90 : 5 + below(r, 90), chosen = below(r, laid.sites), site;
    int same = way == ALIKE || way == ONE_OFF;
    size_t k;
    for (k = 0; k < ids_of_case.count; k++) {
        uint64_t usual = some_length(r);
        if (way == APART) chosen = below(r, laid.sites);
        for (site = 0; site < laid.sites; site++) {
            uint64_t length = same ? usual : length_beside(r, usual);
            if (has_it(r, way, site, chosen, of_a_hundred)) lay(site, ids_of_case.id[k], length);
        }
    }
    if (way == ONE_OFF) take_one_off(r);
}

static uint64_t some_sites(rng *r, int large) {
    if (large) return one_in(r, 3) ? 16 : one_in(r, 8) ? 1 : 2 + below(r, 2);
    if (one_in(r, 6)) return 1;
    if (one_in(r, 6)) return 16;
    return one_in(r, 4) ? 4 + below(r, 12) : 2 + below(r, 2);
}

static size_t some_many(rng *r, int large) {
    if (large) return one_in(r, 2) ? WG_CAPACITY_MAX : !one_in(r, 3) ? WG_CAPACITY_MAX + 1 : 1 + (size_t)below(r, POOL);
    if (one_in(r, 12)) return 1 + (size_t)below(r, 150);
    return 1 + (size_t)below(r, 12);
}

static void lay_tables(rng *r, int large) {
    uint64_t k;
    for (k = 0; k < WG_SITES_MAX; k++) {
        memset(laid_at(k), 0, 16 * laid.held[k]);
        laid.held[k] = 0;
    }
    laid.sites = some_sites(r, large);
    some_pool(r, &ids_of_case, some_many(r, large));
    if (one_in(r, 4)) ids_of_case.id[0] = 0;
    if (one_in(r, 4)) ids_of_case.id[ids_of_case.count - 1] = UINT64_MAX;
    /* in a large case each id is to stand somewhere, so that they come to about 2,048 */
    lay_ids(r, large && !one_in(r, 4) ? (unsigned)(one_in(r, 3) ? ONE_HAS_ALL : APART) : one_in(r, 3) ? SCATTERED : (unsigned)below(r, WAYS));
}

/* Each table fits by itself; all together just fit, are one too many, far too many, or have room to spare. */
static shape shape_around(rng *r, int large) {
    uint64_t all = find_largest(laid.words, laid.sites, WG_CAPACITY_MAX), least = 0, k;
    shape s;
    for (k = 0; k < laid.sites; k++)
        if (laid.held[k] > least) least = laid.held[k];
    s.sites = laid.sites;
    switch (below(r, 8)) {
    case 0: case 1: case 2: s.capacity = all; break;
    case 3: case 4: s.capacity = all > 0 ? all - 1 : 0; break;
    case 5: s.capacity = least + below(r, all - least + 1); break;
    case 6: s.capacity = least; break;
    default: s.capacity = all + 1 + below(r, all / 4 + 9);
    }
    if (s.capacity < least) s.capacity = least;
    if (s.capacity > WG_CAPACITY_MAX) s.capacity = WG_CAPACITY_MAX;
    s.n_words = WG_WORDS(s.sites, s.capacity);
    s.n_slots = large && one_in(r, 2) ? WG_SLOTS_MAX : (size_t)below(r, 5);
    return s;
}

/* With parcels that wait and links that were in use, as any state has them. */
static void place_laid(rng *r, const shape *s) {
    uint64_t k;
    place_state(r, s);
    some_state(r, s, &ids_of_case, LIB(words, uint64_t), LIB(slots, wg_parcel), LIB(ledger, wg_ledger));
    for (k = 0; k < s->sites; k++) memcpy(table_of(s, k), laid_at(k), (size_t)(16 * s->capacity));
}

static void round_in_damaged(rng *r, int large) {
    unsigned way = (unsigned)below(r, DAMAGES);
    shape s = shape_around(r, large);
    int too_many = find_largest(laid.words, laid.sites, WG_CAPACITY_MAX) > s.capacity;
    place_laid(r, &s);
    if (!damage(r, way, &s, LIB(words, uint64_t), LIB(slots, wg_parcel), LIB(ledger, wg_ledger))) return;
    meet_damage(way);
    meet_damaged_round(way, too_many);
    share_state();
    if (do_round(r, &s) != 2) differ("a state damaged by \"%s\" is not refused with 2", damage_names[way]);
}

static void round_of_bad_sizes(rng *r) {
    shape s = place_bad_sizes(r);
    meet_round_of_bad_sizes(&s);
    if (do_round(r, &s) != 1) differ("sizes outside the limits are not refused with 1");
}

void case_round(rng *r, int large) {
    unsigned kind = (unsigned)below(r, 10);
    shape s;
    if (kind == 0) {
        round_of_bad_sizes(r);
        return;
    }
    lay_tables(r, large);
    if (kind < 3) {
        round_in_damaged(r, large);
        return;
    }
    s = shape_around(r, large);
    place_laid(r, &s);
    share_state();
    round_placed(r, &s);
}
