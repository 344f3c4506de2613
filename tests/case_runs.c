#include "cases.h"

#include <inttypes.h>
#include <stdio.h>
#include <string.h>

#include "compare.h"
#include "met.h"
#include "model.h"
#include "pairs.h"

void place_state(rng *r, const shape *s) {
    area_place(&words, r, s->n_words * 8);
    area_place(&slots, r, s->n_slots * sizeof(wg_parcel));
    area_place(&ledger, r, sizeof(wg_ledger));
    area_place(&value, r, 8);
    area_place(&lag, r, 4);
}

void share_state(void) {
    area_share(&words);
    area_share(&slots);
    area_share(&ledger);
}

uint64_t *table_of(const shape *s, uint64_t site) { return LIB(words, uint64_t) + site * 2 * s->capacity; }

void keep(const shape *s, kept *k) {
    memcpy(k->words, LIB(words, uint64_t), 8 * s->n_words);
    memcpy(k->slots, LIB(slots, wg_parcel), sizeof(wg_parcel) * s->n_slots);
    k->ledger = *LIB(ledger, wg_ledger);
}

int kept_tables(const shape *s, const kept *k) { return memcmp(k->words, LIB(words, uint64_t), 8 * s->n_words) == 0; }

int kept_slots(const shape *s, const kept *k) {
    return memcmp(k->slots, LIB(slots, wg_parcel), sizeof(wg_parcel) * s->n_slots) == 0 &&
           memcmp(&k->ledger, LIB(ledger, wg_ledger), sizeof(wg_ledger)) == 0;
}

static area *const state_areas[] = {&words, &slots, &ledger, &value, &lag, 0};

static uint32_t do_fresh(rng *r, const shape *s) {
    uint32_t first = some_serial(r);
    snprintf(doing, sizeof doing, "wg_fresh sites=%" PRIu64 " capacity=%" PRIu64 " n_words=%zu n_slots=%zu first=%" PRIu32,
             s->sites, s->capacity, s->n_words, s->n_slots, first);
    uint32_t a = wg_fresh(LIB(words, uint64_t), s->n_words, LIB(slots, wg_parcel), s->n_slots, LIB(ledger, wg_ledger), s->sites, s->capacity, first);
    uint32_t b = model_fresh(MOD(words, uint64_t), s->n_words, MOD(slots, wg_parcel), s->n_slots, MOD(ledger, wg_ledger), s->sites, s->capacity, first);
    same_answers(a, b, "refusal");
    same_areas(state_areas);
    meet(FRESH, b);
    if (b == 0) meet_fresh(first);
    return b;
}

/* What a send or a delivery is about, as it stands before the step. */
typedef struct {
    int told; /* there is something: a send between two sites of the run, or the delivery of a parcel */
    wg_pair pair;
    wg_parcel parcel;
    uint64_t length; /* of the id at the parcel's site */
    int no_room, count_full;
} scene;

static uint64_t length_at(const shape *s, uint64_t site, uint64_t id, int *full) {
    const uint64_t *table = MOD(words, uint64_t) + site * 2 * s->capacity;
    uint64_t k;
    for (k = 0; k < s->capacity && table[2 * k + 1] != 0; k++)
        if (table[2 * k] == id) return table[2 * k + 1];
    *full = k == s->capacity;
    return 0;
}

static scene scene_of(const shape *s, numbers n) {
    scene c = {0};
    const wg_ledger *l = MOD(ledger, wg_ledger);
    if (s->sites > WG_SITES_MAX || s->capacity > WG_CAPACITY_MAX || s->n_words != s->sites * 2 * s->capacity) return c;
    if (n.kind == WG_SEND && n.first < s->sites && n.second < s->sites) {
        c.told = 1;
        c.pair = l->pairs[n.first][n.second];
    }
    if (n.kind != WG_DELIVER || n.first >= s->n_slots) return c;
    c.parcel = MOD(slots, wg_parcel)[n.first];
    if (c.parcel.length == 0 || c.parcel.site >= s->sites || c.parcel.sender >= s->sites) return c;
    c.told = 1;
    c.pair = l->pairs[c.parcel.sender][c.parcel.site];
    c.length = length_at(s, c.parcel.site, c.parcel.id, &c.no_room);
    c.count_full = l->absorbed == WG_LENGTH_MAX;
    return c;
}

static void meet_scene(const scene *c, uint64_t kind, uint32_t refusal) {
    if (!c->told) return;
    if (kind == WG_SEND && refusal == 0) meet_send(&c->pair);
    if (kind == WG_DELIVER && refusal == 0) meet_delivery(&c->pair, &c->parcel, c->length);
    if (kind == WG_DELIVER && refusal == 15) meet_no_order(c->no_room, c->count_full);
}

uint32_t do_step(rng *r, const shape *s, numbers n) {
    snprintf(doing, sizeof doing,
             "wg_step sites=%" PRIu64 " capacity=%" PRIu64 " n_words=%zu n_slots=%zu kind=%" PRIu64 " first=%" PRIu64 " second=%" PRIu64 " id=%" PRIu64,
             s->sites, s->capacity, s->n_words, s->n_slots, n.kind, n.first, n.second, n.id);
    scene before = scene_of(s, n);
    *LIB(value, uint64_t) = *MOD(value, uint64_t) = draw(r);
    uint32_t a = wg_step(LIB(words, uint64_t), s->n_words, LIB(slots, wg_parcel), s->n_slots, LIB(ledger, wg_ledger), s->sites, s->capacity,
                         n.kind, n.first, n.second, n.id, LIB(value, uint64_t));
    uint32_t b = model_step(MOD(words, uint64_t), s->n_words, MOD(slots, wg_parcel), s->n_slots, MOD(ledger, wg_ledger), s->sites, s->capacity,
                            n.kind, n.first, n.second, n.id, MOD(value, uint64_t));
    same_answers(a, b, "refusal");
    same_answers(*LIB(value, uint64_t), *MOD(value, uint64_t), "*value");
    same_areas(state_areas);
    if (b != 0) same_answers(*LIB(value, uint64_t), 0, "*value of a refusal (model: what it must be)");
    meet(call_of(n.kind), b);
    meet_scene(&before, n.kind, b);
    if (b != 1 && b != 11) meet_size(s);
    return b;
}

static uint64_t some_site(rng *r, const shape *s) {
    if (one_in(r, 20)) return one_in(r, 2) ? s->sites : edge(r);
    return below(r, s->sites == 0 || s->sites > 16 ? 3 : s->sites);
}

static uint32_t do_lag(rng *r, const shape *s) {
    uint64_t from = some_site(r, s), to = some_site(r, s);
    if (to == from && s->sites > 1 && s->sites <= 16 && !one_in(r, 8)) to = (from + 1) % s->sites;
    snprintf(doing, sizeof doing, "wg_lag sites=%" PRIu64 " capacity=%" PRIu64 " n_words=%zu n_slots=%zu from=%" PRIu64 " to=%" PRIu64,
             s->sites, s->capacity, s->n_words, s->n_slots, from, to);
    noise(r, &lag);
    uint32_t a = wg_lag(LIB(words, uint64_t), s->n_words, LIB(slots, wg_parcel), s->n_slots, LIB(ledger, wg_ledger), s->sites, s->capacity,
                        from, to, LIB(lag, int32_t));
    uint32_t b = model_lag(MOD(words, uint64_t), s->n_words, MOD(slots, wg_parcel), s->n_slots, MOD(ledger, wg_ledger), s->sites, s->capacity,
                           from, to, MOD(lag, int32_t));
    same_answers(a, b, "refusal");
    same_answers((uint32_t)*LIB(lag, int32_t), (uint32_t)*MOD(lag, int32_t), "*lag (modulo 4294967296)");
    same_areas(state_areas);
    if (b != 0) same_answers((uint32_t)*LIB(lag, int32_t), 0, "*lag of a refusal (model: what it must be)");
    meet(LAG, b);
    if (b == 0 || b > 4) meet_lag(&MOD(ledger, wg_ledger)->pairs[from][to], b, *MOD(lag, int32_t));
    return b;
}

numbers some_numbers(rng *r, const shape *s, const pool *p) {
    /* adds and sends are the ones that give the others something to do */
    static const uint8_t kinds[] = {1, 1, 1, 1, 2, 2, 2, 3, 4, 4, 4, 4, 5, 5, 6, 6, 7, 8};
    numbers n = {0, 0, 0, 0};
    n.kind = kinds[below(r, sizeof kinds)];
    n.first = some_site(r, s);
    if (one_in(r, 60)) n.kind = one_in(r, 2) ? 9 * below(r, 2) : edge(r);
    if (n.kind <= 4) n.id = some_id(r, p);
    if (n.kind == 4 || n.kind == 5) {
        n.second = some_site(r, s);
        if (n.second == n.first && !one_in(r, 4)) n.second = (n.second + 1) % (s->sites == 0 ? 1 : s->sites);
    }
    if (n.kind >= 6 && n.kind <= 8) {
        n.first = s->n_slots == 0 ? below(r, 2) : below(r, s->n_slots);
        if (one_in(r, 24)) n.first = one_in(r, 2) ? s->n_slots : edge(r);
    }
    if (one_in(r, 50)) n.second = edge(r);
    if (one_in(r, 50)) n.id = edge(r);
    return n;
}

/* The next slot from this one on, round to it again, that is occupied. */
static uint64_t occupied_from(const shape *s, uint64_t slot) {
    size_t k;
    for (k = 0; k < s->n_slots; k++) {
        uint64_t at = (slot + k) % s->n_slots;
        if (LIB(slots, wg_parcel)[at].length != 0) return at;
    }
    return slot;
}

numbers telling_numbers(rng *r, const shape *s, const pool *p) {
    numbers n = some_numbers(r, s, p);
    if (n.kind >= 1 && n.kind <= 4 && n.first < s->sites && s->capacity > 0 && !one_in(r, 4)) {
        const uint64_t *table = LIB(words, uint64_t) + n.first * 2 * s->capacity, *entry = table + 2 * below(r, s->capacity);
        if (entry[1] == 0) entry = table;
        if (entry[1] != 0) n.id = entry[0];
    }
    if (n.kind >= 6 && n.kind <= 8 && n.first < s->n_slots) n.first = occupied_from(s, n.first);
    return n;
}

pool ids_of_case;

/* Small runs have few ids, so that they meet; large ones about as many as fit. */
static void pool_for(rng *r, const shape *s) {
    uint64_t capacity = s->capacity > 2048 ? 4 : s->capacity;
    some_pool(r, &ids_of_case, (size_t)(1 + capacity + below(r, capacity + 2)));
}

void case_run(rng *r, int large) {
    shape s = some_shape(r, large);
    unsigned k, steps = large ? 4 : 30;
    place_state(r, &s);
    noise(r, &words);
    noise(r, &slots);
    noise(r, &ledger);
    pool_for(r, &s);
    do_fresh(r, &s);
    for (k = 0; k < steps; k++) {
        do_step(r, &s, one_in(r, 4) ? some_numbers(r, &s, &ids_of_case) : telling_numbers(r, &s, &ids_of_case));
        if (one_in(r, 24)) do_lag(r, &s);
        if (one_in(r, 24)) absorb_some(r, &s);
        if (one_in(r, 100)) round_placed(r, &s);
    }
}

void place_sound(rng *r, const shape *s) {
    place_state(r, s);
    pool_for(r, s);
    some_state(r, s, &ids_of_case, LIB(words, uint64_t), LIB(slots, wg_parcel), LIB(ledger, wg_ledger));
}

void case_state(rng *r, int large) {
    shape s = some_shape(r, large);
    unsigned k, steps = 1 + (unsigned)below(r, 3);
    place_sound(r, &s);
    share_state();
    for (k = 0; k < steps; k++)
        if (do_step(r, &s, telling_numbers(r, &s, &ids_of_case)) == 2) differ("a state made sound is judged unsound");
    if (s.n_slots > 0 && one_in(r, 2)) { /* serials meet in deliveries alone */
        numbers n = {WG_DELIVER, 0, 0, 0};
        n.first = occupied_from(&s, below(r, s.n_slots));
        do_step(r, &s, n);
    }
    if (do_lag(r, &s) == 2) differ("a state made sound is judged unsound by a lag query");
}

void case_damage(rng *r, int large) {
    shape s = some_shape(r, large);
    unsigned way = (unsigned)below(r, DAMAGES);
    uint32_t refusal;
    place_sound(r, &s);
    if (!damage(r, way, &s, LIB(words, uint64_t), LIB(slots, wg_parcel), LIB(ledger, wg_ledger))) return;
    meet_damage(way);
    share_state();
    refusal = one_in(r, 6) ? do_lag(r, &s) : do_step(r, &s, telling_numbers(r, &s, &ids_of_case));
    if (refusal != 2 && refusal != 11) differ("a state damaged by \"%s\" is not refused with 2", damage_names[way]);
    if (one_in(r, 8)) do_fresh(r, &s);
}

shape place_bad_sizes(rng *r) {
    shape s = bad_shape(r);
    place_state(r, &s);
    pool_for(r, &s);
    if (one_in(r, 4)) {
        noise(r, &words);
        noise(r, &slots);
        noise(r, &ledger);
    }
    return s;
}

void case_sizes(rng *r) {
    shape s = place_bad_sizes(r);
    if (one_in(r, 4)) do_fresh(r, &s);
    else if (one_in(r, 6)) do_lag(r, &s);
    else do_step(r, &s, some_numbers(r, &s, &ids_of_case));
}
