#include "cases.h"

#include <inttypes.h>
#include <stdio.h>

#include "compare.h"
#include "met.h"
#include "model.h"

static size_t some_burst_length(rng *r, int large) {
    if (one_in(r, 12)) return 0;
    if (one_in(r, 12)) return 1;
    if (one_in(r, large ? 20 : 40)) return LONGEST_BURST;
    if (large) return (size_t)below(r, 8); /* the model and the steps one by one judge the state before each of them */
    if (one_in(r, 16)) return (size_t)below(r, LONGEST_BURST + 1);
    return (size_t)below(r, 40);
}

static numbers nonsense(rng *r) {
    numbers n;
    n.kind = edge(r);
    n.first = edge(r);
    n.second = edge(r);
    n.id = edge(r);
    return n;
}

/* Asks for so many steps, now and then with words to spare. The state is asked for what it holds at first, which the steps then change. */
static void place_asks(rng *r, const shape *s, size_t steps, chooser *choose) {
    size_t spare = one_in(r, 10) ? 1 + (size_t)below(r, 3) : 0, k;
    uint64_t nonsense_in = one_in(r, 4) ? 3 : 40;
    area_place(&asks, r, (4 * steps + spare) * 8);
    for (k = 0; k < steps; k++) {
        numbers n = one_in(r, nonsense_in) ? nonsense(r) : choose(r, s, &ids_of_case);
        uint64_t *ask = LIB(asks, uint64_t) + 4 * k;
        ask[0] = n.kind;
        ask[1] = n.first;
        ask[2] = n.second;
        ask[3] = n.id;
    }
    for (k = 4 * steps; k < 4 * steps + spare; k++) LIB(asks, uint64_t)[k] = edge(r);
    area_share(&asks);
}

static void place_burst_answers(rng *r, size_t steps) {
    size_t need = 2 * steps, has = need;
    if (one_in(r, 3)) has += (size_t)below(r, 20);
    if (need > 0 && one_in(r, 8)) has = one_in(r, 2) ? need - 1 : (size_t)below(r, need);
    area_place(&burst_answers, r, has * 8);
    noise(r, &burst_answers);
}

static uint32_t do_burst(rng *r, const shape *s, size_t steps, chooser *choose) {
    static area *const areas[] = {&burst_answers, &words, &slots, &ledger, &asks, 0}; /* the answers first, since their place tells the step */
    size_t n_asks, n_answers;
    place_asks(r, s, steps, choose);
    place_burst_answers(r, steps);
    n_asks = asks.size / 8;
    n_answers = burst_answers.size / 8;
    snprintf(doing, sizeof doing, "wg_burst sites=%" PRIu64 " capacity=%" PRIu64 " n_words=%zu n_slots=%zu n_asks=%zu n_answers=%zu",
             s->sites, s->capacity, s->n_words, s->n_slots, n_asks, n_answers);
    uint32_t a = wg_burst(LIB(words, uint64_t), s->n_words, LIB(slots, wg_parcel), s->n_slots, LIB(ledger, wg_ledger), s->sites, s->capacity,
                          LIB(asks, uint64_t), n_asks, LIB(burst_answers, uint64_t), n_answers);
    uint32_t b = model_burst(MOD(words, uint64_t), s->n_words, MOD(slots, wg_parcel), s->n_slots, MOD(ledger, wg_ledger), s->sites, s->capacity,
                             MOD(asks, uint64_t), n_asks, MOD(burst_answers, uint64_t), n_answers);
    same_answers(a, b, "refusal");
    same_areas(areas);
    meet(BURST, b);
    return b;
}

/* The state before a burst, in which its steps are taken one by one. */
static kept apart;

/* The library against itself: a burst answers and leaves what its steps do, one call of wg_step each. */
static void one_by_one(const shape *s, size_t steps) {
    size_t k;
    for (k = 0; k < steps; k++) {
        const uint64_t *ask = LIB(asks, uint64_t) + 4 * k, *answer = LIB(burst_answers, uint64_t) + 2 * k;
        uint64_t alone = UINT64_MAX;
        uint32_t refusal = wg_step(apart.words, s->n_words, apart.slots, s->n_slots, &apart.ledger, s->sites, s->capacity,
                                   ask[0], ask[1], ask[2], ask[3], &alone);
        if (answer[0] != refusal || answer[1] != alone)
            differ("step %zu (kind=%" PRIu64 " first=%" PRIu64 " second=%" PRIu64 " id=%" PRIu64 "): the burst answers %" PRIu64 " and %" PRIu64
                   ", wg_step %" PRIu32 " and %" PRIu64, k, ask[0], ask[1], ask[2], ask[3], answer[0], answer[1], refusal, alone);
        meet(IN_BURST, refusal);
    }
    if (!kept_tables(s, &apart) || !kept_slots(s, &apart)) differ("the burst and its steps one by one leave different states");
}

void burst_placed(rng *r, const shape *s, size_t steps, chooser *choose) {
    uint32_t refusal;
    keep(s, &apart);
    refusal = do_burst(r, s, steps, choose);
    if (refusal == 2) differ("a state made sound is judged unsound");
    if (refusal != 0) return;
    one_by_one(s, steps);
    meet_burst(s, steps);
}

static void burst_sound(rng *r, int large) {
    static const shape largest = {16, 2048, 65536, 1024};
    shape s = large && one_in(r, 3) ? largest : some_shape(r, large);
    size_t steps = some_burst_length(r, large);
    place_sound(r, &s);
    share_state();
    burst_placed(r, &s, steps, telling_numbers);
}

static void burst_damaged(rng *r, int large) {
    shape s = some_shape(r, large);
    unsigned way = (unsigned)below(r, DAMAGES);
    place_sound(r, &s);
    if (!damage(r, way, &s, LIB(words, uint64_t), LIB(slots, wg_parcel), LIB(ledger, wg_ledger))) return;
    meet_damage(way);
    share_state();
    if (do_burst(r, &s, some_burst_length(r, large), telling_numbers) != 2)
        differ("a state damaged by \"%s\" is not refused with 2", damage_names[way]);
}

static void burst_bad_sizes(rng *r) {
    shape s = place_bad_sizes(r);
    do_burst(r, &s, some_burst_length(r, 0), some_numbers);
}

void case_burst(rng *r, int large) {
    switch (below(r, 8)) {
    case 0: burst_bad_sizes(r); break;
    case 1: burst_damaged(r, large); break;
    default: burst_sound(r, large);
    }
}
