/* step.c: any bytes as a state and some steps. The first four say the sizes, the next ones are the words, the slots and the counts, a byte to a
 * number that is mostly small; then a byte says whether the run is made fresh, has fresh pairs, or has its pairs among the bytes too; the rest are
 * steps, four bytes each. The library and the model must agree on every answer and on all that is lent, step by step, in one burst, on the lag
 * of every two sites after each, and on a repair round of what stood there first and of what the steps left. */
#include "model.h"
#include <stdlib.h>
#include <string.h>

enum { WORDS = 4 * 2 * 6, SLOTS = 6, STEPS = 1000 };

typedef struct {
    uint64_t sites, capacity;
    size_t n_words, n_slots;
} sizes;

typedef struct {
    uint64_t words[WORDS];
    wg_parcel slots[SLOTS];
    wg_ledger ledger;
} state;

static const uint8_t *next;
static size_t left;

static unsigned byte(void) {
    if (left == 0) return 0;
    left--;
    return *next++;
}

/* Small numbers stand for themselves; the highest ones stand for the edges. */
static uint64_t number(void) {
    unsigned b = byte();
    switch (b) {
    case 246: return 2147483646u;
    case 247: return 2147483647u;
    case 248: return 2147483648u;
    case 249: return 2147483649u;
    case 250: return 4294967294u;
    case 251: return 4294967295u;
    case 252: return 4294967296u;
    case 253: return UINT64_MAX - 1;
    case 254: return UINT64_MAX;
    default: return b;
    }
}

static sizes some_sizes(void) {
    sizes z;
    z.sites = byte() % 5;
    z.capacity = byte() % 7;
    z.n_slots = byte() % (SLOTS + 1);
    z.n_words = z.sites * 2 * z.capacity;
    if (byte() % 8 == 0 && z.n_words > 0) z.n_words--;
    return z;
}

static void fill_pairs(wg_ledger *l, const sizes *z, int told) {
    uint64_t from, to;
    memset(l->pairs, 0x5a, sizeof l->pairs); /* what stands outside the run must stay */
    for (from = 0; from < z->sites; from++)
        for (to = 0; to < z->sites; to++) {
            wg_pair *p = &l->pairs[from][to];
            if (from == to) continue;
            p->next = told ? (uint32_t)number() : 0;
            p->heard = told ? (uint32_t)number() : 0;
            p->unsent = told ? (uint32_t)number() : 1;
            p->unheard = told ? (uint32_t)number() : 1;
        }
}

static void fill(state *s, const sizes *z) {
    size_t k;
    unsigned way;
    memset(s, 0, sizeof *s);
    for (k = 0; k < z->n_words; k++) s->words[k] = number();
    for (k = 0; k < z->n_slots; k++) {
        s->slots[k].site = number();
        s->slots[k].id = number();
        s->slots[k].length = number();
        s->slots[k].sender = (uint32_t)number();
        s->slots[k].serial = (uint32_t)number();
    }
    s->ledger.sent = number();
    s->ledger.copied = number();
    s->ledger.absorbed = number();
    s->ledger.lost = number();
    way = byte() % 4;
    fill_pairs(&s->ledger, z, way > 1);
    if (way == 0) wg_fresh(s->words, z->n_words, s->slots, z->n_slots, &s->ledger, z->sites, z->capacity, (uint32_t)number());
}

static uint64_t asks[WG_ASKS(STEPS)], alone[WG_BURST_ANSWERS(STEPS)];
static state before, ours, theirs;

static int same_states(void) { return memcmp(&ours, &theirs, sizeof ours) == 0; }

/* Of every two sites, and of one that the run does not have. */
static void take_lags(const sizes *z) {
    uint64_t from, to;
    for (from = 0; from <= z->sites; from++)
        for (to = 0; to <= z->sites; to++) {
            int32_t lag = 1, other = 2;
            uint32_t a = wg_lag(ours.words, z->n_words, ours.slots, z->n_slots, &ours.ledger, z->sites, z->capacity, from, to, &lag);
            uint32_t b = model_lag(theirs.words, z->n_words, theirs.slots, z->n_slots, &theirs.ledger, z->sites, z->capacity, from, to, &other);
            if (a != b || lag != other || !same_states()) abort();
        }
}

static void take_round(const sizes *z) {
    uint64_t merges = 1, other = 2;
    uint32_t a = wg_repair(ours.words, z->n_words, ours.slots, z->n_slots, &ours.ledger, z->sites, z->capacity, &merges);
    uint32_t b = model_repair(theirs.words, z->n_words, theirs.slots, z->n_slots, &theirs.ledger, z->sites, z->capacity, &other);
    if (a != b || merges != other || !same_states()) abort();
}

/* Leaves the steps in asks, what they answered in alone, and returns how many they were. */
static size_t take_steps(const sizes *z) {
    uint64_t value = 1, other = 1;
    size_t steps;
    for (steps = 0; left > 0 && steps < STEPS; steps++) {
        uint64_t *n = asks + WG_ASKS(steps), *answer = alone + WG_BURST_ANSWERS(steps);
        uint32_t a, b;
        n[0] = byte() % 10;
        n[1] = number();
        n[2] = number();
        n[3] = number();
        a = wg_step(ours.words, z->n_words, ours.slots, z->n_slots, &ours.ledger, z->sites, z->capacity, n[0], n[1], n[2], n[3], &value);
        b = model_step(theirs.words, z->n_words, theirs.slots, z->n_slots, &theirs.ledger, z->sites, z->capacity, n[0], n[1], n[2], n[3], &other);
        if (a != b || value != other || !same_states()) abort();
        answer[0] = a;
        answer[1] = value;
    }
    return steps;
}

/* An accepted burst has the answers of its steps alone, and leaves the state that they left. */
static void take_burst(const sizes *z, size_t steps) {
    static uint64_t answers[WG_BURST_ANSWERS(STEPS)], others[WG_BURST_ANSWERS(STEPS)];
    static state after;
    uint32_t a, b;
    after = ours;
    ours = theirs = before;
    memset(answers, 0x5a, sizeof answers);
    memset(others, 0x5a, sizeof others);
    a = wg_burst(ours.words, z->n_words, ours.slots, z->n_slots, &ours.ledger, z->sites, z->capacity,
                 asks, WG_ASKS(steps), answers, WG_BURST_ANSWERS(steps));
    b = model_burst(theirs.words, z->n_words, theirs.slots, z->n_slots, &theirs.ledger, z->sites, z->capacity,
                    asks, WG_ASKS(steps), others, WG_BURST_ANSWERS(steps));
    if (a != b || memcmp(answers, others, sizeof answers) != 0 || !same_states()) abort();
    if (a != 0) return;
    if (memcmp(answers, alone, WG_BURST_ANSWERS(steps) * sizeof *alone) != 0 || memcmp(&ours, &after, sizeof ours) != 0) abort();
}

int LLVMFuzzerTestOneInput(const uint8_t *data, size_t n);

int LLVMFuzzerTestOneInput(const uint8_t *data, size_t n) {
    sizes z;
    size_t steps;
    next = data;
    left = n;
    z = some_sizes();
    fill(&before, &z);
    ours = theirs = before;
    take_round(&z);
    ours = theirs = before;
    take_lags(&z);
    steps = take_steps(&z);
    take_lags(&z);
    take_burst(&z, steps);
    take_round(&z);
    return 0;
}
