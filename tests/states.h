/* states.h: states to lend, sound ones of every size and damaged ones of every kind that the layout rules out. */
#ifndef STATES_H
#define STATES_H

#include "random.h"
#include "wiregantry.h"

typedef struct {
    uint64_t sites, capacity;
    size_t n_words, n_slots;
} shape;

/* A state set aside. */
typedef struct {
    uint64_t words[WG_WORDS(WG_SITES_MAX, WG_CAPACITY_MAX)];
    wg_parcel slots[WG_SLOTS_MAX];
    wg_ledger ledger;
} kept;

/* Sizes within the limits: small ones nearly always, the largest of each now and then. */
shape some_shape(rng *r, int large);

/* Sizes outside the limits, or words that are not as many as they name; the lengths stay such as can be lent. */
shape bad_shape(rng *r);

/* The ids that a case speaks of, strictly rising. */
#define POOL 4096
typedef struct {
    size_t count;
    uint64_t id[POOL];
} pool;

void some_pool(rng *r, pool *p, size_t count);
uint64_t some_id(rng *r, const pool *p);

/* Fills lent memory with a sound state of that shape. */
void some_state(rng *r, const shape *s, const pool *p, uint64_t *words, wg_parcel *slots, wg_ledger *ledger);

/* Fills one table, its entries in use up to `most`. */
void some_table(rng *r, const pool *p, uint64_t *words, uint64_t capacity);

/* 1 to M, the largest and the smallest ones often. */
uint64_t some_length(rng *r);

/* The entries in use of a sound table. */
size_t in_use(const uint64_t *words, uint64_t capacity);

/* Damages a sound state or a sound table in the way with that number; 0 where the state has nothing that can be damaged so. */
enum { TABLE_DAMAGES = 9, DAMAGES = 25 };
extern const char *const damage_names[DAMAGES];
int damage_table(rng *r, unsigned way, uint64_t *words, uint64_t capacity);
int damage(rng *r, unsigned way, const shape *s, uint64_t *words, wg_parcel *slots, wg_ledger *ledger);

#endif
