/* model_rounds.c: the part of the model that makes all tables of a run equal. It looks into the tables only to count their ids; the rest it leaves to the
 * steps of the model, a query to judge what is lent and a merge for each merge of the round. */
#include "model.h"

static uint64_t seen[16 * 2048]; /* the ids of all tables that were looked at, each once */
static size_t n_seen;

static void see_id(uint64_t id) {
    size_t k;
    for (k = 0; k < n_seen; k++)
        if (seen[k] == id) return;
    seen[n_seen++] = id;
}

/* Only what has a length is an entry. */
static void see_ids(const wg_run *run, uint64_t site) {
    const uint64_t *table = run->words + site * 2 * run->capacity;
    uint64_t k;
    for (k = 0; k < run->capacity; k++)
        if (table[2 * k + 1] != 0) see_id(table[2 * k]);
}

static uint32_t one_step(const wg_run *run, uint64_t kind, uint64_t first, uint64_t second, uint64_t *value) {
    return model_step(run->words, run->n_words, run->slots, run->n_slots, run->ledger, run->sites, run->capacity, kind, first, second, 0, value);
}

/* A site takes in another: one merge. */
static uint64_t take_in(const wg_run *run, uint64_t site, uint64_t other) {
    uint64_t rose;
    one_step(run, 5, other, site, &rose);
    return 1;
}

/* "site 0 takes in the others in rising order, then each other site takes in site 0"; "the number of merges, 0 for one site" */
uint32_t model_repair(uint64_t *words, size_t n_words, wg_parcel *slots, size_t n_slots, wg_ledger *ledger,
                      uint64_t sites, uint64_t capacity, uint64_t *merges) {
    const wg_run run = {words, n_words, slots, n_slots, ledger, sites, capacity};
    uint64_t site, length, done = 0;
    uint32_t judged = one_step(&run, 3, 0, 0, &length); /* any run has a site 0, so this is 0, 1 or 2 */
    *merges = 0;
    if (judged != 0) return judged;
    n_seen = 0;
    for (site = 0; site < sites; site++) see_ids(&run, site);
    if (n_seen > capacity) return 8; /* "before any write" */
    for (site = 1; site < sites; site++) done += take_in(&run, 0, site);
    for (site = 1; site < sites; site++) done += take_in(&run, site, 0);
    *merges = done;
    return 0;
}
