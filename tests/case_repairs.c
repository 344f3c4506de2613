/* case_repairs.c: the repairs of one state in two orders. Each is compared with the model, as ever; that the orders come to the same is asked of the library
 * alone. */
#include "cases.h"

#include <string.h>

#include "compare.h"
#include "groups.h"
#include "met.h"

/* Another site's table merged in, or a group absorbed. */
typedef struct {
    int is_group;
    uint64_t from, to; /* the other site or the number of the group, and the site that takes in */
} repair;

/* At most all sites and groups taken in at one site, and handed out to the others. */
enum { GROUPS = 3, MOST = 2 * WG_SITES_MAX + GROUPS };

typedef struct {
    size_t count;
    repair of[MOST];
} plan;

static struct {
    size_t count, n;
    uint64_t entries[WG_ENTRIES(WG_GROUP_ENTRIES)];
    uint8_t bytes[GROUP_BYTES];
} group[GROUPS];

static void lay_groups(rng *r) {
    static fields f;
    size_t g, k;
    for (g = 0; g < GROUPS; g++) {
        uint64_t most = one_in(r, 4) ? WG_GROUP_ENTRIES : below(r, 5);
        group[g].count = 0;
        for (k = 0; k < ids_of_case.count && group[g].count < most; k++) {
            if (!one_in(r, 3)) continue;
            group[g].entries[2 * group[g].count] = ids_of_case.id[k];
            group[g].entries[2 * group[g].count + 1] = some_length(r);
            group[g].count++;
        }
        fields_of(group[g].entries, group[g].count, &f);
        group[g].n = join_fields(&f, group[g].bytes);
    }
}

/* ---- what is named, counted in ids of the case ---- */

static uint8_t marked[POOL];

static void mark(const uint64_t *entries, size_t count) {
    size_t k, at = 0;
    for (k = 0; k < count; k++) {
        while (ids_of_case.id[at] != entries[2 * k]) at++;
        marked[at] = 1;
    }
}

static size_t marks(void) {
    size_t k, n = 0;
    for (k = 0; k < ids_of_case.count; k++) n += marked[k];
    memset(marked, 0, sizeof marked);
    return n;
}

static void mark_table(const shape *s, uint64_t site) { mark(table_of(s, site), in_use(table_of(s, site), s->capacity)); }

static void mark_plan(const shape *s, const plan *p) {
    size_t k;
    for (k = 0; k < p->count; k++) {
        mark_table(s, p->of[k].to);
        if (p->of[k].is_group) mark(group[p->of[k].from].entries, group[p->of[k].from].count);
        else mark_table(s, p->of[k].from);
    }
}

/* ---- plans ---- */

static void add(plan *p, int is_group, uint64_t from, uint64_t to) {
    repair one = {is_group, from, to};
    p->of[p->count++] = one;
}

/* From the one with that number on. */
static void shuffle(rng *r, plan *p, size_t first) {
    size_t k;
    for (k = p->count; k > first + 1; k--) {
        size_t other = first + (size_t)below(r, k - first);
        repair last = p->of[k - 1];
        p->of[k - 1] = p->of[other];
        p->of[other] = last;
    }
}

static void add_some(rng *r, const shape *s, plan *p, uint64_t to) {
    uint64_t from = (to + 1 + below(r, s->sites - 1)) % s->sites;
    if (one_in(r, 3)) add(p, 1, below(r, GROUPS), to);
    else add(p, 0, from, to);
}

/* Everything is taken in at one site, and handed out from there. */
static plan by_way_of(rng *r, const shape *s, uint64_t hub) {
    plan p = {0};
    uint64_t k;
    for (k = 0; k < GROUPS; k++) add(&p, 1, k, hub);
    for (k = 0; k < s->sites; k++)
        if (k != hub) add(&p, 0, k, hub);
    shuffle(r, &p, 0);
    for (k = 0; k < s->sites; k++)
        if (k != hub) add(&p, 0, hub, k);
    shuffle(r, &p, GROUPS + (size_t)s->sites - 1);
    return p;
}

/* ---- both orders, from one state ---- */

static kept start, end;

static void back_to(const shape *s, const kept *k) {
    memcpy(LIB(words, uint64_t), k->words, 8 * s->n_words);
    memcpy(LIB(slots, wg_parcel), k->slots, sizeof(wg_parcel) * s->n_slots);
    *LIB(ledger, wg_ledger) = k->ledger;
    share_state();
}

static uint32_t do_repair(rng *r, const shape *s, const repair *one) {
    numbers merge = {WG_MERGE, one->from, one->to, 0};
    if (one->is_group) return do_absorb(r, s, one->to, group[one->from].bytes, group[one->from].n);
    return do_step(r, s, merge);
}

/* Returns how many were refused. */
static size_t follow(rng *r, const shape *s, const plan *p) {
    size_t k, refused = 0;
    for (k = 0; k < p->count; k++) {
        uint32_t refusal = do_repair(r, s, &p->of[k]);
        if (refusal != 0 && refusal != 8) differ("a repair is refused otherwise than for lack of room");
        refused += refusal == 8;
    }
    if (!kept_slots(s, &start)) differ("repairs change the slots or the ledger");
    return refused;
}

/* The two come to the same at so many sites, from the one with that number on. */
static void both(rng *r, const shape *s, int kind, const plan *a, const plan *b, uint64_t site, uint64_t sites) {
    size_t needs, refused, refused_too;
    int same;
    mark_plan(s, a);
    needs = marks();
    keep(s, &start);
    refused = follow(r, s, a);
    keep(s, &end);
    back_to(s, &start);
    refused_too = follow(r, s, b);
    same = memcmp(end.words + site * 2 * s->capacity, table_of(s, site), (size_t)(16 * sites * s->capacity)) == 0;
    if (needs <= s->capacity && refused + refused_too > 0) differ("a repair is refused where all ids that are named fit together");
    if (needs > s->capacity && (refused == 0 || refused_too == 0)) differ("repairs are all accepted where the ids that are named do not fit together");
    if (needs <= s->capacity && !same) differ("the same repairs in another order come to other tables");
    meet_repairs(kind, s, needs, same);
}

/* In any order, and some of them again. */
static void at_one_site(rng *r, const shape *s) {
    uint64_t to = below(r, s->sites);
    size_t k, many = 1 + (size_t)below(r, 6), again = (size_t)below(r, 3);
    plan a = {0}, b;
    for (k = 0; k < many; k++) add_some(r, s, &a, to);
    b = a;
    for (k = 0; k < again; k++) b.of[b.count++] = a.of[below(r, many)];
    shuffle(r, &b, 0);
    both(r, s, ONE_SITE, &a, &b, 0, s->sites);
}

static void at_all_sites(rng *r, const shape *s) {
    plan a = by_way_of(r, s, below(r, s->sites)), b = by_way_of(r, s, below(r, s->sites));
    both(r, s, ALL_SITES, &a, &b, 0, s->sites);
}

/* Two taken in one by one, or the one by way of the other. */
static void grouped(rng *r, const shape *s) {
    uint64_t to = below(r, s->sites), second = (to + 1) % s->sites, third = (to + 2) % s->sites;
    plan a = {0}, b = {0};
    add(&a, 0, second, to);
    add(&a, 0, third, to);
    add(&b, 0, third, second);
    add(&b, 0, second, to);
    both(r, s, GROUPED, &a, &b, to, 1);
}

/* As many places as the case has ids, one or two fewer, or more. */
static shape some_places(rng *r, int large) {
    size_t many = large ? WG_CAPACITY_MAX - 2 + (size_t)below(r, 4) : one_in(r, 12) ? 9 + (size_t)below(r, 60) : 1 + (size_t)below(r, 9);
    shape s;
    some_pool(r, &ids_of_case, many);
    s.sites = large ? 3 : one_in(r, 12) ? 16 : 2 + below(r, 3);
    s.capacity = one_in(r, 2) ? many : one_in(r, 4) ? many + below(r, 9) : many - 1 - (many > 1 && one_in(r, 3));
    if (s.capacity > WG_CAPACITY_MAX) s.capacity = WG_CAPACITY_MAX;
    s.n_words = WG_WORDS(s.sites, s.capacity);
    s.n_slots = (size_t)below(r, 4);
    return s;
}

void case_repairs(rng *r, int large) {
    shape s = some_places(r, large);
    place_state(r, &s);
    some_state(r, &s, &ids_of_case, LIB(words, uint64_t), LIB(slots, wg_parcel), LIB(ledger, wg_ledger));
    share_state();
    lay_groups(r);
    switch (below(r, 4)) {
    case 0: case 1: at_one_site(r, &s); break;
    case 2: at_all_sites(r, &s); break;
    default: if (s.sites > 2) grouped(r, &s);
    }
}
