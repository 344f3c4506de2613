#include "cases.h"

#include <string.h>

#include "compare.h"
#include "met.h"

/* Which of the two tables have an id: a bit for each. IN_TURN is no id's: of a stretch one id is the target's, the next one the source's. */
enum { TARGET = 1, SOURCE = 2, BOTH = 3, IN_TURN = 4 };

/* The source's length of a common id, beside the target's. */
enum { EQUAL, LOWER, HIGHER, ANY, WAYS };

/* The two tables while they are laid: the capacity is chosen by what they come to. Words behind the entries are 0. */
typedef struct {
    size_t held;
    uint64_t words[2 * WG_CAPACITY_MAX];
} laid;

static laid target, source;

/* A full table takes no more. */
static void lay(laid *t, uint64_t id, uint64_t length) {
    if (t->held == WG_CAPACITY_MAX) return;
    t->words[2 * t->held] = id;
    t->words[2 * t->held + 1] = length;
    t->held++;
}

static void lay_id(rng *r, uint64_t id, unsigned has, unsigned way) {
    uint64_t own = some_length(r), other = some_length(r);
    uint64_t low = own < other ? own : other, high = own < other ? other : own;
    if (low == high && low > 1) low--;
    if (low == high) high++;
    switch (way) {
    case EQUAL: other = own; break;
    case LOWER: own = high; other = low; break;
    case HIGHER: own = low; other = high; break;
    default: break;
    }
    if (has & TARGET) lay(&target, id, own);
    if (has & SOURCE) lay(&source, id, other);
}

/* Around four and eight, which a merge may take at once; or brief ones, of which four ids on end are few. */
static size_t some_stretch(rng *r, int brief) {
    static const uint8_t often[] = {1, 3, 4, 5, 7, 8, 9};
    if (brief) return 1 + (size_t)below(r, 3);
    if (one_in(r, 3)) return 1 + (size_t)below(r, 25);
    return often[below(r, sizeof often)];
}

static void lay_stretch(rng *r, size_t from, size_t to, unsigned has, unsigned way) {
    size_t k;
    for (k = from; k < to; k++) lay_id(r, ids_of_case.id[k], has != IN_TURN ? has : k % 2 ? TARGET : SOURCE, way);
}

static void lay_stretches(rng *r) {
    static const uint8_t mixes[][4] = {
        {TARGET, SOURCE, BOTH, BOTH}, {TARGET, SOURCE, BOTH, BOTH}, {TARGET, SOURCE, BOTH, IN_TURN},
        {TARGET, SOURCE, TARGET, IN_TURN}, {BOTH, BOTH, BOTH, IN_TURN}, {BOTH, BOTH, BOTH, SOURCE},
        {BOTH, BOTH, BOTH, TARGET}, {BOTH, BOTH, BOTH, BOTH}, {SOURCE, SOURCE, SOURCE, BOTH}, {TARGET, TARGET, TARGET, BOTH},
    };
    const uint8_t *mix = mixes[below(r, sizeof mixes / sizeof *mixes)];
    unsigned usual = (unsigned)below(r, WAYS);
    int always = one_in(r, 2); /* one way in the whole table is what makes nothing rise, or everything */
    int brief = one_in(r, 5);
    size_t k = 0, end;
    for (; k < ids_of_case.count; k = end) {
        unsigned has = mix[below(r, 4)], way = always || !one_in(r, 3) ? usual : (unsigned)below(r, WAYS);
        end = k + some_stretch(r, brief);
        if (end > ids_of_case.count) end = ids_of_case.count;
        lay_stretch(r, k, end, has, way);
    }
}

/* All ids of the one table are below those of the other, which may be empty. */
static void lay_apart(rng *r) {
    unsigned lower = one_in(r, 2) ? TARGET : SOURCE;
    size_t cut = one_in(r, 4) ? ids_of_case.count : (size_t)below(r, ids_of_case.count + 1);
    lay_stretch(r, 0, cut, lower, ANY);
    lay_stretch(r, cut, ids_of_case.count, BOTH - lower, ANY);
}

static size_t some_many(rng *r, int large) {
    if (large) return one_in(r, 3) ? WG_CAPACITY_MAX : one_in(r, 3) ? WG_CAPACITY_MAX + 1 : 1 + (size_t)below(r, POOL);
    if (one_in(r, 12)) return 1 + (size_t)below(r, 300);
    if (one_in(r, 12)) return 1 + (size_t)below(r, 9);
    return 9 + (size_t)below(r, 62);
}

static void lay_two(rng *r, int large) {
    pool *p = &ids_of_case;
    memset(target.words, 0, 16 * target.held);
    memset(source.words, 0, 16 * source.held);
    target.held = source.held = 0;
    some_pool(r, p, some_many(r, large));
    if (one_in(r, 4)) p->id[0] = 0;
    if (one_in(r, 4)) p->id[p->count - 1] = UINT64_MAX;
    if (one_in(r, 8)) lay_apart(r);
    else lay_stretches(r);
}

/* Both tables fit by themselves; together they just fit, are one too many, or have room to spare. */
static shape shape_for(rng *r, size_t all) {
    shape s;
    uint64_t least = target.held > source.held ? target.held : source.held;
    s.sites = one_in(r, 12) ? 16 : 2 + below(r, 3);
    s.n_slots = (size_t)below(r, 4);
    switch (below(r, 8)) {
    case 0: case 1: case 2: s.capacity = all; break;
    case 3: case 4: s.capacity = all - 1; break;
    case 5: s.capacity = least + below(r, all - least + 1); break;
    default: s.capacity = all + 1 + below(r, all / 4 + 9);
    }
    if (s.capacity < least) s.capacity = least;
    if (s.capacity > WG_CAPACITY_MAX) s.capacity = WG_CAPACITY_MAX;
    s.n_words = (size_t)(s.sites * 2 * s.capacity);
    return s;
}

/* The other tables are of the same ids, so that one that is taken for another is seen. */
static void place_two(rng *r, const shape *s, numbers n) {
    place_state(r, s);
    some_state(r, s, &ids_of_case, LIB(words, uint64_t), LIB(slots, wg_parcel), LIB(ledger, wg_ledger));
    memcpy(table_of(s, n.first), source.words, (size_t)(16 * s->capacity));
    memcpy(table_of(s, n.second), target.words, (size_t)(16 * s->capacity));
    share_state();
}

static numbers any_merge(rng *r, const shape *s) {
    numbers n = {WG_MERGE, 0, 0, 0};
    n.first = below(r, s->sites);
    n.second = (n.first + 1 + below(r, s->sites - 1)) % s->sites;
    return n;
}

/* Other steps stand among the merges of a burst, so that there is something to merge again. */
static numbers mostly_merges(rng *r, const shape *s, const pool *p) {
    return one_in(r, 3) ? telling_numbers(r, s, p) : any_merge(r, s);
}

static uint32_t do_merge(rng *r, const shape *s, numbers n) {
    joint before = joint_of(table_of(s, n.second), table_of(s, n.first), s->capacity);
    uint32_t refusal = do_step(r, s, n);
    if (refusal == 2) differ("a state made sound is judged unsound");
    meet_merge(&before, s, n.first, n.second, refusal, *MOD(value, uint64_t));
    return refusal;
}

/* Two laws that hold whatever stands in the tables, and are asked without the model. */
static void merge_on(rng *r, const shape *s, numbers n, uint32_t refusal) {
    numbers back = {WG_MERGE, n.second, n.first, 0};
    if (one_in(r, 3)) {
        do_merge(r, s, n);
        if (*LIB(value, uint64_t) != 0) differ("a merge done a second time raises a length");
    }
    if (one_in(r, 2) && do_merge(r, s, back) == 0 && refusal == 0 &&
        memcmp(table_of(s, n.first), table_of(s, n.second), (size_t)(16 * s->capacity)) != 0)
        differ("two sites merged both ways have different tables");
}

void case_merge(rng *r, int large) {
    shape s;
    numbers n;
    lay_two(r, large);
    s = shape_for(r, joint_of(target.words, source.words, WG_CAPACITY_MAX).all);
    n = any_merge(r, &s);
    place_two(r, &s, n);
    merge_on(r, &s, n, do_merge(r, &s, n));
    if (one_in(r, 6)) burst_placed(r, &s, (size_t)below(r, large ? 3 : 12), mostly_merges);
}
