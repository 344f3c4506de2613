#include "states.h"

#include <string.h>

#include "pairs.h"

#define M UINT64_C(4294967295)

/* ---- sizes ---- */

shape some_shape(rng *r, int large) {
    shape s;
    s.sites = one_in(r, 8) ? 16 : one_in(r, 6) ? 1 : 2 + below(r, 3);
    s.capacity = one_in(r, 10) ? 0 : one_in(r, 8) ? 1 : 2 + below(r, 7);
    s.n_slots = one_in(r, 10) ? 0 : 1 + below(r, 6);
    if (large) {
        s.capacity = one_in(r, 3) ? 2048 : one_in(r, 2) ? 2047 : 1 + below(r, 2048);
        s.n_slots = one_in(r, 2) ? 1024 : below(r, 1025);
        if (s.sites > 2 && one_in(r, 2)) s.sites = 16;
    }
    s.n_words = (size_t)(s.sites * 2 * s.capacity);
    return s;
}

shape bad_shape(rng *r) {
    shape s = some_shape(r, one_in(r, 40));
    switch (below(r, 9)) {
    case 0: s.sites = 0; s.n_words = 0; break;
    case 1: s.sites = 17; s.n_words = (size_t)(34 * s.capacity > 65568 ? 0 : 34 * s.capacity); break;
    case 2: s.sites = edge(r) | 32; break;
    case 3: s.sites = 1 + below(r, 16); s.capacity = 2049; s.n_words = (size_t)(s.sites * 4098); break;
    case 4: s.capacity = edge(r) | UINT64_C(4096); break;
    case 5: s.sites = 16; s.capacity = UINT64_C(1) << (59 + below(r, 5)); s.n_words = 0; break; /* 2 x 16 x C is 0 in 64 bits */
    case 6: s.n_slots = 1025; break;
    case 7: s.n_words += 1 + below(r, 2); break;
    default:
        if (s.n_words == 0) s.n_words = 1; else s.n_words -= 1;
    }
    return s;
}

/* ---- ids ---- */

void some_pool(rng *r, pool *p, size_t count) {
    unsigned way = (unsigned)below(r, 4);
    uint64_t id = one_in(r, 2) ? 0 : any_width(r, 0);
    size_t k;
    if (count > POOL) count = POOL;
    if (way == 3) id = UINT64_MAX - count + 1; /* ends at the last id */
    p->count = 0;
    for (k = 0; k < count; k++) {
        p->id[p->count++] = id;
        uint64_t gap = way == 0 || way == 3 ? 1 : way == 1 ? 1 + below(r, 5) : 1 + any_width(r, 8);
        if (UINT64_MAX - id < gap) break;
        id += gap;
    }
}

uint64_t some_id(rng *r, const pool *p) {
    uint64_t id;
    if (p->count == 0 || one_in(r, 24)) return edge(r);
    id = p->id[below(r, p->count)];
    return one_in(r, 16) ? id + below(r, 3) - 1 : id;
}

/* ---- sound states ---- */

uint64_t some_length(rng *r) {
    switch (below(r, 8)) {
    case 0: return M;
    case 1: return M - below(r, 3);
    case 2: return 1 + draw(r) % M;
    default: return 1 + below(r, 4);
    }
}

/* Chooses `want` of the pool's ids in their order: each is taken with the chance that the rest of the choice needs. */
void some_table(rng *r, const pool *p, uint64_t *words, uint64_t capacity) {
    uint64_t most = capacity < p->count ? capacity : p->count;
    uint64_t want = one_in(r, 4) ? most : one_in(r, 5) ? 0 : below(r, most + 1);
    size_t k, used = 0;
    memset(words, 0, (size_t)(16 * capacity));
    for (k = 0; k < p->count && used < want; k++) {
        if (below(r, p->count - k) >= want - used) continue;
        words[2 * used] = p->id[k];
        words[2 * used + 1] = some_length(r);
        used++;
    }
}

/* A parcel from one site of the run to another, of which there are two at least; its serial is near the newest heard. */
static void some_parcel(rng *r, const shape *s, const pool *p, const wg_ledger *ledger, wg_parcel *parcel) {
    parcel->site = below(r, s->sites);
    parcel->sender = (uint32_t)((parcel->site + 1 + below(r, s->sites - 1)) % s->sites);
    parcel->serial = serial_near(r, ledger->pairs[parcel->sender][parcel->site].heard);
    parcel->id = some_id(r, p);
    parcel->length = some_length(r);
}

static size_t some_slots(rng *r, const shape *s, const pool *p, const wg_ledger *ledger, wg_parcel *slots) {
    uint64_t chance = one_in(r, 4) ? 8 : one_in(r, 6) ? 0 : below(r, 9);
    size_t k, occupied = 0;
    if (s->sites < 2) chance = 0;
    memset(slots, 0, s->n_slots * sizeof *slots);
    for (k = 0; k < s->n_slots; k++) {
        if (below(r, 8) >= chance) continue;
        some_parcel(r, s, p, ledger, &slots[k]);
        occupied++;
    }
    return occupied;
}

static uint64_t some_count(rng *r) { return one_in(r, 3) ? M - below(r, 2) : one_in(r, 3) ? draw(r) % (M + 1) : below(r, 9); }

/* sent + copied = absorbed + lost + waiting, each at most M */
static void some_ledger(rng *r, size_t waiting, wg_ledger *l) {
    uint64_t sum;
    do {
        l->absorbed = some_count(r);
        l->lost = some_count(r);
        sum = l->absorbed + l->lost + waiting;
    } while (sum > 2 * M);
    l->sent = sum > M ? sum - M + below(r, 2 * M - sum + 1) : below(r, sum + 1);
    if (one_in(r, 3)) l->sent = sum > M ? M : sum;
    else if (one_in(r, 3)) l->sent = sum > M ? sum - M : 0;
    l->copied = sum - l->sent;
}

void some_state(rng *r, const shape *s, const pool *p, uint64_t *words, wg_parcel *slots, wg_ledger *ledger) {
    uint64_t k;
    for (k = 0; k < s->sites; k++) {
        uint64_t *table = words + k * 2 * s->capacity;
        some_table(r, p, table, s->capacity);
        /* nearly equal tables are what a repair meets */
        if (k > 0 && s->capacity > 0 && one_in(r, 5)) memcpy(table, table - 2 * s->capacity, (size_t)(16 * s->capacity));
    }
    some_pairs(r, s, ledger);
    some_ledger(r, some_slots(r, s, p, ledger, slots), ledger);
}

/* ---- damage ---- */

const char *const damage_names[DAMAGES] = {
    "id equal to the one before",
    "two entries in the wrong order",
    "length 0 among the entries",
    "entry all 0 before another",
    "length above M",
    "id behind the entries",
    "length behind the entries",
    "entry behind an empty place",
    "last word not 0",
    "free slot with a site",
    "free slot with an id",
    "free slot with both",
    "parcel length above M",
    "parcel for no site",
    "one counter above M, sum right",
    "counters wrap to a right sum",
    "counter one too high",
    "counter one too low",
    "slot emptied",
    "slot filled",
    "free slot with a sender",
    "free slot with a serial",
    "parcel from no site",
    "parcel from its own site",
    "something heard while the mark of nothing heard stands",
};

size_t in_use(const uint64_t *words, uint64_t capacity) {
    size_t n = 0;
    while (n < capacity && words[2 * n + 1] != 0) n++;
    return n;
}

static uint64_t above_m(rng *r) {
    return one_in(r, 2) ? M + 1 : one_in(r, 2) ? UINT64_MAX - below(r, 2) : M + 1 + any_width(r, 1);
}

int damage_table(rng *r, unsigned way, uint64_t *words, uint64_t capacity) {
    size_t used = in_use(words, capacity), k;
    uint64_t keep;
    switch (way) {
    case 0:
        if (used < 2) return 0;
        k = 1 + (size_t)below(r, used - 1);
        words[2 * k] = words[2 * k - 2];
        return 1;
    case 1:
        if (used < 2) return 0;
        k = 1 + (size_t)below(r, used - 1);
        keep = words[2 * k];
        words[2 * k] = words[2 * k - 2];
        words[2 * k - 2] = keep;
        return 1;
    case 2: /* the last entry with id 0 and length 0 would be no entry at all, and sound */
        if (used == 0) return 0;
        k = (size_t)below(r, used);
        if (k + 1 == used && words[2 * k] == 0) return 0;
        words[2 * k + 1] = 0;
        return 1;
    case 3:
        if (used < 2) return 0;
        k = (size_t)below(r, used - 1);
        words[2 * k] = words[2 * k + 1] = 0;
        return 1;
    case 4:
        if (used == 0) return 0;
        k = (size_t)below(r, used);
        words[2 * k + 1] = above_m(r);
        return 1;
    case 5:
        if (used == capacity) return 0;
        k = used + (size_t)below(r, capacity - used);
        words[2 * k] = one_in(r, 2) ? 1 : UINT64_MAX;
        return 1;
    case 6: /* right behind the entries a length alone is an entry with id 0, sound in an empty table */
        if (used + 1 >= capacity) return 0;
        words[2 * (used + 1 + below(r, capacity - used - 1)) + 1] = 1;
        return 1;
    case 7:
        if (used + 1 >= capacity) return 0;
        k = used + 1 + (size_t)below(r, capacity - used - 1);
        words[2 * k] = used == 0 ? 5 : words[2 * used - 2] + 1;
        words[2 * k + 1] = 1;
        return 1;
    default:
        if (used + 1 >= capacity) return 0;
        words[2 * capacity - 1] = one_in(r, 2) ? 1 : above_m(r);
        return 1;
    }
}

static wg_parcel *one_slot(rng *r, const shape *s, wg_parcel *slots, int occupied) {
    size_t k, from;
    if (s->n_slots == 0) return 0;
    from = (size_t)below(r, s->n_slots);
    for (k = 0; k < s->n_slots; k++) {
        wg_parcel *p = &slots[(from + k) % s->n_slots];
        if ((p->length != 0) == occupied) return p;
    }
    return 0;
}

/* In a run of one site, which has no parcel to damage: one that is right but for its sender, and counted. */
static wg_parcel *lone_parcel(rng *r, wg_parcel *free, wg_ledger *l) {
    uint64_t *count = l->sent < M ? &l->sent : &l->copied;
    if (!free || *count == M) return 0;
    free->id = below(r, 3);
    free->length = 1 + below(r, 3);
    free->serial = some_serial(r);
    *count += 1;
    return free;
}

static int damage_sender(rng *r, unsigned way, const shape *s, wg_parcel *slots, wg_ledger *l) {
    wg_parcel *p = s->sites == 1 ? lone_parcel(r, one_slot(r, s, slots, 0), l) : one_slot(r, s, slots, 1);
    if (!p) return 0;
    if (way == 23) p->sender = (uint32_t)p->site;
    else p->sender = one_in(r, 2) ? (uint32_t)s->sites : one_in(r, 2) ? UINT32_MAX : (uint32_t)(s->sites + below(r, 16));
    return 1;
}

static int damage_slot(rng *r, unsigned way, const shape *s, wg_parcel *slots) {
    wg_parcel *p = one_slot(r, s, slots, way == 12 || way == 13 || way == 18);
    if (!p) return 0;
    switch (way) {
    case 9: p->site = 1 + below(r, s->sites); return 1;
    case 10: p->id = one_in(r, 2) ? 1 : UINT64_MAX; return 1;
    case 11: p->site = below(r, 2); p->id = 1 + below(r, 3); return 1;
    case 12: p->length = above_m(r); return 1;
    case 13: p->site = one_in(r, 2) ? s->sites : one_in(r, 2) ? UINT64_MAX : s->sites + (UINT64_C(1) << 32); return 1;
    case 18: memset(p, 0, sizeof *p); return 1;
    case 20: p->sender = one_in(r, 2) ? 1 : UINT32_MAX; return 1;
    case 21: p->serial = one_in(r, 2) ? 1 : one_in(r, 2) ? UINT32_MAX : HALF_WAY; return 1;
    default: p->site = below(r, s->sites); p->sender = (uint32_t)((p->site + 1) % s->sites); p->length = 1; return 1;
    }
}

static int damage_pair(rng *r, const shape *s, wg_ledger *l) {
    uint64_t from = below(r, s->sites), more;
    wg_pair *p;
    if (s->sites < 2) return 0;
    more = 1 + below(r, s->sites - 1);
    p = &l->pairs[from][(from + more) % s->sites];
    while (p->unheard == 0) p->unheard = some_mark(r);
    p->heard = one_in(r, 2) ? 1 : 1 + (uint32_t)below(r, UINT32_MAX);
    return 1;
}

static int damage_ledger(rng *r, unsigned way, wg_ledger *l) {
    uint64_t *count[4], more;
    unsigned k = (unsigned)below(r, 4);
    count[0] = &l->sent;
    count[1] = &l->copied;
    count[2] = &l->absorbed;
    count[3] = &l->lost;
    switch (way) {
    case 14: /* one counter alone passes M */
        more = l->sent + l->copied - l->absorbed - l->lost; /* the parcels that wait */
        *count[k] = M + 1 + below(r, 3);
        if (k < 2) {
            l->absorbed = M - below(r, 3);
            l->lost = M - below(r, 3);
            *count[1 - k] = l->absorbed + l->lost + more - *count[k];
            return *count[1 - k] <= M;
        }
        *count[5 - k] = below(r, 5);
        l->sent = M - below(r, 3);
        l->copied = l->absorbed + l->lost + more - l->sent;
        return 1;
    case 15: /* right only if the sum is taken in 64 bits */
        l->sent += UINT64_C(1) << 63;
        l->copied += UINT64_C(1) << 63;
        return 1;
    case 16:
        if (*count[k] == M) return 0;
        *count[k] += 1;
        return 1;
    default:
        if (*count[k] == 0) return 0;
        *count[k] -= 1;
        return 1;
    }
}

int damage(rng *r, unsigned way, const shape *s, uint64_t *words, wg_parcel *slots, wg_ledger *ledger) {
    if (way < TABLE_DAMAGES) return damage_table(r, way, words + below(r, s->sites) * 2 * s->capacity, s->capacity);
    if (way >= 14 && way < 18) return damage_ledger(r, way, ledger);
    if (way == 24) return damage_pair(r, s, ledger);
    if (way >= 22) return damage_sender(r, way, s, slots, ledger);
    return damage_slot(r, way, s, slots);
}
