/* model.c: the rules, the plain way. Tables are unpacked into lists, changed there and packed again; text goes through snprintf. Numbers of
 * refusals and limits are written out, not taken from the header, so that a slip in the header is a difference too. Not reentrant. */
#include "model.h"

#include <inttypes.h>
#include <stdbool.h>
#include <stdio.h>
#include <string.h>

#define M UINT64_C(4294967295)

/* ---- one set: ids with their lengths ---- */

struct set {
    size_t count;
    uint64_t id[4096], length[4096]; /* two full tables, so that a merge can be tried before its room is judged */
};

static void put(struct set *s, uint64_t id, uint64_t length) {
    size_t at = 0, k;
    while (at < s->count && s->id[at] < id) at++;
    if (at < s->count && s->id[at] == id) {
        s->length[at] = length;
        return;
    }
    for (k = s->count; k > at; k--) {
        s->id[k] = s->id[k - 1];
        s->length[k] = s->length[k - 1];
    }
    s->id[at] = id;
    s->length[at] = length;
    s->count++;
}

static uint64_t length_of(const struct set *s, uint64_t id) {
    size_t k;
    for (k = 0; k < s->count; k++)
        if (s->id[k] == id) return s->length[k];
    return 0;
}

static bool odd(uint64_t n) { return n % 2 == 1; }

/* "an entry with an even length is not on offer" */
static size_t on_offer(const struct set *s) {
    size_t k, n = 0;
    for (k = 0; k < s->count; k++)
        if (odd(s->length[k])) n++;
    return n;
}

/* ---- a table in words ---- */

/* "Entries in use come first, ids strictly rising, lengths 1 to M; every word after them is 0." */
static bool unpack(const uint64_t *words, uint64_t capacity, struct set *s) {
    uint64_t k;
    bool ended = false;
    s->count = 0;
    for (k = 0; k < capacity; k++) {
        uint64_t id = words[2 * k], length = words[2 * k + 1];
        if (length == 0) ended = true;
        if (ended) {
            if (id != 0 || length != 0) return false;
            continue;
        }
        if (length > M) return false;
        if (s->count > 0 && s->id[s->count - 1] >= id) return false;
        s->id[s->count] = id;
        s->length[s->count] = length;
        s->count++;
    }
    return true;
}

static void pack(const struct set *s, uint64_t *words, uint64_t capacity) {
    uint64_t k;
    for (k = 0; k < capacity; k++) {
        words[2 * k] = k < s->count ? s->id[k] : 0;
        words[2 * k + 1] = k < s->count ? s->length[k] : 0;
    }
}

/* ---- slots and ledger ---- */

/* "a free slot has them all 0" */
static bool free_slot(const wg_parcel *p) {
    return p->site == 0 && p->id == 0 && p->length == 0 && p->sender == 0 && p->serial == 0;
}

/* "a length of 1 to M and a site of the run", "a sender of the run other than its destination" */
static bool sound_slot(const wg_parcel *p, uint64_t sites) {
    if (free_slot(p)) return true;
    if (p->length < 1 || p->length > M) return false;
    if (p->site >= sites) return false;
    if (p->sender >= sites) return false;
    return p->sender != p->site;
}

static void make_free(wg_parcel *p) {
    p->site = p->id = p->length = 0;
    p->sender = 0;
    p->serial = 0;
}

static uint64_t waiting(const wg_parcel *slots, size_t n) {
    uint64_t count = 0;
    size_t k;
    for (k = 0; k < n; k++) count += !free_slot(&slots[k]);
    return count;
}

static bool sound_ledger(const wg_ledger *l, uint64_t waits) {
    if (l->sent > M || l->copied > M || l->absorbed > M || l->lost > M) return false;
    return l->sent + l->copied == l->absorbed + l->lost + waits;
}

/* ---- serials ---- */

#define LAST UINT64_C(4294967295) /* 2^SERIAL_BITS - 1, SERIAL_BITS being 32 */
#define HALF UINT64_C(2147483648) /* 2^(SERIAL_BITS - 1) */

/* RFC 1982, section 3.2: "s1 is said to be less than s2 if, and only if, s1 is not equal to s2, and
 * (i1 < i2 and i2 - i1 < 2^(SERIAL_BITS - 1)) or (i1 > i2 and i1 - i2 > 2^(SERIAL_BITS - 1))". */
static bool less(uint64_t i1, uint64_t i2) {
    if (i1 < i2) return i2 - i1 < HALF;
    if (i1 > i2) return i1 - i2 > HALF;
    return false;
}

/* "s1 is said to be greater than s2 if, and only if, s1 is not equal to s2, and
 * (i1 < i2 and i2 - i1 > 2^(SERIAL_BITS - 1)) or (i1 > i2 and i1 - i2 < 2^(SERIAL_BITS - 1))". */
static bool greater(uint64_t i1, uint64_t i2) {
    if (i1 < i2) return i2 - i1 > HALF;
    if (i1 > i2) return i1 - i2 < HALF;
    return false;
}

/* "there are some pairs of values s1 and s2 for which s1 is not equal to s2, but for which s1 is neither greater than, nor less than, s2" */
static bool no_order(uint64_t i1, uint64_t i2) { return i1 != i2 && !greater(i1, i2) && !less(i1, i2); }

static uint64_t serial_after(uint64_t serial) { return serial == LAST ? 0 : serial + 1; }

static uint64_t serial_before(uint64_t serial) { return serial == 0 ? LAST : serial - 1; }

/* a - b, once round the circle where that is the nearer way; a and b have an order */
static int64_t apart(uint64_t a, uint64_t b) {
    int64_t by = (int64_t)a - (int64_t)b;
    if (by > 2147483647) by = by - 4294967296;
    if (by < -2147483647) by = by + 4294967296;
    return by;
}

static wg_pair *pair_of(wg_ledger *l, uint64_t sender, uint64_t destination) { return &l->pairs[sender][destination]; }

/* "the newest heard is 0 while its mark stands" */
static bool sound_pair(const wg_pair *p) { return p->unheard == 0 || p->heard == 0; }

static size_t lowest_free(const wg_parcel *slots, size_t n) {
    size_t k;
    for (k = 0; k < n; k++)
        if (free_slot(&slots[k])) return k;
    return n;
}

/* ---- a run ---- */

static bool sizes(const wg_run *run) {
    if (run->sites < 1 || run->sites > 16) return false;
    if (run->capacity > 2048) return false;
    if (run->n_slots > 1024) return false;
    return run->n_words == run->sites * 2 * run->capacity;
}

/* "each ordered pair of different sites starts at one first serial"; "fresh, both marks stand" */
static void fresh_pair(wg_pair *pair, uint32_t first) {
    pair->next = first;
    pair->heard = 0;
    pair->unsent = 1;
    pair->unheard = 1;
}

uint32_t model_fresh(uint64_t *words, size_t n_words, wg_parcel *slots, size_t n_slots, wg_ledger *ledger,
                     uint64_t sites, uint64_t capacity, uint32_t first) {
    const wg_run run = {words, n_words, slots, n_slots, ledger, sites, capacity};
    size_t k;
    uint64_t a, b;
    if (!sizes(&run)) return 1;
    for (k = 0; k < n_words; k++) words[k] = 0;
    for (k = 0; k < n_slots; k++) make_free(&slots[k]);
    ledger->sent = ledger->copied = ledger->absorbed = ledger->lost = 0;
    for (a = 0; a < sites; a++)
        for (b = 0; b < sites; b++)
            if (a != b) fresh_pair(pair_of(ledger, a, b), first);
    return 0;
}

static struct set tables[16]; /* those of the run that was judged last */
static struct set joined;

static uint64_t *words_of(const wg_run *run, uint64_t site) { return run->words + site * 2 * run->capacity; }

static bool unpack_all(const wg_run *run) {
    uint64_t k;
    for (k = 0; k < run->sites; k++)
        if (!unpack(words_of(run, k), run->capacity, &tables[k])) return false;
    return true;
}

static bool sound_slots(const wg_run *run) {
    size_t k;
    for (k = 0; k < run->n_slots; k++)
        if (!sound_slot(&run->slots[k], run->sites)) return false;
    return true;
}

/* "No other pair is read, judged or written." */
static bool sound_pairs(const wg_run *run) {
    uint64_t from, to;
    for (from = 0; from < run->sites; from++)
        for (to = 0; to < run->sites; to++)
            if (from != to && !sound_pair(pair_of(run->ledger, from, to))) return false;
    return true;
}

static bool sound(const wg_run *run) {
    if (!unpack_all(run)) return false;
    if (!sound_slots(run)) return false;
    if (!sound_pairs(run)) return false;
    return sound_ledger(run->ledger, waiting(run->slots, run->n_slots));
}

/* ---- the eight steps, in a run whose tables are unpacked; sites and slots that they name are there ---- */

static uint32_t add(const wg_run *run, uint64_t site, uint64_t id, uint64_t *value) {
    uint64_t now = length_of(&tables[site], id);
    if (!odd(now)) {
        if (now == 0 && tables[site].count == run->capacity) return 8;
        now = now + 1;
        put(&tables[site], id, now);
        pack(&tables[site], words_of(run, site), run->capacity);
    }
    *value = now;
    return 0;
}

static uint32_t take_away(const wg_run *run, uint64_t site, uint64_t id, uint64_t *value) {
    uint64_t now = length_of(&tables[site], id);
    if (now == M) return 7;
    if (odd(now)) {
        put(&tables[site], id, ++now);
        pack(&tables[site], words_of(run, site), run->capacity);
    }
    *value = now;
    return 0;
}

static uint32_t send(const wg_run *run, uint64_t from, uint64_t to, uint64_t id, uint64_t *value) {
    uint64_t now = length_of(&tables[from], id);
    size_t place = lowest_free(run->slots, run->n_slots);
    wg_pair *link = pair_of(run->ledger, from, to);
    if (now == 0) return 6;
    if (place == run->n_slots) return 9;
    if (run->ledger->sent == M) return 10;
    run->slots[place].site = to;
    run->slots[place].id = id;
    run->slots[place].length = now;
    run->slots[place].sender = (uint32_t)from;
    run->slots[place].serial = link->next;
    link->next = (uint32_t)serial_after(link->next);
    link->unsent = 0;
    run->ledger->sent++;
    *value = place;
    return 0;
}

static uint32_t merge(const wg_run *run, uint64_t from, uint64_t to, uint64_t *value) {
    uint64_t k, rose = 0;
    joined = tables[to];
    for (k = 0; k < tables[from].count; k++) {
        uint64_t id = tables[from].id[k], theirs = tables[from].length[k];
        if (theirs > length_of(&tables[to], id)) {
            put(&joined, id, theirs);
            rose++;
        }
    }
    if (joined.count > run->capacity) return 8;
    pack(&joined, words_of(run, to), run->capacity);
    *value = rose;
    return 0;
}

static uint32_t deliver(const wg_run *run, wg_parcel *slot, uint64_t *value) {
    struct set *table = &tables[slot->site];
    wg_pair *link = pair_of(run->ledger, slot->sender, slot->site);
    uint64_t now = length_of(table, slot->id);
    bool anything = link->unheard == 0;
    if (anything && no_order(slot->serial, link->heard)) return 15;
    if (now == 0 && table->count == run->capacity) return 8;
    if (run->ledger->absorbed == M) return 10;
    if (slot->length > now) {
        now = slot->length;
        put(table, slot->id, now);
        pack(table, words_of(run, slot->site), run->capacity);
    }
    if (!anything || greater(slot->serial, link->heard)) {
        link->heard = slot->serial;
        link->unheard = 0;
    }
    make_free(slot);
    run->ledger->absorbed++;
    *value = now;
    return 0;
}

static uint32_t again(const wg_run *run, const wg_parcel *slot, uint64_t *value) {
    size_t second = lowest_free(run->slots, run->n_slots);
    if (second == run->n_slots) return 9;
    if (run->ledger->copied == M) return 10;
    run->slots[second] = *slot;
    run->ledger->copied++;
    *value = second;
    return 0;
}

static uint32_t lose(const wg_run *run, wg_parcel *slot) {
    if (run->ledger->lost == M) return 10;
    make_free(slot);
    run->ledger->lost++;
    return 0;
}

/* "A kind outside 1 to 8, or an unused number that isn't 0" */
static bool is_step(uint64_t kind, uint64_t second, uint64_t id) {
    switch (kind) {
    case 1: case 2: case 3: return second == 0;
    case 4: return true;
    case 5: return id == 0;
    case 6: case 7: case 8: return second == 0 && id == 0;
    default: return false;
    }
}

uint32_t model_step(uint64_t *words, size_t n_words, wg_parcel *slots, size_t n_slots, wg_ledger *ledger,
                    uint64_t sites, uint64_t capacity,
                    uint64_t kind, uint64_t first, uint64_t second, uint64_t id, uint64_t *value) {
    const wg_run run = {words, n_words, slots, n_slots, ledger, sites, capacity};
    *value = 0;
    if (!is_step(kind, second, id)) return 11;
    if (!sizes(&run)) return 1;
    if (!sound(&run)) return 2;
    if (kind <= 5 && first >= sites) return 3;
    if ((kind == 4 || kind == 5) && second >= sites) return 3;
    if ((kind == 4 || kind == 5) && first == second) return 4;
    if (kind >= 6 && (first >= n_slots || free_slot(&slots[first]))) return 5;
    switch (kind) {
    case 1: return add(&run, first, id, value);
    case 2: return take_away(&run, first, id, value);
    case 3: *value = length_of(&tables[first], id); return 0;
    case 4: return send(&run, first, second, id, value);
    case 5: return merge(&run, first, second, value);
    case 6: return deliver(&run, &slots[first], value);
    case 7: return again(&run, &slots[first], value);
    default: return lose(&run, &slots[first]);
    }
}

/* ---- the lag ---- */

uint32_t model_lag(uint64_t *words, size_t n_words, wg_parcel *slots, size_t n_slots, wg_ledger *ledger,
                   uint64_t sites, uint64_t capacity,
                   uint64_t from, uint64_t to, int32_t *lag) {
    const wg_run run = {words, n_words, slots, n_slots, ledger, sites, capacity};
    const wg_pair *link;
    uint64_t last_sent;
    *lag = 0;
    if (!sizes(&run)) return 1;
    if (!sound(&run)) return 2; /* for a query too */
    if (from >= sites || to >= sites) return 3;
    if (from == to) return 4;
    link = pair_of(ledger, from, to);
    last_sent = serial_before(link->next);
    if (link->unsent != 0 || link->unheard != 0) return 16;
    if (no_order(link->heard, last_sent)) return 15;
    *lag = (int32_t)apart(link->heard, last_sent);
    return 0;
}

/* ---- bursts ---- */

/* "Answer i is exactly what a step would answer in the state after the asks before it" */
uint32_t model_burst(uint64_t *words, size_t n_words, wg_parcel *slots, size_t n_slots, wg_ledger *ledger,
                     uint64_t sites, uint64_t capacity,
                     const uint64_t *asks, size_t n_asks, uint64_t *answers, size_t n_answers) {
    const wg_run run = {words, n_words, slots, n_slots, ledger, sites, capacity};
    size_t k, steps = n_asks / 4;
    if (!sizes(&run)) return 1;
    if (!sound(&run)) return 2; /* once, and also for no step */
    if (n_asks % 4 != 0) return 11;
    if (n_answers < 2 * steps) return 13;
    for (k = 0; k < steps; k++) {
        const uint64_t *ask = asks + 4 * k;
        uint64_t value;
        uint32_t refusal = model_step(words, n_words, slots, n_slots, ledger, sites, capacity, ask[0], ask[1], ask[2], ask[3], &value);
        answers[2 * k] = refusal;
        answers[2 * k + 1] = value;
    }
    return 0;
}

/* ---- groups at a site ---- */

/* "Absorbing a group's bytes at a site is all or none and returns how many lengths rose"; "the ledger doesn't count them" */
uint32_t model_absorb(uint64_t *words, size_t n_words, wg_parcel *slots, size_t n_slots, wg_ledger *ledger,
                      uint64_t sites, uint64_t capacity,
                      uint64_t site, const uint8_t *bytes, size_t n, uint64_t *rose) {
    const wg_run run = {words, n_words, slots, n_slots, ledger, sites, capacity};
    uint64_t entries[2 * 64], up = 0;
    size_t count, k;
    *rose = 0;
    if (!sizes(&run)) return 1;
    if (!sound(&run)) return 2; /* all three that are lent, though it writes one table */
    if (site >= sites) return 3;
    if (model_read_group(bytes, n, entries, 2 * 64, &count) != 0) return 17;
    joined = tables[site];
    for (k = 0; k < count; k++) {
        uint64_t id = entries[2 * k], told = entries[2 * k + 1], now = length_of(&joined, id);
        if (told > now) put(&joined, id, told);
        if (told > now) up++;
    }
    if (joined.count > capacity) return 8;
    pack(&joined, words_of(&run, site), capacity);
    *rose = up;
    return 0;
}

/* ---- bulk membership ---- */

uint32_t model_members(const uint64_t *table, size_t n_words, const uint64_t *ids, size_t n_ids,
                       uint8_t *answers, size_t n_answers) {
    size_t byte, bit;
    if (n_words % 2 == 1 || n_words > 4096) return 1;
    if (!unpack(table, n_words / 2, &joined)) return 2;
    if (n_ids > 4096) return 14;
    if (n_answers * 8 < n_ids) return 13;
    for (byte = 0; byte * 8 < n_ids; byte++) {
        unsigned sum = 0;
        for (bit = 0; bit < 8 && byte * 8 + bit < n_ids; bit++)
            if (odd(length_of(&joined, ids[byte * 8 + bit]))) sum += 1u << bit;
        answers[byte] = (uint8_t)sum;
    }
    return 0;
}

/* ---- step lines ---- */

/* What each kind's line looks like: # stands for a number, and the digits after it name which of first, second and id it is. */
static const char *const forms[] = {
    "",
    "step=add node=#1 id=#3",
    "step=remove node=#1 id=#3",
    "step=query node=#1 id=#3",
    "step=send from=#1 to=#2 id=#3",
    "step=merge from=#1 to=#2",
    "step=deliver slot=#1",
    "step=again slot=#1",
    "step=lose slot=#1",
};

/* The number that begins at line[*at], moved past; false where there is none, where it has more than 20 digits, or where it is too large. Zeros in
 * front are digits like any other. */
static bool take_number(const uint8_t *line, size_t n, size_t *at, uint64_t *number) {
    char digits[21], again[24];
    const char *bare = digits;
    size_t k = 0;
    while (*at + k < n && line[*at + k] >= '0' && line[*at + k] <= '9') {
        if (k == 20) return false;
        digits[k] = (char)line[*at + k];
        k++;
    }
    digits[k] = 0;
    if (k == 0) return false;
    *at += k;
    while (bare[0] == '0' && bare[1] != 0) bare++;
    *number = 0;
    for (k = 0; digits[k]; k++) *number = *number * 10 + (uint64_t)(digits[k] - '0');
    /* the last digits of a number past 64 bits do not come back as they were */
    snprintf(again, sizeof again, "%" PRIu64, *number);
    return strcmp(again, bare) == 0;
}

static bool fits(const char *form, const uint8_t *line, size_t n, uint64_t numbers[4]) {
    size_t at = 0;
    while (*form) {
        if (*form == '#') {
            if (!take_number(line, n, &at, &numbers[form[1] - '0'])) return false;
            form += 2;
        } else {
            if (at == n || line[at] != (uint8_t)*form) return false;
            at++;
            form++;
        }
    }
    return at == n;
}

static bool read_numbers(const uint8_t *line, size_t n, uint64_t numbers[4]) {
    unsigned kind;
    for (kind = 1; kind <= 8; kind++) {
        numbers[0] = kind;
        numbers[1] = numbers[2] = numbers[3] = 0;
        if (fits(forms[kind], line, n, numbers)) return true;
    }
    return false;
}

uint32_t model_read_line(const uint8_t *line, size_t n, uint8_t *area, size_t n_area) {
    uint64_t numbers[4];
    unsigned k, b;
    if (n_area < 32) return 13;
    if (!read_numbers(line, n, numbers)) return 11;
    for (k = 0; k < 4; k++)
        for (b = 0; b < 8; b++) area[8 * k + b] = (uint8_t)(numbers[k] >> (8 * b) & 255);
    return 0;
}

/* The step's line, with a 0 behind it; 0 where the numbers are no step. */
static size_t line_of(uint64_t kind, uint64_t first, uint64_t second, uint64_t id, char text[128]) {
    const uint64_t numbers[4] = {kind, first, second, id};
    const char *form;
    size_t n = 0;
    if (!is_step(kind, second, id)) return 0;
    for (form = forms[kind]; *form;) {
        if (*form == '#') {
            n += (size_t)snprintf(text + n, 128 - n, "%" PRIu64, numbers[form[1] - '0']);
            form += 2;
        } else {
            text[n++] = *form++;
        }
    }
    text[n] = 0;
    return n;
}

uint32_t model_check_line(uint64_t kind, uint64_t first, uint64_t second, uint64_t id, size_t room) {
    char text[128];
    size_t n = line_of(kind, first, second, id, text);
    if (n == 0) return 11;
    return n > room ? 13 : 0;
}

size_t model_write_line(uint64_t kind, uint64_t first, uint64_t second, uint64_t id, uint8_t *buffer, size_t room) {
    char text[128];
    size_t n = line_of(kind, first, second, id, text);
    if (n == 0 || n > room) return 0;
    memcpy(buffer, text, n);
    return n;
}

/* Zeros behind a `=` are padding, up to the last digit. */
size_t model_unpadded(const uint8_t *line, size_t n, uint8_t *bare) {
    size_t k, m = 0;
    for (k = 0; k < n; k++) {
        bare[m++] = line[k];
        if (line[k] != '=') continue;
        while (k + 2 < n && line[k + 1] == '0' && line[k + 2] >= '0' && line[k + 2] <= '9') k++;
    }
    return m;
}

/* ---- the report ---- */

static char report[1 << 20];
static size_t said;

#define SAY(...) (said += (size_t)snprintf(report + said, sizeof report - said, __VA_ARGS__))

static struct {
    uint64_t words[3 * 2 * 8];
    wg_parcel slots[8];
    wg_ledger ledger;
} state;

static void run_line(size_t number, const uint8_t *line, size_t n, bool ended) {
    uint64_t numbers[4], value = 0;
    uint32_t refusal = 11;
    if (ended && read_numbers(line, n, numbers))
        refusal = model_step(state.words, 48, state.slots, 8, &state.ledger, 3, 8,
                             numbers[0], numbers[1], numbers[2], numbers[3], &value);
    if (refusal != 0)
        SAY("line=%zu refused=%" PRIu32 "\n", number, refusal);
    else if (numbers[0] == 3)
        SAY("line=%zu node=%" PRIu64 " id=%" PRIu64 " length=%" PRIu64 " present=%d\n",
            number, numbers[1], numbers[3], value, odd(value) ? 1 : 0);
}

static void run_text(const uint8_t *input, size_t n) {
    size_t from = 0, number = 1, k;
    model_fresh(state.words, 48, state.slots, 8, &state.ledger, 3, 8, 0);
    for (k = 0; k < n; k++) {
        if (input[k] != 10) continue;
        run_line(number++, input + from, k - from, true);
        from = k + 1;
    }
    if (from < n) run_line(number, input + from, n - from, false);
    SAY("sent=%" PRIu64 "\ncopied=%" PRIu64 "\nabsorbed=%" PRIu64 "\nlost=%" PRIu64 "\nwaiting=%" PRIu64 "\n",
        state.ledger.sent, state.ledger.copied, state.ledger.absorbed, state.ledger.lost, waiting(state.slots, 8));
    for (k = 0; k < 3; k++) {
        unpack(state.words + k * 16, 8, &joined);
        SAY("node=%zu held=%zu shown=%zu\n", k, joined.count, on_offer(&joined));
    }
}

uint32_t model_report(const uint8_t *input, size_t n, uint8_t *out, size_t room, size_t *written) {
    *written = 0;
    said = 0;
    if (n > 32768) return 12;
    run_text(input, n);
    if (room < said) return 13;
    memcpy(out, report, said);
    *written = said;
    return 0;
}
