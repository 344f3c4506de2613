/* marked.c: the twelve marked examples P1 to P12, a burst, serials round their wrap, the marked group, a repair round and the sample report, with the very
 * numbers and texts of the rules, through the header's named calls. It compiles as C and as C++. */
#include <inttypes.h>
#include <stdio.h>
#include <string.h>

#include "wiregantry.h"

#define M UINT64_C(4294967295)

static int wrong;

static void same(const char *what, uint64_t got, uint64_t want) {
    if (got == want) return;
    printf("marked: %s: %" PRIu64 ", not %" PRIu64 "\n", what, got, want);
    wrong = 1;
}

/* Two sites with room for 4 entries each, of which a run takes as many as its capacity says. */
static uint64_t words[2 * 2 * 4];
static wg_parcel slots[2];
static wg_ledger ledger;

static wg_run run_from(uint64_t capacity, uint32_t first) {
    wg_run run;
    run.words = words;
    run.n_words = WG_WORDS(2, capacity);
    run.slots = slots;
    run.n_slots = 2;
    run.ledger = &ledger;
    run.sites = 2;
    run.capacity = capacity;
    same("fresh", wg_start(&run, first), 0);
    return run;
}

static wg_run run_of(uint64_t capacity) { return run_from(capacity, 0); }

static void lay(uint64_t *table, const uint64_t *pairs, size_t n) { memcpy(table, pairs, n * 16); }

static void same_table(const char *what, const uint64_t *table, const uint64_t *pairs, size_t n) {
    if (memcmp(table, pairs, n * 16) == 0) return;
    printf("marked: %s: the table is another\n", what);
    wrong = 1;
}

static void one_id(void) {
    static const uint64_t empty[8] = {0}, listed[8] = {7, 1}, withdrawn[8] = {7, 2};
    wg_run run = run_of(4);
    uint64_t length;
    same("P1", wg_query(&run, 0, 7, &length), 0);
    same("P1", length, 0);
    same("P5", wg_remove(&run, 0, 7, &length), 0);
    same("P5", length, 0);
    same_table("P5", words, empty, 4);
    same("P2", wg_add(&run, 0, 7, &length), 0);
    same("P2", length, 1);
    same("P3", wg_add(&run, 0, 7, &length), 0);
    same("P3", length, 1);
    same_table("P3", words, listed, 4);
    same("P4", wg_remove(&run, 0, 7, &length), 0);
    same("P4", length, 2);
    same_table("P4", words, withdrawn, 4);
}

static void largest_lengths(void) {
    static const uint64_t at_m[2] = {7, M}, below_m[2] = {7, M - 1};
    wg_run run = run_of(4);
    uint64_t length;
    lay(words, at_m, 1);
    same("P8 remove", wg_remove(&run, 0, 7, &length), 7);
    same("P8 remove", length, 0);
    same("P8 add", wg_add(&run, 0, 7, &length), 0);
    same("P8 add", length, M);
    lay(words, below_m, 1);
    same("P9", wg_add(&run, 0, 7, &length), 0);
    same("P9", length, M);
}

static void merges(void) {
    static const uint64_t three[2] = {7, 3}, two[2] = {7, 2};
    static const uint64_t a[4] = {7, 2, 9, 1}, b[4] = {7, 1, 8, 3}, both[6] = {7, 2, 8, 3, 9, 1};
    static const uint64_t ask[3] = {7, 8, 9};
    wg_run run = run_of(3);
    uint64_t rose;
    uint8_t answers[2] = {255, 255};
    lay(words, three, 1);
    lay(words + 6, two, 1);
    same("P6", wg_merge(&run, 0, 1, &rose), 0);
    same_table("P6", words + 6, three, 1);
    run = run_of(3);
    lay(words, a, 2);
    lay(words + 6, b, 2);
    same("P11", wg_merge(&run, 1, 0, &rose), 0);
    same("P11", rose, 1);
    same_table("P7", words, both, 3);
    same("P12", wg_members(words, 6, ask, 3, answers, sizeof answers), 0);
    same("P12", answers[0], 6);
    same("P12 behind", answers[1], 255);
    run = run_of(2);
    lay(words, a, 2);
    lay(words + 4, b, 2);
    same("P11 at 2", wg_merge(&run, 1, 0, &rose), 8);
    same("P11 at 2", rose, 0);
    same_table("P11 at 2", words, a, 2);
}

static void no_room(void) {
    static const uint64_t full[4] = {7, 1, 8, 1}, other[4] = {7, 3, 9, 1};
    wg_run run = run_of(2);
    uint64_t slot, length;
    lay(words, full, 2);
    lay(words + 4, other, 2);
    same("P10 send", wg_send(&run, 1, 0, 9, &slot), 0);
    same("P10 deliver 9", wg_deliver(&run, slot, &length), 8);
    same("P10 still waiting", slots[slot].id, 9);
    same("P10 send", wg_send(&run, 1, 0, 7, &slot), 0);
    same("P10 deliver 7", wg_deliver(&run, slot, &length), 0);
    same("P10 deliver 7", length, 3);
    same("again", wg_again(&run, 0, &slot), 0);
    same("lose", wg_lose(&run, slot), 0);
    same("sent", ledger.sent, 2);
    same("copied", ledger.copied, 1);
    same("absorbed", ledger.absorbed, 1);
    same("lost", ledger.lost, 1);
}

static void same_words(const char *what, const uint64_t *got, const uint64_t *want, size_t n) {
    size_t k;
    for (k = 0; k < n; k++) same(what, got[k], want[k]);
}

static void burst(void) {
    static const uint64_t asks[WG_ASKS(6)] = {
        WG_ADD, 0, 0, 7, WG_SEND, 0, 1, 7, WG_DELIVER, 0, 0, 0, 9, 0, 0, 0, WG_QUERY, 1, 0, 7, WG_AGAIN, 0, 0, 0,
    };
    static const uint64_t want[] = {0, 1, 0, 0, 0, 1, 11, 0, 0, 1, 5, 0, 99, 99}, untouched[] = {99, 99}, one_each[4] = {7, 1, 7, 1};
    uint64_t answers[WG_BURST_ANSWERS(7)];
    wg_run run = run_of(1);
    size_t k;
    for (k = 0; k < WG_BURST_ANSWERS(7); k++) answers[k] = 99;
    same("a burst of 23 words", wg_burst(words, 4, slots, 2, &ledger, 2, 1, asks, 23, answers, 14), 11);
    same("a word short", wg_burst(words, 4, slots, 2, &ledger, 2, 1, asks, 24, answers, 11), 13);
    same_words("a refused burst's answers", answers, untouched, 2);
    same("a refused burst's run", words[1], 0);
    same("the burst", wg_do_all(&run, asks, 6, answers), 0);
    same_words("the burst's answers", answers, want, WG_BURST_ANSWERS(7));
    same_table("the burst", words, one_each, 2);
    same("the burst's sent", ledger.sent, 1);
    same("the burst's absorbed", ledger.absorbed, 1);
    same("a burst of no steps", wg_do_all(&run, asks, 0, answers), 0);
    words[1] = 0; /* an id without a length */
    same("no steps, unsound", wg_do_all(&run, asks, 0, answers), 2);
}

/* ---- serials: site 0 sends to site 1 ---- */

static void same_pair(const char *what, const wg_pair *p, uint32_t next, uint32_t heard, uint32_t unsent, uint32_t unheard) {
    same(what, p->next, next);
    same(what, p->heard, heard);
    same(what, p->unsent, unsent);
    same(what, p->unheard, unheard);
}

static void same_lag(const char *what, const wg_run *run, uint64_t from, uint64_t to, uint32_t refusal, int32_t want) {
    int32_t lag = 99;
    same(what, wg_behind(run, from, to, &lag), refusal);
    same(what, (uint64_t)(int64_t)lag, (uint64_t)(int64_t)want);
}

/* Two sends from the last serial on, delivered in the other order. */
static void wrap(void) {
    wg_run run = run_from(4, WG_SERIAL_MAX);
    wg_pair *there = &ledger.pairs[0][1], *back = &ledger.pairs[1][0];
    uint64_t slot, length;
    same_pair("fresh", there, 4294967295u, 0, 1, 1);
    same_pair("fresh, back", back, 4294967295u, 0, 1, 1);
    same_lag("nothing sent", &run, 0, 1, 16, 0);
    same("add", wg_add(&run, 0, 7, &length), 0);
    same("first send", wg_send(&run, 0, 1, 7, &slot), 0);
    same("its sender", slots[0].sender, 0);
    same("its serial", slots[0].serial, 4294967295u);
    same_pair("after it", there, 0, 0, 0, 1);
    same_lag("nothing heard", &run, 0, 1, 16, 0);
    same("second send", wg_send(&run, 0, 1, 7, &slot), 0);
    same("its serial", slots[1].serial, 0);
    same_pair("after it", there, 1, 0, 0, 1);
    same("no slot", wg_send(&run, 0, 1, 7, &slot), 9);
    same_pair("a refused send uses no serial", there, 1, 0, 0, 1);
    same("the second first", wg_deliver(&run, 1, &length), 0);
    same_pair("serial 0 heard", there, 1, 0, 0, 0);
    same_lag("level", &run, 0, 1, 0, 0);
    same("the first late", wg_deliver(&run, 0, &length), 0);
    same_pair("an older serial moves nothing", there, 1, 0, 0, 0);
    same_pair("the way back", back, 4294967295u, 0, 1, 1);
    same_lag("the way back", &run, 1, 0, 16, 0);
    same_lag("one site", &run, 1, 1, 4, 0);
    same_lag("no site", &run, 2, 2, 3, 0);
}

static void send_and_lose(const wg_run *run) {
    uint64_t slot;
    same("send", wg_send(run, 0, 1, 7, &slot), 0);
    same("lose", wg_lose(run, slot), 0);
}

/* Five sends, of which the third is copied and then heard; what comes after is under way or lost. */
static void lags(void) {
    wg_run run = run_from(4, 4294967294u);
    uint64_t slot, other, length;
    same("add", wg_add(&run, 0, 7, &length), 0);
    send_and_lose(&run);
    send_and_lose(&run);
    same("send", wg_send(&run, 0, 1, 7, &slot), 0);
    same("the third serial", slots[slot].serial, 0);
    same("again", wg_again(&run, slot, &other), 0);
    same("a copy keeps its serial", slots[other].serial, 0);
    same("a copy keeps its sender", slots[other].sender, 0);
    same("again uses no serial", ledger.pairs[0][1].next, 1);
    same("deliver", wg_deliver(&run, slot, &length), 0);
    same_lag("all heard", &run, 0, 1, 0, 0);
    send_and_lose(&run);
    send_and_lose(&run);
    same_lag("two behind", &run, 0, 1, 0, -2);
    same("the copy", wg_deliver(&run, other, &length), 0);
    same_lag("still two behind", &run, 0, 1, 0, -2);
}

/* Serials half of all apart: refused with 15, unless nothing was heard; before 8, and behind 16. */
static void no_order(void) {
    static const uint64_t sender[4] = {7, 1, 9, 1}, full[4] = {7, 1, 8, 1};
    wg_run run = run_from(2, 0);
    wg_pair *there = &ledger.pairs[0][1];
    uint64_t slot, length;
    lay(words, sender, 2);
    lay(words + 4, full, 2);
    there->next = 2147483648u;
    same("send", wg_send(&run, 0, 1, 9, &slot), 0);
    same("its serial", slots[slot].serial, 2147483648u);
    same("no room, nothing heard", wg_deliver(&run, slot, &length), 8);
    there->unheard = 0;
    same("half way from the newest", wg_deliver(&run, slot, &length), 15);
    same("its length", length, 0);
    same("the parcel stays", slots[slot].serial, 2147483648u);
    same_pair("the pair stays", there, 2147483649u, 0, 0, 0);
    same("nothing absorbed", ledger.absorbed, 0);
    same_lag("half way", &run, 0, 1, 15, 0);
    there->unsent = 4294967295u;
    same_lag("16 before 15", &run, 0, 1, 16, 0);
    there->unsent = 0;
    there->next = 2147483648u;
    same_lag("the least", &run, 0, 1, 0, -2147483647);
    there->next = 2147483650u;
    same_lag("the largest", &run, 0, 1, 0, 2147483647);
    there->heard = 1;
    same("one nearer is newer, and there is no room", wg_deliver(&run, slot, &length), 8);
    there->unheard = 2;
    same_lag("heard while the mark stands", &run, 0, 1, 2, 0);
}

/* Pairs that no call may look at are full of noise and stay so; one site has no parcel. */
static void other_pairs(void) {
    static wg_ledger before;
    wg_run run = run_of(1);
    uint64_t length;
    same("the bytes of a parcel", sizeof(wg_parcel), 32);
    same("the bytes of a ledger", sizeof(wg_ledger), 4128);
    memset(&ledger.pairs, 0xa5, sizeof ledger.pairs);
    before = ledger;
    same("fresh", wg_start(&run, 5), 0);
    before.pairs[0][1].next = before.pairs[1][0].next = 5;
    before.pairs[0][1].heard = before.pairs[1][0].heard = 0;
    before.pairs[0][1].unsent = before.pairs[1][0].unsent = before.pairs[0][1].unheard = before.pairs[1][0].unheard = 1;
    same("fresh writes the two pairs", (uint64_t)memcmp(&before, &ledger, sizeof ledger), 0);
    same("a step looks at no other", wg_query(&run, 0, 7, &length), 0);
    run.sites = 1;
    run.n_words = WG_WORDS(1, 1);
    same("one site", wg_query(&run, 0, 7, &length), 0);
    same_lag("one site", &run, 0, 0, 4, 0);
    slots[0].length = ledger.sent = 1;
    same("one site with a parcel", wg_query(&run, 0, 7, &length), 2);
}

/* ---- groups ---- */

static const uint64_t two_entries[4] = {7, 2, 8, 3};
static const uint8_t two_bytes[5] = {2, 7, 1, 0, 2};

static void same_bytes(const char *what, const uint8_t *got, const uint8_t *want, size_t n) {
    size_t k;
    for (k = 0; k < n; k++) same(what, got[k], want[k]);
}

static void the_marked_group(void) {
    static const uint8_t with_more[6] = {2, 7, 1, 0, 2, 99}, untouched[6] = {99, 99, 99, 99, 99, 99};
    static const uint64_t more_words[5] = {7, 2, 8, 3, 99}, untouched_words[5] = {99, 99, 99, 99, 99};
    uint8_t bytes[6];
    uint64_t entries[5] = {99, 99, 99, 99, 99};
    size_t n = 99;
    memset(bytes, 99, sizeof bytes);
    same("a byte short", wg_write_group(two_entries, WG_ENTRIES(2), bytes, 4, &n), 13);
    same("a byte short", n, 0);
    same_bytes("a byte short", bytes, untouched, 6);
    same("{7:2, 8:3}", wg_write_group(two_entries, WG_ENTRIES(2), bytes, sizeof bytes, &n), 0);
    same("{7:2, 8:3}", n, 5);
    same_bytes("{7:2, 8:3}", bytes, with_more, 6);
    n = 99;
    same("a word short", wg_read_group(two_bytes, 5, entries, 3, &n), 13);
    same("a word short", n, 0);
    same_words("a word short", entries, untouched_words, 5);
    same("2, 7, 1, 0, 2", wg_read_group(two_bytes, 5, entries, 5, &n), 0);
    same("2, 7, 1, 0, 2", n, 2);
    same_words("2, 7, 1, 0, 2", entries, more_words, 5);
}

static void no_group_in(const char *what, const uint8_t *bytes, size_t n) {
    uint64_t entries[WG_ENTRIES(WG_GROUP_ENTRIES)];
    size_t count = 99;
    same(what, wg_read_group(bytes, n, entries, WG_ENTRIES(WG_GROUP_ENTRIES), &count), 17);
    same(what, count, 0);
}

static void no_groups(void) {
    static const uint8_t padded[6] = {2, 7, 1, 128, 0, 2}, left_over[6] = {2, 7, 1, 0, 2, 0}, long_length[7] = {1, 7, 255, 255, 255, 255, 15};
    static const uint8_t past_64_bits[12] = {1, 128, 128, 128, 128, 128, 128, 128, 128, 128, 2, 0};
    static const uint8_t past_the_last_id[14] = {2, 255, 255, 255, 255, 255, 255, 255, 255, 255, 1, 0, 0, 0};
    static const uint64_t equal[4] = {7, 2, 7, 3}, no_length[2] = {7, 0};
    uint64_t many[WG_ENTRIES(65)], k;
    uint8_t bytes[WG_GROUP_MAX];
    size_t n;
    no_group_in("no bytes", two_bytes, 0);
    for (k = 0; k < 5; k++) no_group_in("cut short", two_bytes, (size_t)k);
    no_group_in("left over", left_over, 6);
    no_group_in("padded", padded, 6);
    no_group_in("a length of M + 1", long_length, 7);
    no_group_in("a number of 65 bits", past_64_bits, 12);
    no_group_in("an id of 65 bits", past_the_last_id, 14);
    for (k = 0; k < 65; k++) {
        many[2 * k] = k;
        many[2 * k + 1] = 1;
    }
    same("64 entries", wg_write_group(many, WG_ENTRIES(64), bytes, sizeof bytes, &n), 0);
    same("64 entries", n, 129);
    same("65 entries", wg_write_group(many, WG_ENTRIES(65), bytes, sizeof bytes, &n), 17);
    same("three words", wg_write_group(many, 3, bytes, sizeof bytes, &n), 17);
    same("equal ids, and no room", wg_write_group(equal, 4, bytes, 0, &n), 17);
    same("no length", wg_write_group(no_length, 2, bytes, sizeof bytes, &n), 17);
    same("no length", n, 0);
}

/* The ids as far apart as 64 of them can be, with the largest length. */
static void the_longest_group(void) {
    uint64_t entries[WG_ENTRIES(64)], id = UINT64_C(1) << 63, k;
    uint8_t bytes[WG_GROUP_MAX];
    size_t n;
    for (k = 0; k < 64; k++, id += (UINT64_C(1) << 56) + 1) {
        entries[2 * k] = id;
        entries[2 * k + 1] = M;
    }
    same("the longest group", wg_write_group(entries, WG_ENTRIES(64), bytes, sizeof bytes, &n), 0);
    same("the longest group", n, 898);
    same("no entries", wg_write_group(entries, 0, bytes, 1, &n), 0);
    same("no entries", n, 1);
    same("no entries", bytes[0], 0);
}

static void absorbed(void) {
    static const uint64_t before[6] = {7, 2, 9, 1, 0, 0}, after[6] = {7, 2, 8, 3, 9, 1};
    static const uint8_t empty[1] = {0};
    static wg_ledger ledger_before;
    wg_run run = run_of(3);
    uint64_t rose = 99;
    lay(words + 6, before, 3);
    ledger_before = ledger;
    same("absorbed", wg_take_in(&run, 1, two_bytes, 5, &rose), 0);
    same("absorbed", rose, 1);
    same_table("absorbed", words + 6, after, 3);
    same("absorbed, the other site", words[1], 0);
    same("absorbed, the ledger", (uint64_t)memcmp(&ledger_before, &ledger, sizeof ledger), 0);
    same("absorbed again", wg_take_in(&run, 1, two_bytes, 5, &rose), 0);
    same("absorbed again", rose, 0);
    same("no group", wg_take_in(&run, 1, two_bytes, 4, &rose), 17);
    same("no site and no group", wg_take_in(&run, 2, two_bytes, 4, &rose), 3);
    run = run_of(2);
    lay(words + 4, before, 2);
    same("no room", wg_take_in(&run, 1, two_bytes, 5, &rose), 8);
    same("no room", rose, 0);
    same_table("no room", words + 4, before, 2);
    same("no room and no group", wg_take_in(&run, 1, two_bytes, 4, &rose), 17);
    run = run_of(0);
    same("no entries into no table", wg_take_in(&run, 0, empty, 1, &rose), 0);
    words[0] = 1; /* an id without a length, in a run of capacity 1 */
    run.capacity = 1;
    run.n_words = 4;
    same("unsound and no site", wg_take_in(&run, 9, two_bytes, 4, &rose), 2);
    run.n_words = 3;
    same("sizes", wg_take_in(&run, 9, two_bytes, 4, &rose), 1);
}

/* ---- one repair round: three sites, of which each has a length or an id that the others lack ---- */

static uint64_t round_words[3 * 2 * 4];

static wg_run three_sites(uint64_t capacity) {
    static const uint64_t tables[3][6] = {{7, 1, 8, 2, 0, 0}, {7, 2, 8, 1, 9, 1}, {7, 3, 8, 1, 10, 4}};
    wg_run run = run_of(0);
    uint64_t k;
    run.words = round_words;
    run.n_words = WG_WORDS(3, capacity);
    run.sites = 3;
    run.capacity = capacity;
    same("fresh", wg_start(&run, 5), 0);
    for (k = 0; k < 3; k++) lay(round_words + k * 2 * capacity, tables[k], 3);
    return run;
}

static void a_round(void) {
    static const uint64_t all[8] = {7, 3, 8, 2, 9, 1, 10, 4};
    static wg_ledger ledger_before;
    wg_run run = three_sites(4);
    uint64_t slot, done = 99, k;
    same("send", wg_send(&run, 2, 0, 10, &slot), 0);
    ledger_before = ledger;
    for (k = 0; k < 2; k++) { /* and once more, with equal tables */
        done = 99;
        same("a round", wg_level(&run, &done), 0);
        same("its merges", done, 4);
        same_table("a round, site 0", round_words, all, 4);
        same_table("a round, site 1", round_words + 8, all, 4);
        same_table("a round, site 2", round_words + 16, all, 4);
        same("a round, the parcel", slots[slot].id, 10);
        same("a round, the ledger", (uint64_t)memcmp(&ledger_before, &ledger, sizeof ledger), 0);
    }
}

static void refused_rounds(void) {
    static uint64_t before[3 * 2 * 3];
    static const uint64_t full[4] = {7, 1, 8, 2};
    wg_run run = three_sites(3);
    uint64_t done = 99;
    memcpy(before, round_words, sizeof before);
    same("four ids, three places", wg_level(&run, &done), 8);
    same("four ids, three places", done, 0);
    same_words("four ids, three places", round_words, before, 18);
    round_words[1] = 0; /* an id without a length */
    done = 99;
    same("unsound and no room", wg_level(&run, &done), 2);
    same("unsound and no room", done, 0);
    run.n_words = 17;
    done = 99;
    same("sizes and unsound", wg_level(&run, &done), 1);
    same("sizes and unsound", done, 0);
    run = run_of(2);
    run.sites = 1;
    run.n_words = WG_WORDS(1, 2);
    lay(words, full, 2);
    done = 99;
    same("one site", wg_level(&run, &done), 0);
    same("one site", done, 0);
    same_table("one site", words, full, 2);
}

static const char sample[] =
    "step=add node=0 id=7\nstep=add node=1 id=7\nstep=send from=1 to=2 id=7\nstep=deliver slot=0\nstep=remove node=0 id=7\n"
    "step=remove node=1 id=7\nstep=remove node=2 id=7\nstep=add node=1 id=7\nstep=send from=0 to=1 id=7\nstep=again slot=0\n"
    "step=deliver slot=1\nstep=lose slot=0\nstep=deliver slot=0\nstep=merge from=1 to=2\nstep=remove node=2 id=7\n"
    "step=query node=1 id=7\nstep=query node=2 id=7\n";
static const char sample_report[] =
    "line=13 refused=5\nline=16 node=1 id=7 length=3 present=1\nline=17 node=2 id=7 length=4 present=0\n"
    "sent=2\ncopied=1\nabsorbed=2\nlost=1\nwaiting=0\nnode=0 held=1 shown=0\nnode=1 held=1 shown=1\nnode=2 held=1 shown=0\n";

static uint8_t input[WG_INPUT_MAX + 1], out[WG_REPORT_MAX];

static void same_report(const char *what, size_t n, const char *want) {
    size_t written;
    same(what, wg_report(input, n, out, sizeof out, &written), 0);
    if (written == strlen(want) && memcmp(out, want, written) == 0) return;
    printf("marked: %s: the report is another\n%.*s", what, (int)written, (const char *)out);
    wrong = 1;
}

/* 2,000 bytes of the sample, over and over: the report is taken into a buffer of its own length, and one byte less is left as it was. */
static void exact_room(void) {
    size_t n = 2000, k, whole, written = 1;
    for (k = 0; k < n; k++) input[k] = (uint8_t)sample[k % (sizeof sample - 1)];
    same("2,000 bytes", wg_report(input, n, out, sizeof out, &whole), 0);
    memset(out, 7, sizeof out);
    same("a byte short", wg_report(input, n, out, whole - 1, &written), 13);
    same("a byte short", written, 0);
    for (k = 0; k < whole + 1; k++) same("a byte short", out[k], 7);
    same("its own length", wg_report(input, n, out, whole, &written), 0);
    same("its own length", written, whole);
    same("the byte behind", out[whole], 7);
}

static void reports(void) {
    size_t written = 1;
    memcpy(input, sample, sizeof sample - 1);
    same_report("the sample report", sizeof sample - 1, sample_report);
    exact_room();
    memset(input, 10, sizeof input);
    written = 1;
    same("32,769 bytes", wg_report(input, WG_INPUT_MAX + 1, out, sizeof out, &written), 12);
    same("32,769 bytes", written, 0);
    same("32,768 empty lines", wg_report(input, WG_INPUT_MAX, out, sizeof out, &written), 0);
    same("32,768 empty lines", written, 709900);
}

static void lines(void) {
    static const char text[] = "step=send from=18446744073709551615 to=18446744073709551615 id=18446744073709551615";
    uint8_t area[WG_AREA], back[WG_LINE_MAX];
    wg_run run = run_of(2);
    uint64_t value;
    same("the longest line", sizeof text - 1, WG_LINE_MAX);
    same("the longest line", wg_read_line((const uint8_t *)text, WG_LINE_MAX, area, sizeof area), 0);
    same("its kind", wg_number(area, 0), WG_SEND);
    same("its second", wg_number(area, 2), UINT64_MAX);
    same("written back", wg_write_line(WG_SEND, UINT64_MAX, UINT64_MAX, UINT64_MAX, back, sizeof back), WG_LINE_MAX);
    same("written back", (uint64_t)memcmp(back, text, WG_LINE_MAX), 0);
    same("a line as a step", wg_do_line(&run, (const uint8_t *)"step=add node=1 id=5", 20, &value), 0);
    same("a line as a step", value, 1);
    same("a padded line as a step", wg_do_line(&run, (const uint8_t *)"step=query node=01 id=05", 24, &value), 0);
    same("a padded line as a step", value, 1);
    same("no line as a step", wg_do_line(&run, (const uint8_t *)"step=add node=1 id=+5", 21, &value), 11);
}

/* A line whose id has these digits, read, and written back from its numbers. */
static void one_padded(const char *digits, uint32_t refusal, uint64_t id, const char *back) {
    char line[WG_LINE_MAX];
    uint8_t area[WG_AREA], written[WG_LINE_MAX];
    size_t n;
    strcpy(line, "step=query node=0 id=");
    strcat(line, digits);
    same(line, wg_read_line((const uint8_t *)line, strlen(line), area, sizeof area), refusal);
    if (refusal != 0) return;
    same(line, wg_number(area, 3), id);
    n = wg_write_line(WG_QUERY, wg_number(area, 1), wg_number(area, 2), wg_number(area, 3), written, sizeof written);
    same(line, n, strlen(back));
    same(line, (uint64_t)memcmp(written, back, n), 0);
}

/* Request 5: up to 20 digits with zeros in front, where the value fits 64 bits. */
static void padded_lines(void) {
    one_padded("00000000000000000007", 0, 7, "step=query node=0 id=7");
    one_padded("00000000000000000000", 0, 0, "step=query node=0 id=0");
    one_padded("09999999999999999999", 0, UINT64_C(9999999999999999999), "step=query node=0 id=9999999999999999999");
    one_padded("18446744073709551615", 0, UINT64_MAX, "step=query node=0 id=18446744073709551615");
    one_padded("18446744073709551616", 11, 0, "");
    one_padded("99999999999999999999", 11, 0, "");
    one_padded("000000000000000000007", 11, 0, "");
    one_padded("000000000000000000000", 11, 0, "");
}

int main(void) {
    uint32_t k;
    one_id();
    largest_lengths();
    merges();
    no_room();
    burst();
    wrap();
    lags();
    no_order();
    other_pairs();
    the_marked_group();
    no_groups();
    the_longest_group();
    absorbed();
    a_round();
    refused_rounds();
    reports();
    lines();
    padded_lines();
    for (k = 0; k < 19; k++)
        if (wg_refusal_text(k)[0] == 0) wrong = 1;
    if (!wrong)
        printf("marked: P1 to P12, the burst, the serials, the groups, the round, the sample report, the longest line, padded lines and the longest report "
               "are as the rules say\n");
    return wrong;
}
