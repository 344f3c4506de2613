/* stack.c: how much stack the calls take at the largest sizes, against what the header promises. A thread runs them on memory of ours that was
 * filled with one byte before, and the lowest byte that changed tells. */
#define _POSIX_C_SOURCE 200809L
#include <pthread.h>
#include <stdio.h>
#include <stdlib.h>
#include <string.h>

#include "wiregantry.h"

enum { ROOM = 1 << 20, PAINT = 0x5a, BURST = 1000 };

static uint64_t words[WG_WORDS(WG_SITES_MAX, WG_CAPACITY_MAX)], ids[WG_MEMBERS_MAX];
static wg_parcel slots[WG_SLOTS_MAX];
static wg_ledger ledger;
static uint64_t asks[WG_ASKS(BURST)], burst_answers[WG_BURST_ANSWERS(BURST)];
static uint8_t answers[WG_ANSWERS(WG_MEMBERS_MAX)], input[WG_INPUT_MAX], out[WG_REPORT_MAX];

static void *nothing(void *unused) { return unused; }

static const wg_run run = {words, WG_WORDS(WG_SITES_MAX, WG_CAPACITY_MAX), slots, WG_SLOTS_MAX, &ledger, WG_SITES_MAX, WG_CAPACITY_MAX};

/* The first two tables with 1,000 ids each, a third of them common. */
static void start(void) {
    uint64_t k;
    wg_start(&run, UINT32_MAX);
    for (k = 0; k < 1000; k++) {
        words[2 * k] = 3 * k;
        words[2 * (WG_CAPACITY_MAX + k)] = 2 * k;
        words[2 * k + 1] = words[2 * (WG_CAPACITY_MAX + k) + 1] = 1 + k % 3;
    }
}

static void *steps(void *unused) {
    uint64_t value;
    int32_t lag;
    start();
    wg_add(&run, 0, 1, &value);
    wg_remove(&run, 0, 1, &value);
    wg_query(&run, 0, 1, &value);
    wg_send(&run, 0, 1, 1, &value);
    wg_again(&run, 0, &value);
    wg_deliver(&run, 0, &value);
    wg_lose(&run, 1);
    wg_merge(&run, 0, 1, &value);
    if (wg_behind(&run, 0, 1, &lag) != WG_ACCEPTED) exit(2);
    return unused;
}

/* The same steps, over and over with another id. */
static void *burst(void *unused) {
    static const uint64_t kinds[8][4] = {
        {WG_ADD, 0, 0, 1}, {WG_REMOVE, 0, 0, 1}, {WG_QUERY, 0, 0, 1}, {WG_SEND, 0, 1, 1},
        {WG_AGAIN, 0, 0, 0}, {WG_DELIVER, 0, 0, 0}, {WG_LOSE, 1, 0, 0}, {WG_MERGE, 0, 1, 0},
    };
    size_t k;
    start();
    for (k = 0; k < BURST; k++) {
        memcpy(asks + WG_ASKS(k), kinds[k % 8], sizeof kinds[0]);
        asks[WG_ASKS(k) + 3] *= 1 + k;
    }
    if (wg_do_all(&run, asks, BURST, burst_answers) != WG_ACCEPTED) exit(2);
    return unused;
}

/* A round at the largest sizes, where each site has 128 ids of its own and all of them just fit, and one that is refused. */
static void *repair(void *unused) {
    uint64_t merges, k;
    wg_start(&run, 0);
    for (k = 0; k < WG_CAPACITY_MAX; k++) {
        uint64_t *entry = words + 2 * (k % WG_SITES_MAX * WG_CAPACITY_MAX + k / WG_SITES_MAX);
        entry[0] = k;
        entry[1] = 1 + k % 3;
    }
    if (wg_level(&run, &merges) != WG_ACCEPTED || merges != 2 * (WG_SITES_MAX - 1)) exit(2);
    words[2 * WG_CAPACITY_MAX - 2] = UINT64_MAX; /* one id in the place of another, at site 0 alone */
    if (wg_level(&run, &merges) != WG_NO_ROOM) exit(2);
    return unused;
}

/* The longest group, written, read and absorbed at a site of the largest state. */
static void *groups(void *unused) {
    static uint64_t entries[WG_ENTRIES(WG_GROUP_ENTRIES)];
    static uint8_t bytes[WG_GROUP_MAX];
    uint64_t value, id = UINT64_C(1) << 63;
    size_t n, k, count;
    start();
    for (k = 0; k < WG_GROUP_ENTRIES; k++, id += (UINT64_C(1) << 56) + 1) {
        entries[2 * k] = id;
        entries[2 * k + 1] = WG_LENGTH_MAX;
    }
    if (wg_write_group(entries, WG_ENTRIES(WG_GROUP_ENTRIES), bytes, sizeof bytes, &n) != WG_ACCEPTED) exit(2);
    if (wg_read_group(bytes, n, entries, WG_ENTRIES(WG_GROUP_ENTRIES), &count) != WG_ACCEPTED) exit(2);
    if (wg_take_in(&run, 1, bytes, n, &value) != WG_ACCEPTED || value != WG_GROUP_ENTRIES) exit(2);
    return unused;
}

static void *members(void *unused) {
    size_t k;
    for (k = 0; k < WG_MEMBERS_MAX; k++) ids[k] = k * 7 % 4096;
    wg_members(words, 2 * WG_CAPACITY_MAX, ids, WG_MEMBERS_MAX, answers, sizeof answers);
    return unused;
}

static void *lines(void *unused) {
    uint8_t line[WG_LINE_MAX], area[WG_AREA];
    size_t n = wg_write_line(WG_SEND, UINT64_MAX, UINT64_MAX, UINT64_MAX, line, sizeof line);
    wg_read_line(line, n, area, sizeof area);
    return unused;
}

static void *report(void *unused) {
    static const char text[] = "step=add node=0 id=7\nstep=merge from=0 to=1\nstep=query node=1 id=7\n";
    size_t k, written;
    for (k = 0; k < sizeof input; k++) input[k] = (uint8_t)text[k % (sizeof text - 1)];
    wg_report(input, sizeof input, out, sizeof out, &written);
    wg_report(input, sizeof input, out, written, &written); /* measured first */
    return unused;
}

static size_t used_by(void *(*calls)(void *)) {
    static unsigned char *stack;
    pthread_attr_t attr;
    pthread_t thread;
    size_t k = 0;
    if (!stack && posix_memalign((void **)&stack, 65536, ROOM) != 0) exit(2);
    memset(stack, PAINT, ROOM);
    if (pthread_attr_init(&attr) != 0 || pthread_attr_setstack(&attr, stack, ROOM) != 0) exit(2);
    if (pthread_create(&thread, &attr, calls, 0) != 0 || pthread_join(thread, 0) != 0) exit(2);
    while (k < ROOM && stack[k] == PAINT) k++;
    return ROOM - k;
}

static size_t base; /* what a thread takes that calls nothing */

static size_t taken(const char *name, void *(*calls)(void *)) {
    size_t used = used_by(calls);
    used = used > base ? used - base : 0;
    printf("stack: %s: %zu bytes\n", name, used);
    return used;
}

int main(void) {
    static const struct {
        const char *name;
        void *(*calls)(void *);
    } all[] = {{"steps", steps}, {"burst", burst}, {"groups", groups}, {"members", members}, {"lines", lines}, {"report", report}};
    size_t k, most = 0, in_round;
    base = used_by(nothing);
    for (k = 0; k < sizeof all / sizeof *all; k++) {
        size_t used = taken(all[k].name, all[k].calls);
        if (used > most) most = used;
    }
    in_round = taken("repair", repair);
    printf("stack: at most %zu of the %u bytes that the header promises, and %zu of %u in a repair round\n", most, WG_STACK, in_round, WG_REPAIR_STACK);
    return most > WG_STACK || in_round > WG_REPAIR_STACK;
}
