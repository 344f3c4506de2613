#include "met.h"

#include <inttypes.h>
#include <stdio.h>

#include "cases.h"
#include "compare.h"

static const struct {
    const char *name;
    unsigned can; /* bit k: refusal k */
} calls[ROWS] = {
    {"fresh", 1 << 0 | 1 << 1},
    {"add", 1 << 0 | 1 << 1 | 1 << 2 | 1 << 3 | 1 << 8 | 1 << 11},
    {"remove", 1 << 0 | 1 << 1 | 1 << 2 | 1 << 3 | 1 << 7 | 1 << 11},
    {"query", 1 << 0 | 1 << 1 | 1 << 2 | 1 << 3 | 1 << 11},
    {"send", 1 << 0 | 1 << 1 | 1 << 2 | 1 << 3 | 1 << 4 | 1 << 6 | 1 << 9 | 1 << 10},
    {"merge", 1 << 0 | 1 << 1 | 1 << 2 | 1 << 3 | 1 << 4 | 1 << 8 | 1 << 11},
    {"deliver", 1 << 0 | 1 << 1 | 1 << 2 | 1 << 5 | 1 << 8 | 1 << 10 | 1 << 11 | 1 << 15},
    {"again", 1 << 0 | 1 << 1 | 1 << 2 | 1 << 5 | 1 << 9 | 1 << 10 | 1 << 11},
    {"lose", 1 << 0 | 1 << 1 | 1 << 2 | 1 << 5 | 1 << 10 | 1 << 11},
    {"no kind", 1 << 11},
    {"burst", 1 << 0 | 1 << 1 | 1 << 2 | 1 << 11 | 1 << 13},
    {"lag", 1 << 0 | 1 << 1 | 1 << 2 | 1 << 3 | 1 << 4 | 1 << 15 | 1 << 16},
    {"write_group", 1 << 0 | 1 << 13 | 1 << 17},
    {"read_group", 1 << 0 | 1 << 13 | 1 << 17},
    {"absorb", 1 << 0 | 1 << 1 | 1 << 2 | 1 << 3 | 1 << 8 | 1 << 17},
    {"repair", 1 << 0 | 1 << 1 | 1 << 2 | 1 << 8},
    {"members", 1 << 0 | 1 << 1 | 1 << 2 | 1 << 13 | 1 << 14},
    {"read_line", 1 << 0 | 1 << 11 | 1 << 13},
    {"check_line", 1 << 0 | 1 << 11 | 1 << 13},
    {"write_line", 1 << 0 | 1 << 11 | 1 << 13},
    {"report", 1 << 0 | 1 << 12 | 1 << 13},
    {"burst step", 1 << 0 | 1 << 3 | 1 << 4 | 1 << 5 | 1 << 6 | 1 << 7 | 1 << 8 | 1 << 9 | 1 << 10 | 1 << 11 | 1 << 15},
};

enum { REFUSALS = 18, SELDOM = 1000 };

static uint64_t met[ROWS][REFUSALS], damaged[DAMAGES];

static int all_largest(const shape *s) { return s->sites == 16 && s->capacity == 2048 && s->n_slots == 1024; }

/* steps at each end of the sizes */
static uint64_t at_size[8];
static const char *const size_names[8] = {"1 site", "16 sites", "C = 0", "C = 1", "C = 2,048", "no slots", "1,024 slots", "all largest"};

void meet_size(const shape *s) {
    at_size[0] += s->sites == 1;
    at_size[1] += s->sites == 16;
    at_size[2] += s->capacity == 0;
    at_size[3] += s->capacity == 1;
    at_size[4] += s->capacity == 2048;
    at_size[5] += s->n_slots == 0;
    at_size[6] += s->n_slots == 1024;
    at_size[7] += all_largest(s);
}

/* accepted bursts at each end of their length, and in the largest state */
static uint64_t bursts[4];
static const char *const burst_names[4] = {"no step", "1 step", "1,000 steps", "all largest"};

void meet_burst(const shape *s, size_t steps) {
    bursts[0] += steps == 0;
    bursts[1] += steps == 1;
    bursts[2] += steps == LONGEST_BURST;
    bursts[3] += all_largest(s);
}

int call_of(uint64_t kind) { return kind >= 1 && kind <= 8 ? (int)kind : NO_KIND; }

void meet(int call, uint32_t refusal) {
    if (refusal >= REFUSALS || !(calls[call].can >> refusal & 1)) differ("%s is never refused with %" PRIu32, calls[call].name, refusal);
    met[call][refusal]++;
}

void meet_damage(unsigned way) { damaged[way]++; }

/* Each of these prints a part of what was met and returns how much of it was not. */

static int print_row(int call) {
    int k, missed = 0;
    printf("%-12s", calls[call].name);
    for (k = 0; k < REFUSALS; k++) {
        if (!(calls[call].can >> k & 1)) {
            printf("%9s", "");
            continue;
        }
        printf("%9" PRIu64, met[call][k]);
        if (met[call][k] == 0) missed++;
    }
    printf("\n");
    return missed;
}

static int print_refusals(void) {
    int c, k, missed = 0;
    uint64_t sum[REFUSALS] = {0};
    printf("%-12s", "refusal");
    for (k = 0; k < REFUSALS; k++) printf("%9d", k);
    printf("\n");
    for (c = 0; c < CALLS; c++) {
        missed += print_row(c);
        for (k = 0; k < REFUSALS; k++) sum[k] += met[c][k];
    }
    printf("%-12s", "all");
    for (k = 0; k < REFUSALS; k++) printf("%9" PRIu64, sum[k]);
    printf("\n");
    for (k = 1; k < REFUSALS; k++)
        if (sum[k] < SELDOM) missed++;
    for (c = LAG, k = 15; k <= 16; k++) missed += met[c][k] < SELDOM;
    missed += met[DELIVER][15] < SELDOM;
    for (c = WRITE_GROUP; c <= ABSORB; c++) missed += met[c][17] < SELDOM;
    missed += met[REPAIR][8] < SELDOM;
    return missed + print_row(IN_BURST);
}

static int print_damages(void) {
    int k, missed = 0;
    for (k = 0; k < DAMAGES; k++) {
        if (damaged[k] == 0) missed++;
        printf("damaged states, %s: %" PRIu64 "\n", damage_names[k], damaged[k]);
    }
    return missed;
}

static int print_counts(const char *what, const char *const *names, const uint64_t *counts, int n) {
    int k, missed = 0;
    for (k = 0; k < n; k++) {
        if (counts[k] == 0) missed++;
        printf("%s, %s: %" PRIu64, k == 0 ? what : "", names[k], counts[k]);
    }
    printf("\n");
    return missed;
}

static int print_groups(void) {
    static const char *const what[GROUP_DAMAGES] = {
        "bytes of no group", "bytes of no group, and no word", "bytes of no group, to absorb", "words of no group", "words of no group, and no byte",
    };
    const char *const *names;
    int k, n, missed;
    sum_up_groups();
    missed = print_counts("groups", group_names, groups, group_count);
    for (k = 0; k < GROUP_DAMAGES; k++) {
        const uint64_t *counts = group_damage(k, &names, &n);
        missed += print_counts(what[k], names, counts, n);
    }
    return missed;
}

int print_met(void) {
    int missed = print_refusals();
    missed += print_damages();
    missed += print_counts("steps at sizes", size_names, at_size, 8);
    missed += print_counts("bursts", burst_names, bursts, 4);
    missed += print_counts("serials", serial_names, serials, serial_count);
    missed += print_counts("merges", merge_names, merges, merge_count);
    missed += print_counts("repairs in two orders", repair_names, repairs, repair_count);
    sum_up_rounds();
    missed += print_counts("rounds", round_names, rounds, round_count);
    sum_up_lines();
    missed += print_counts("numbers in lines", line_names, lines, line_count);
    return missed + print_groups();
}
