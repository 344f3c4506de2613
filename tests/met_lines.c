/* met_lines.c: what was met of numbers in lines, by the name that a number stands behind and by how many digits it has. */
#include "met.h"

#include <string.h>

#include "compare.h"

enum { FIELDS = 5, MOST = 20 };

static const char *const names[FIELDS] = {"node=", "from=", "to=", "slot=", "id="};

/* How often a number of so many digits was padded, where the line was read; and, at MOST + 1, where it alone had too many and the line was not. */
static uint64_t padded[FIELDS][MOST + 2], zeros[FIELDS];

const char *const line_names[] = {
    "the rarest padded length at node", "at from", "at to", "at slot", "at id",
    "20 zeros at node", "at from", "at to", "at slot", "at id",
    "21 digits at node alone", "at from", "at to", "at slot", "at id",
};

uint64_t lines[3 * FIELDS];
const int line_count = 3 * FIELDS;

/* The digits that stand behind the name of a field; 0 where the line has no such field. */
static size_t digits_of(int field, const uint8_t *line, size_t n, const uint8_t **first) {
    size_t named = strlen(names[field]), k, many = 0;
    for (k = 0; k + named <= n; k++) {
        if (memcmp(line + k, names[field], named) != 0) continue;
        *first = line + k + named;
        while (k + named + many < n && (*first)[many] >= '0' && (*first)[many] <= '9') many++;
        return many;
    }
    return 0;
}

void meet_line(const uint8_t *line, size_t n, uint32_t refusal) {
    size_t many[FIELDS], too_long = 0;
    const uint8_t *first[FIELDS];
    int f;
    for (f = 0; f < FIELDS; f++) {
        many[f] = digits_of(f, line, n, &first[f]);
        too_long += many[f] > MOST;
    }
    if (refusal != 13 && (refusal == 11) != (too_long > 0)) differ("a line that was not damaged, with %zu numbers too long", too_long);
    for (f = 0; f < FIELDS; f++) {
        if (many[f] < 2 || *first[f] != '0' || (many[f] <= MOST) != (refusal == 0) || too_long > 1) continue;
        padded[f][many[f]]++;
        zeros[f] += many[f] == MOST && memcmp(first[f], "00000000000000000000", MOST) == 0;
    }
}

void sum_up_lines(void) {
    int f, k;
    for (f = 0; f < FIELDS; f++) {
        lines[f] = padded[f][2];
        for (k = 3; k <= MOST; k++)
            if (padded[f][k] < lines[f]) lines[f] = padded[f][k];
        lines[FIELDS + f] = zeros[f];
        lines[2 * FIELDS + f] = padded[f][MOST + 1];
    }
}
