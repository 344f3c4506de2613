#include "texts.h"

#include <inttypes.h>
#include <stdio.h>
#include <string.h>

static uint64_t some_number(rng *r, int small, uint64_t few) {
    if (small) return below(r, few);
    switch (below(r, 5)) {
    case 0: return edge(r);
    case 1: return below(r, 20);
    case 2: return UINT64_MAX - below(r, 3);
    case 3: return any_width(r, 0);
    default: return 0;
    }
}

/* How many digits a number has at least: mostly as many as it needs, else any number of them, often the most that may stand there, now and then one more. */
static int some_digits(rng *r, int small) {
    if (!one_in(r, small ? 12 : 2)) return 1;
    return one_in(r, 3) ? 20 : one_in(r, 12) ? 21 : 2 + (int)below(r, 18);
}

#define NUMBER "%0*" PRIu64
#define DIGITS(n) some_digits(r, small), n

size_t some_line(rng *r, int small, uint8_t *line) {
    static const char *const at_node[] = {"add", "remove", "query"};
    static const char *const at_slot[] = {"deliver", "again", "lose"};
    uint64_t a = some_number(r, small, one_in(r, 12) ? 5 : 3), b = some_number(r, small, one_in(r, 12) ? 5 : 3);
    uint64_t id = some_number(r, small, 12), slot = some_number(r, small, one_in(r, 6) ? 10 : 4);
    char *text = (char *)line;
    uint64_t way = below(r, 10);
    int n, m, k;
    if (way < 5) {
        n = sprintf(text, "step=%s node=" NUMBER, at_node[way % 3], DIGITS(a));
        return (size_t)(n + sprintf(text + n, " id=" NUMBER, DIGITS(id)));
    }
    if (way < 8) {
        n = sprintf(text, "step=%s from=" NUMBER, way < 7 ? "send" : "merge", DIGITS(a));
        m = sprintf(text + n, " to=" NUMBER, DIGITS(b));
        k = way < 7 ? sprintf(text + n + m, " id=" NUMBER, DIGITS(id)) : 0;
        return (size_t)(n + m + k);
    }
    n = sprintf(text, "step=%s slot=", at_slot[below(r, 3)]);
    return (size_t)(n + sprintf(text + n, NUMBER, DIGITS(slot)));
}

static size_t insert(uint8_t *line, size_t n, size_t at, const char *what) {
    size_t more = strlen(what);
    memmove(line + at + more, line + at, n - at);
    memcpy(line + at, what, more);
    return n + more;
}

static size_t cut(uint8_t *line, size_t n, size_t at, size_t many) {
    memmove(line + at, line + at + many, n - at - many);
    return n - many;
}

/* The first place of a number of the line, chosen among its `=` that a digit follows; 0 where there is none. */
static size_t number_place(rng *r, const uint8_t *line, size_t n) {
    size_t k, found = 0;
    for (k = 1; k < n; k++)
        if (line[k - 1] == '=' && line[k] >= '0' && line[k] <= '9' && (found == 0 || one_in(r, 2))) found = k;
    return found;
}

/* Puts other digits in the place of one number. */
static size_t other_number(rng *r, uint8_t *line, size_t n) {
    static const char *const others[] = {
        "", "00", "01", "+1", "-1", "-0", "0x1", "1e3", " 1", "1 ", "1.0", "1,000", "18446744073709551616", "18446744073709551615",
        "18446744073709551620", "99999999999999999999", "36893488147419103232", "018446744073709551615", "000000000000000000007",
        "00000000000000000007", "00000000000000000000", "000000000000000000000", "0000000000000000000000000000000000000007", "018446744073709551616",
        "184467440737095516150", "100000000000000000000", "28446744073709551615", "1\n", "1/", "1:",
    };
    size_t at = number_place(r, line, n), many = 0;
    if (at == 0) return n;
    while (at + many < n && line[at + many] >= '0' && line[at + many] <= '9') many++;
    n = cut(line, n, at, many);
    return insert(line, n, at, others[below(r, sizeof others / sizeof *others)]);
}

size_t damage_line(rng *r, uint8_t *line, size_t n) {
    static const char *const bits[] = {" ", "\n", "\r", "\t", "=", "0", "9", "a", "s", "step=add ", " id=1", " to=1", " node=0", "\x80", "\xff"};
    size_t at = (size_t)below(r, n + 1);
    const char *bit = bits[below(r, sizeof bits / sizeof *bits)];
    switch (below(r, 11)) {
    case 0: return at < n ? cut(line, n, at, 1) : n;
    case 1: return insert(line, n, at, bit);
    case 2: return insert(line, n, n, bit);
    case 3:
        if (at < n) line[at] = (uint8_t)draw(r);
        return n;
    case 4:
        if (at < n) line[at] ^= (uint8_t)(1u << below(r, 8));
        return n;
    case 5: return at;
    case 6: /* two neighbours change places */
        if (at + 1 < n) {
            uint8_t keep = line[at];
            line[at] = line[at + 1];
            line[at + 1] = keep;
        }
        return n;
    case 7: /* random bytes, 0 among them */
        n = (size_t)below(r, 90);
        for (at = 0; at < n; at++) line[at] = (uint8_t)draw(r);
        return n;
    case 8: return n + 30 < LINE_ROOM - 30 ? insert(line, n, (size_t)below(r, 2) * n, " ") : n;
    default: return other_number(r, line, n);
    }
}

size_t some_text(rng *r, uint8_t *text, size_t most) {
    uint8_t line[LINE_ROOM];
    size_t n = 0, m;
    uint64_t bad = one_in(r, 3) ? 0 : 2 + below(r, 30);
    if (one_in(r, 12)) { /* line ends and little else: the longest reports */
        for (n = 0; n < most; n++) text[n] = one_in(r, 50) ? (uint8_t)draw(r) : 10;
        return n;
    }
    for (;;) {
        m = some_line(r, !one_in(r, 20), line);
        if (bad != 0 && one_in(r, bad)) m = damage_line(r, line, m);
        if (bad != 0 && one_in(r, 4 * bad)) m = 0;
        if (n + m + 1 > most) break;
        memcpy(text + n, line, m);
        n += m;
        text[n++] = 10;
    }
    if (n > 0 && one_in(r, 3)) return n - 1; /* a last step that lacks only its line end */
    /* else the rest is filled, so that the text has exactly that many bytes */
    while (n < most) text[n++] = one_in(r, 4) ? 10 : (uint8_t)('a' + below(r, 26));
    if (n > 0 && one_in(r, 2)) text[n - 1] = 10;
    return n;
}
