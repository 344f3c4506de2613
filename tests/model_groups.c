/* model_groups.c: the part of the model that turns groups into bytes and bytes into groups. Numbers are chopped and put together as the DWARF
 * standard says it in words, seven bits at a time, and all is read into memory of its own before anything is written. */
#include "model.h"

#include <stdbool.h>
#include <string.h>

#define MOST_ENTRIES 64
#define LONGEST UINT64_C(4294967295)

/* ---- one number ---- */

/* LEB128 as the DWARF standard has it (section 7.6 of DWARF 5), without a sign: the number is cut into pieces of seven bits, the lowest first, pieces of
 * zeros at the high end are left out, and each byte but the last has its high bit set. Zero is one byte, 0. */
static size_t put_leb(uint8_t *out, uint64_t number) {
    uint8_t chunk[10];
    size_t k, many = 10;
    for (k = 0; k < 10; k++) {
        chunk[k] = (uint8_t)(number % 128);
        number = number / 128;
    }
    while (many > 1 && chunk[many - 1] == 0) many--;
    for (k = 0; k < many; k++) out[k] = k + 1 < many ? (uint8_t)(chunk[k] + 128) : chunk[k];
    return many;
}

/* The number that begins at bytes[*at], moved past; false where there is none of 64 bits in its shortest form. */
static bool take_leb(const uint8_t *bytes, size_t n, size_t *at, uint64_t *number) {
    size_t last = *at, k;
    while (last < n && bytes[last] >= 128) last++;
    if (last >= n) return false; /* "cut short" */
    if (last > *at && bytes[last] == 0) return false; /* "padding" */
    if (last - *at > 9) return false; /* eleven bytes have 71 bits at least */
    if (last - *at == 9 && bytes[last] > 1) return false; /* nine times seven are 63 */
    *number = 0;
    for (k = last + 1; k > *at; k--) *number = *number * 128 + bytes[k - 1] % 128;
    *at = last + 1;
    return true;
}

/* ---- groups ---- */

/* "groups of 0 to 64 entries, ids strictly rising"; not "odd word count", "id or length past its limit" */
static bool are_group(const uint64_t *entries, size_t n_words) {
    size_t k;
    if (n_words % 2 == 1) return false;
    if (n_words / 2 > MOST_ENTRIES) return false;
    for (k = 0; k < n_words / 2; k++) {
        if (k > 0 && entries[2 * k] <= entries[2 * k - 2]) return false;
        if (entries[2 * k + 1] < 1) return false;
        if (entries[2 * k + 1] > LONGEST) return false;
    }
    return true;
}

/* "the count; then for each entry the id (first entry) or the gap from the previous id less 1 (later entries), then the length less 1" */
static size_t bytes_of(const uint64_t *entries, size_t many, uint8_t *bytes) {
    size_t k, n = put_leb(bytes, many);
    for (k = 0; k < many; k++) {
        uint64_t id = entries[2 * k], length = entries[2 * k + 1];
        uint64_t first = id, gap = k > 0 ? id - entries[2 * k - 2] : 0;
        n += put_leb(bytes + n, k == 0 ? first : gap - 1);
        n += put_leb(bytes + n, length - 1);
    }
    return n;
}

uint32_t model_write_group(const uint64_t *entries, size_t n_words, uint8_t *out, size_t room, size_t *written) {
    uint8_t bytes[1000];
    size_t n;
    *written = 0; /* and so it stays on a refusal */
    if (!are_group(entries, n_words)) return 17;
    n = bytes_of(entries, n_words / 2, bytes);
    if (room < n) return 13;
    memcpy(out, bytes, n);
    *written = n;
    return 0;
}

/* One entry behind `before`, the one in front of it, or behind none. */
static bool take_entry(const uint8_t *bytes, size_t n, size_t *at, const uint64_t *before, uint64_t entry[2]) {
    uint64_t number, less;
    if (!take_leb(bytes, n, at, &number)) return false;
    if (!take_leb(bytes, n, at, &less)) return false;
    if (before && number >= UINT64_MAX - before[0]) return false; /* the id would be 2^64 or more */
    if (less >= LONGEST) return false;
    entry[0] = before ? before[0] + 1 + number : number;
    entry[1] = less + 1;
    return true;
}

static bool group_of(const uint8_t *bytes, size_t n, uint64_t entries[2 * MOST_ENTRIES], uint64_t *many) {
    size_t at = 0;
    uint64_t k;
    if (!take_leb(bytes, n, &at, many)) return false;
    if (*many > MOST_ENTRIES) return false;
    for (k = 0; k < *many; k++)
        if (!take_entry(bytes, n, &at, k > 0 ? entries + 2 * k - 2 : 0, entries + 2 * k)) return false;
    return at == n; /* no "bytes left over" */
}

uint32_t model_read_group(const uint8_t *bytes, size_t n, uint64_t *entries, size_t n_words, size_t *count) {
    uint64_t found[2 * MOST_ENTRIES], many;
    size_t k;
    *count = 0;
    if (!group_of(bytes, n, found, &many)) return 17;
    if (n_words < 2 * many) return 13;
    for (k = 0; k < 2 * many; k++) entries[k] = found[k];
    *count = (size_t)many;
    return 0;
}
