#include "cases.h"

#include <inttypes.h>
#include <stdio.h>
#include <string.h>

#include "compare.h"
#include "groups.h"
#include "met.h"
#include "model.h"

/* Just enough, one less, one more, none, the header's bound; or any. */
static size_t some_room_around(rng *r, size_t exact, size_t bound) {
    switch (below(r, 9)) {
    case 0: case 1: return exact > 0 ? exact - 1 : 0;
    case 2: return exact + 1;
    case 3: return 0;
    case 4: return bound;
    case 5: return (size_t)below(r, exact + 1);
    case 6: return exact + (size_t)below(r, 100);
    default: return exact;
    }
}

void tell_bytes(const uint8_t *bytes, size_t n) {
    size_t at = strlen(doing), k;
    for (k = 0; k < n && at + 8 < sizeof doing; k++) at += (size_t)snprintf(doing + at, sizeof doing - at, " %u", bytes[k]);
    if (k < n) snprintf(doing + at, sizeof doing - at, " ..");
}

static void tell_words(const uint64_t *words_told, size_t n) {
    size_t at = strlen(doing), k;
    for (k = 0; k < n && at + 26 < sizeof doing; k++) at += (size_t)snprintf(doing + at, sizeof doing - at, " %" PRIu64, words_told[k]);
    if (k < n) snprintf(doing + at, sizeof doing - at, " ..");
}

void place_bytes(rng *r, const uint8_t *bytes, size_t n) {
    area_place(&group_bytes, r, n);
    memcpy(group_bytes.start[0], bytes, n);
    area_share(&group_bytes);
}

/* ---- writing ---- */

static uint32_t do_write_group(rng *r, const uint64_t *entries, size_t n_words, size_t has) {
    static area *const areas[] = {&group_words, &group_bytes, &written, 0};
    area_place(&group_words, r, n_words * 8);
    memcpy(group_words.start[0], entries, n_words * 8);
    area_share(&group_words);
    area_place(&group_bytes, r, has);
    noise(r, &group_bytes);
    area_place(&written, r, sizeof(size_t));
    noise(r, &written);
    snprintf(doing, sizeof doing, "wg_write_group n_words=%zu room=%zu words", n_words, has);
    tell_words(entries, n_words);
    uint32_t a = wg_write_group(LIB(group_words, uint64_t), n_words, LIB(group_bytes, uint8_t), has, LIB(written, size_t));
    uint32_t b = model_write_group(MOD(group_words, uint64_t), n_words, MOD(group_bytes, uint8_t), has, MOD(written, size_t));
    same_answers(a, b, "refusal");
    same_areas(areas);
    if (b != 0) same_answers(*LIB(written, size_t), 0, "*written of a refusal (model: what it must be)");
    meet(WRITE_GROUP, b);
    return b;
}

/* What is written is read back: the library against itself. */
static void reads_back(const uint64_t *entries, size_t count) {
    uint64_t back[WG_ENTRIES(WG_GROUP_ENTRIES)];
    size_t many;
    if (wg_read_group(LIB(group_bytes, uint8_t), *LIB(written, size_t), back, WG_ENTRIES(WG_GROUP_ENTRIES), &many) != 0 || many != count ||
        memcmp(back, entries, 16 * count) != 0)
        differ("the group written is read back otherwise");
}

static void write_right(rng *r, const uint64_t *entries, size_t count) {
    static fields f;
    static uint8_t bytes[GROUP_BYTES];
    size_t n, has;
    fields_of(entries, count, &f);
    n = join_fields(&f, bytes);
    has = some_room_around(r, n, WG_GROUP_MAX);
    meet_room(WRITE_GROUP, has, n);
    if (do_write_group(r, entries, 2 * count, has) != (has < n ? 13u : 0u)) differ("a group of %zu bytes is refused otherwise than by its room", n);
    if (has < n) return;
    if (*LIB(written, size_t) != n || memcmp(group_bytes.start[0], bytes, n) != 0) differ("the bytes are not those of the numbers");
    reads_back(entries, count);
    meet_group(WRITE_GROUP, entries, count, n);
}

static void write_wrong(rng *r, uint64_t *entries, size_t count) {
    unsigned way = (unsigned)below(r, WORD_DAMAGES);
    size_t n_words, has = one_in(r, 2) ? WG_GROUP_MAX : one_in(r, 2) ? 0 : (size_t)below(r, 40);
    if (!damaged_words(r, way, entries, count, &n_words)) return;
    meet_word_damage(way, has);
    if (do_write_group(r, entries, n_words, has) != 17) differ("entries with %s are taken for a group", word_damage_names[way]);
}

/* ---- reading ---- */

static uint32_t do_read_group(rng *r, const uint8_t *bytes, size_t n, size_t has) {
    static area *const areas[] = {&group_words, &group_bytes, &entry_count, 0};
    place_bytes(r, bytes, n);
    area_place(&group_words, r, has * 8);
    noise(r, &group_words);
    area_place(&entry_count, r, sizeof(size_t));
    noise(r, &entry_count);
    snprintf(doing, sizeof doing, "wg_read_group n=%zu n_words=%zu bytes", n, has);
    tell_bytes(bytes, n);
    uint32_t a = wg_read_group(LIB(group_bytes, uint8_t), n, LIB(group_words, uint64_t), has, LIB(entry_count, size_t));
    uint32_t b = model_read_group(MOD(group_bytes, uint8_t), n, MOD(group_words, uint64_t), has, MOD(entry_count, size_t));
    same_answers(a, b, "refusal");
    same_areas(areas);
    if (b != 0) same_answers(*LIB(entry_count, size_t), 0, "*count of a refusal (model: what it must be)");
    meet(READ_GROUP, b);
    return b;
}

/* Bytes that are read are written back byte for byte: the library against itself, and what makes a group have one string of bytes. */
static void writes_back(const uint8_t *bytes, size_t n) {
    uint8_t back[WG_GROUP_MAX];
    size_t many;
    if (wg_write_group(LIB(group_words, uint64_t), WG_ENTRIES(*LIB(entry_count, size_t)), back, sizeof back, &many) != 0 || many != n ||
        memcmp(back, bytes, n) != 0)
        differ("the group read is written back otherwise");
}

static void read_any(rng *r, const uint8_t *bytes, size_t n, size_t has) {
    if (do_read_group(r, bytes, n, has) == 0) writes_back(bytes, n);
}

/* Cut at every place, and each bit of each byte turned over. */
static void read_around(rng *r, uint8_t *bytes, size_t n, size_t words_needed) {
    size_t k, bit;
    for (k = 0; k < n; k++)
        if (do_read_group(r, bytes, k, words_needed) != 17) differ("the first %zu of %zu bytes are taken for a group", k, n);
    if (n > 64) return;
    for (k = 0; k < n; k++)
        for (bit = 0; bit < 8; bit++) {
            bytes[k] ^= (uint8_t)(1u << bit);
            read_any(r, bytes, n, words_needed + 2);
            bytes[k] ^= (uint8_t)(1u << bit);
        }
    meet_every_bit();
}

static void read_right(rng *r, const uint64_t *entries, size_t count) {
    static fields f;
    static uint8_t bytes[GROUP_BYTES];
    size_t n, has = some_room_around(r, 2 * count, WG_ENTRIES(WG_GROUP_ENTRIES));
    fields_of(entries, count, &f);
    n = join_fields(&f, bytes);
    meet_room(READ_GROUP, has, 2 * count);
    if (do_read_group(r, bytes, n, has) != (has < 2 * count ? 13u : 0u)) differ("a group of %zu entries is refused otherwise than by its room", count);
    if (has >= 2 * count) {
        if (*LIB(entry_count, size_t) != count || memcmp(group_words.start[0], entries, 16 * count) != 0) differ("the entries are not those of the numbers");
        writes_back(bytes, n);
        meet_group(READ_GROUP, entries, count, n);
    }
    if (one_in(r, 24)) read_around(r, bytes, n, 2 * count);
}

static void read_wrong(rng *r, const uint64_t *entries, size_t count) {
    static uint8_t bytes[GROUP_BYTES];
    unsigned way = (unsigned)below(r, BYTE_DAMAGES);
    size_t n, has = one_in(r, 2) ? WG_ENTRIES(MANY_ENTRIES) : one_in(r, 2) ? 0 : (size_t)below(r, 128);
    if (!damaged_bytes(r, way, entries, count, bytes, &n)) return;
    meet_byte_damage(way, has);
    if (do_read_group(r, bytes, n, has) != 17) differ("bytes with %s are taken for a group", byte_damage_names[way]);
}

static void read_scrambled(rng *r, const uint64_t *entries, size_t count) {
    static fields f;
    static uint8_t bytes[GROUP_BYTES];
    size_t n;
    fields_of(entries, count, &f);
    n = scrambled_bytes(r, bytes, join_fields(&f, bytes));
    read_any(r, bytes, n, WG_ENTRIES(WG_GROUP_ENTRIES));
}

void case_group(rng *r) {
    static uint64_t entries[GROUP_WORDS + 2];
    size_t count = some_group_size(r);
    some_entries(r, entries, count);
    write_right(r, entries, count);
    read_right(r, entries, count);
    read_wrong(r, entries, count);
    read_scrambled(r, entries, count);
    write_wrong(r, entries, count); /* the last, since it changes the entries */
}
