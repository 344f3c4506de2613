#include "cases.h"

#include <inttypes.h>
#include <stdio.h>
#include <stdlib.h>
#include <string.h>

#include "compare.h"
#include "met.h"
#include "model.h"
#include "texts.h"

/* ---- bulk membership ---- */

static int by_size(const void *a, const void *b) {
    uint64_t x = *(const uint64_t *)a, y = *(const uint64_t *)b;
    return x < y ? -1 : x > y;
}

static size_t some_ids_count(rng *r, int large) {
    if (one_in(r, 12)) return 4097 + (size_t)below(r, 3);
    if (large) return one_in(r, 2) ? 4096 : (size_t)below(r, 4097);
    return one_in(r, 12) ? 0 : (size_t)below(r, 40);
}

void case_members(rng *r, int large) {
    static area *const areas[] = {&words, &ids, &answers, 0};
    uint64_t capacity = large ? (one_in(r, 2) ? 2048 : below(r, 2049)) : below(r, 10);
    size_t n_words = (size_t)(2 * capacity), n_ids = some_ids_count(r, large), need = (n_ids + 7) / 8, n_answers = need, k;
    if (one_in(r, 12)) n_words = one_in(r, 2) ? n_words + 1 : 4097 + (size_t)below(r, 3);
    area_place(&words, r, n_words * 8);
    some_pool(r, &ids_of_case, (size_t)(1 + capacity + below(r, capacity + 2)));
    some_table(r, &ids_of_case, LIB(words, uint64_t), n_words / 2 < capacity ? n_words / 2 : capacity);
    if (one_in(r, 8)) damage_table(r, (unsigned)below(r, TABLE_DAMAGES), LIB(words, uint64_t), n_words / 2 < 2049 ? n_words / 2 : 2048);
    area_share(&words);
    area_place(&ids, r, n_ids * 8);
    for (k = 0; k < n_ids; k++) LIB(ids, uint64_t)[k] = some_id(r, &ids_of_case);
    if (one_in(r, 2)) qsort(LIB(ids, uint64_t), n_ids, 8, by_size);
    if (n_ids > 2 && one_in(r, 8)) { /* nearly rising */
        k = (size_t)below(r, n_ids);
        LIB(ids, uint64_t)[k] = some_id(r, &ids_of_case);
    }
    area_share(&ids);
    if (one_in(r, 4)) n_answers += (size_t)below(r, 20);
    if (one_in(r, 10)) n_answers = (size_t)below(r, need + 1);
    area_place(&answers, r, n_answers);
    noise(r, &answers);
    snprintf(doing, sizeof doing, "wg_members n_words=%zu n_ids=%zu n_answers=%zu", n_words, n_ids, n_answers);
    uint32_t a = wg_members(LIB(words, uint64_t), n_words, LIB(ids, uint64_t), n_ids, LIB(answers, uint8_t), n_answers);
    uint32_t b = model_members(MOD(words, uint64_t), n_words, MOD(ids, uint64_t), n_ids, MOD(answers, uint8_t), n_answers);
    same_answers(a, b, "refusal");
    same_areas(areas);
    meet(MEMBERS, b);
}

/* ---- lines ---- */

static void do_write(rng *r, numbers n) {
    static area *const areas[] = {&room, 0};
    uint8_t full[128];
    size_t length = model_write_line(n.kind, n.first, n.second, n.id, full, sizeof full), has;
    uint32_t a, b;
    has = one_in(r, 3) ? length : one_in(r, 3) && length > 0 ? length - 1 : (size_t)below(r, 120);
    area_place(&room, r, has);
    noise(r, &room);
    snprintf(doing, sizeof doing, "wg_write_line kind=%" PRIu64 " first=%" PRIu64 " second=%" PRIu64 " id=%" PRIu64 " room=%zu",
             n.kind, n.first, n.second, n.id, has);
    a = wg_check_line(n.kind, n.first, n.second, n.id, has);
    b = model_check_line(n.kind, n.first, n.second, n.id, has);
    same_answers(a, b, "refusal of the check");
    same_answers(wg_write_line(n.kind, n.first, n.second, n.id, LIB(room, uint8_t), has),
                 model_write_line(n.kind, n.first, n.second, n.id, MOD(room, uint8_t), has), "bytes written");
    same_areas(areas);
    meet(CHECK, b);
    meet(WRITE, b);
}

void case_write(rng *r) {
    shape s = some_shape(r, 0);
    numbers n;
    some_pool(r, &ids_of_case, 8);
    n = some_numbers(r, &s, &ids_of_case);
    if (one_in(r, 2)) {
        n.first = any_width(r, 0);
        if (n.second != 0) n.second = any_width(r, 0);
        if (n.id != 0) n.id = any_width(r, 0);
    }
    do_write(r, n);
    /* the check takes any room, as no buffer is lent to it */
    uint64_t any = edge(r);
    same_answers(wg_check_line(n.kind, n.first, n.second, n.id, (size_t)any), model_check_line(n.kind, n.first, n.second, n.id, (size_t)any),
                 "refusal of the check with any room");
}

static void one_read(rng *r) {
    static area *const areas[] = {&line, &room, 0};
    uint8_t text[LINE_ROOM * 2], bare[LINE_ROOM * 2], back[128];
    int whole = one_in(r, 3);
    size_t n = some_line(r, one_in(r, 3), text), has = one_in(r, 10) ? (size_t)below(r, 32) : one_in(r, 2) ? 32 : 32 + (size_t)below(r, 20), k;
    if (!whole) n = damage_line(r, text, n);
    if (!whole && one_in(r, 6)) n = damage_line(r, text, n);
    area_place(&line, r, n);
    memcpy(line.start[0], text, n);
    area_share(&line);
    area_place(&room, r, has);
    noise(r, &room);
    k = (size_t)snprintf(doing, sizeof doing, "wg_read_line n_area=%zu line=\"", has);
    for (size_t j = 0; j < n && k < sizeof doing - 8; j++)
        k += (size_t)snprintf(doing + k, sizeof doing - k, text[j] >= 32 && text[j] < 127 ? "%c" : "\\x%02x", text[j]);
    snprintf(doing + k, sizeof doing - k, "\"");
    uint32_t a = wg_read_line(LIB(line, uint8_t), n, LIB(room, uint8_t), has);
    uint32_t b = model_read_line(MOD(line, uint8_t), n, MOD(room, uint8_t), has);
    same_answers(a, b, "refusal");
    same_areas(areas);
    meet(READ, b);
    if (whole) meet_line(text, n, b);
    if (b != 0) return;
    if (n > WG_LINE_MAX) differ("a line of %zu bytes is read", n);
    /* a line that is read is written back without its padding */
    k = wg_write_line(wg_number(room.start[0], 0), wg_number(room.start[0], 1), wg_number(room.start[0], 2), wg_number(room.start[0], 3),
                      back, sizeof back);
    if (k != model_unpadded(text, n, bare) || memcmp(back, bare, k) != 0) differ("the line read is written back otherwise");
}

void case_read(rng *r) {
    int k;
    for (k = 0; k < 4; k++) one_read(r);
}

/* ---- reports ---- */

/* Room for the report of a text: its own length or the bound, mostly, and what stands next to them. */
static size_t some_room(rng *r, const uint8_t *text, size_t n) {
    static uint8_t whole[WG_REPORT_MAX];
    size_t bound = WG_REPORT_ROOM(n), exact, near;
    if (model_report(text, n, whole, sizeof whole, &exact) != 0) return (size_t)below(r, bound);
    near = one_in(r, 3) ? bound : exact;
    switch (below(r, 6)) {
    case 0: return near - 1;
    case 1: return near + 1;
    case 2: return near + (size_t)below(r, 100);
    case 3: return (size_t)below(r, near);
    default: return near;
    }
}

void case_report(rng *r, int large) {
    static area *const areas[] = {&input, &out, &written, 0};
    static uint8_t text[TEXT_MAX];
    size_t n, has;
    if (one_in(r, 7)) {
        n = 32769 + (one_in(r, 2) ? 0 : (size_t)below(r, 120));
        memset(text, 10, n);
    } else {
        n = some_text(r, text, large ? 32766 + (size_t)below(r, 3) : (size_t)below(r, one_in(r, 4) ? 40 : 700));
    }
    area_place(&input, r, n);
    memcpy(input.start[0], text, n);
    area_share(&input);
    has = some_room(r, text, n);
    area_place(&out, r, has);
    noise(r, &out);
    area_place(&written, r, sizeof(size_t));
    noise(r, &written);
    snprintf(doing, sizeof doing, "wg_report n=%zu room=%zu", n, has);
    uint32_t a = wg_report(LIB(input, uint8_t), n, LIB(out, uint8_t), has, LIB(written, size_t));
    uint32_t b = model_report(MOD(input, uint8_t), n, MOD(out, uint8_t), has, MOD(written, size_t));
    same_answers(a, b, "refusal");
    same_areas(areas);
    meet(REPORT, b);
}
