#include "groups.h"

#include <string.h>

#define M UINT64_C(4294967295)

/* ---- entries ---- */

size_t width_of(uint64_t number) {
    size_t width = 1;
    while (number >>= 7) width++;
    return width;
}

static uint64_t up_to(rng *r, uint64_t most) { return most == UINT64_MAX ? draw(r) : below(r, most + 1); }

/* A number that takes so many bytes, its ends often; any number where there is none of that width up to `most`. */
static uint64_t number_of_width(rng *r, unsigned width, uint64_t most) {
    uint64_t low = width == 1 ? 0 : UINT64_C(1) << 7 * (width - 1), high = width == 10 ? UINT64_MAX : (UINT64_C(1) << 7 * width) - 1;
    if (high > most) high = most;
    if (low > high) return up_to(r, most);
    switch (below(r, 4)) {
    case 0: return low;
    case 1: return high;
    default: return low + up_to(r, high - low);
    }
}

static uint64_t some_entry_length(rng *r) {
    unsigned width = 1 + (unsigned)below(r, 5);
    return one_in(r, 2) ? 1 + below(r, 4) : 1 + number_of_width(r, width, M - 1);
}

/* How far the next id lies above the least that it can be. */
static uint64_t some_gap(rng *r, unsigned style, size_t k, uint64_t most) {
    unsigned width = 1 + (unsigned)below(r, 10);
    uint64_t gap;
    switch (style) {
    case 0: gap = 0; break;
    case 1: gap = below(r, 300); break;
    case 2: gap = UINT64_C(1) << (k == 0 ? 63 : 56); break; /* the longest groups: one number of ten bytes, the others of nine */
    default: gap = number_of_width(r, width, most);
    }
    return gap < most ? gap : most;
}

void some_entries(rng *r, uint64_t *entries, size_t count) {
    unsigned style = (unsigned)below(r, 6);
    int long_lengths = one_in(r, 4);
    uint64_t least = style == 2 ? 0 : one_in(r, 2) ? 0 : any_width(r, 1);
    size_t k;
    for (k = 0; k < count; k++) {
        uint64_t id = least + some_gap(r, style, k, UINT64_MAX - least - (count - 1 - k));
        entries[2 * k] = id;
        entries[2 * k + 1] = long_lengths ? M - below(r, 2) : some_entry_length(r);
        least = id + 1; /* 0 behind the last id, and then there is no next one */
    }
}

size_t some_group_size(rng *r) {
    static const uint8_t often[] = {0, 1, 2, 3, 63, 64};
    if (one_in(r, 3)) return often[below(r, sizeof often)];
    return one_in(r, 2) ? (size_t)below(r, 9) : (size_t)below(r, 65);
}

/* ---- bytes ---- */

static void put_number(field *f, uint64_t number) {
    f->n = 0;
    do {
        f->byte[f->n] = (uint8_t)((number & 127) | (number > 127 ? 128 : 0));
        f->n++;
        number >>= 7;
    } while (number != 0);
}

void fields_of(const uint64_t *entries, size_t count, fields *f) {
    uint64_t least = 0;
    size_t k;
    f->many = 1 + 2 * count;
    put_number(&f->field[0], count);
    for (k = 0; k < count; k++) {
        put_number(&f->field[1 + 2 * k], entries[2 * k] - least);
        put_number(&f->field[2 + 2 * k], entries[2 * k + 1] - 1);
        least = entries[2 * k] + 1;
    }
}

size_t join_fields(const fields *f, uint8_t *bytes) {
    size_t k, n = 0;
    for (k = 0; k < f->many; k++) {
        memcpy(bytes + n, f->field[k].byte, f->field[k].n);
        n += f->field[k].n;
    }
    return n;
}

/* ---- damage ---- */

const char *const byte_damage_names[BYTE_DAMAGES] = {
    "cut short", "no byte at all", "bytes left over", "a number with padding", "65 entries and more", "a count of several bytes",
    "ten bytes past 64 bits", "eleven bytes and more", "gaps past the last id", "a length above M", "a count one off",
};

static uint64_t number_in(const field *f) {
    uint64_t number = 0;
    size_t k;
    for (k = f->n; k-- > 0;) number = number << 7 | (f->byte[k] & 127u);
    return number;
}

static void pad(rng *r, field *f) {
    size_t more = one_in(r, 2) ? 1 : 1 + (size_t)below(r, 10);
    while (more-- > 0) {
        f->byte[f->n - 1] |= 128;
        f->byte[f->n++] = 0;
    }
}

/* The same number modulo 2^64 in so many bytes, ten or more, the last of them not 0: a reader that lets bits go would take it. */
static void wrap(rng *r, field *f, size_t bytes) {
    uint64_t number = number_in(f);
    size_t k;
    for (k = 0; k < 10; k++) f->byte[k] = (uint8_t)((number >> 7 * k & 127) | 128);
    for (; k < bytes; k++) f->byte[k] = 128;
    if (bytes == 10) f->byte[9] = (uint8_t)(number >> 63 | (2 + 2 * below(r, 63)));
    else f->byte[bytes - 1] = (uint8_t)(1 + below(r, 127));
    f->n = bytes;
}

/* The number at the place as it would be read, in a field that is too wide for what it counts: its lowest 7, 8, 16 or 32 bits are right. */
static uint64_t with_high_bits(rng *r, uint64_t number) {
    static const uint8_t shifts[] = {7, 8, 16, 32};
    unsigned shift = shifts[below(r, sizeof shifts)];
    return number + ((1 + below(r, 100)) << shift);
}

static void fields_of_too_many(rng *r, fields *f) {
    uint64_t entries[GROUP_WORDS];
    size_t count = one_in(r, 2) ? 65 : 65 + (size_t)below(r, MANY_ENTRIES - 64);
    some_entries(r, entries, count);
    fields_of(entries, count, f);
}

/* Where an id begins; most often the last one, behind which nothing else is wrong. */
static size_t later_id(rng *r, size_t count) { return one_in(r, 2) ? count - 1 : 1 + (size_t)below(r, count - 1); }

static void gap_past_the_end(rng *r, const uint64_t *entries, size_t k, field *f) {
    uint64_t past = UINT64_MAX - entries[2 * k - 2], more = UINT64_MAX - past; /* a gap of `past`, less 1, would lead to 2^64 */
    put_number(f, one_in(r, 2) ? past : one_in(r, 3) ? UINT64_MAX : past + up_to(r, more));
}

static void length_past_m(rng *r, field *f) {
    switch (below(r, 4)) {
    case 0: case 1: put_number(f, M); break;
    case 2: put_number(f, number_in(f) + (UINT64_C(1) << 32)); break;
    default: put_number(f, one_in(r, 2) ? UINT64_MAX : M + 1 + any_width(r, 1));
    }
}

/* Changes one number, or two where the count is to be more than 64. */
static int damage_fields(rng *r, unsigned way, const uint64_t *entries, size_t count, fields *f) {
    field *any = &f->field[below(r, f->many)];
    size_t k;
    switch (way) {
    case PADDED: pad(r, any); return 1;
    case TOO_MANY: fields_of_too_many(r, f); return 1;
    case WIDE_COUNT: put_number(&f->field[0], with_high_bits(r, count)); return 1;
    case TEN_BYTES: wrap(r, any, 10); return 1;
    case ELEVEN_BYTES: wrap(r, any, one_in(r, 2) ? 11 : 11 + (size_t)below(r, 10)); return 1;
    case GAPS_RUN_OUT:
        if (count < 2) return 0;
        k = later_id(r, count);
        gap_past_the_end(r, entries, k, &f->field[1 + 2 * k]);
        return 1;
    case LENGTH_RUNS_OUT:
        if (count == 0) return 0;
        length_past_m(r, &f->field[2 + 2 * below(r, count)]);
        return 1;
    case COUNT_OFF_BY_ONE: put_number(&f->field[0], count == 0 || one_in(r, 2) ? count + 1 : count - 1); return 1;
    default: return 1;
    }
}

int damaged_bytes(rng *r, unsigned way, const uint64_t *entries, size_t count, uint8_t *bytes, size_t *n) {
    static fields f;
    size_t k;
    fields_of(entries, count, &f);
    if (!damage_fields(r, way, entries, count, &f)) return 0;
    *n = join_fields(&f, bytes);
    if (way == NO_BYTE) *n = 0;
    if (way == CUT_SHORT) *n = (size_t)below(r, *n);
    if (way == LEFT_OVER)
        for (k = 1 + (size_t)below(r, 3); k > 0; k--) bytes[(*n)++] = one_in(r, 2) ? 0 : (uint8_t)draw(r);
    return 1;
}

const char *const word_damage_names[WORD_DAMAGES] = {
    "an odd number of words", "65 entries and more", "two equal ids", "ids that fall", "a length of 0", "a length above M",
};

/* An id without its length behind the last entry, or the last length gone. */
static size_t odd_words(rng *r, uint64_t *entries, size_t count) {
    if (count > 0 && one_in(r, 2)) return 2 * count - 1;
    entries[2 * count] = count > 0 ? entries[2 * count - 2] + 1 : 1;
    return 2 * count + 1;
}

int damaged_words(rng *r, unsigned way, uint64_t *entries, size_t count, size_t *n_words) {
    size_t k = count > 1 ? later_id(r, count) : 0, any = count > 0 ? (size_t)below(r, count) : 0;
    *n_words = 2 * count;
    switch (way) {
    case ODD_WORDS: *n_words = odd_words(r, entries, count); return 1;
    case OVER_64:
        count = one_in(r, 2) ? 65 : 65 + (size_t)below(r, MANY_ENTRIES - 64);
        some_entries(r, entries, count);
        *n_words = 2 * count;
        return 1;
    case EQUAL_IDS:
        if (k == 0) return 0;
        entries[2 * k] = entries[2 * k - 2];
        return 1;
    case FALLING_IDS:
        if (k == 0 || entries[2 * k - 2] == 0) return 0;
        entries[2 * k] = one_in(r, 2) ? entries[2 * k - 2] - 1 : below(r, entries[2 * k - 2]);
        return 1;
    case NO_LENGTH:
        entries[2 * any + 1] = 0;
        return count > 0;
    default:
        entries[2 * any + 1] = one_in(r, 2) ? M + 1 : one_in(r, 2) ? UINT64_MAX : M + 1 + any_width(r, 1);
        return count > 0;
    }
}

size_t scrambled_bytes(rng *r, uint8_t *bytes, size_t n) {
    size_t k = (size_t)below(r, n);
    switch (below(r, 4)) {
    case 0: bytes[k] ^= (uint8_t)(1u << below(r, 8)); return n;
    case 1: bytes[k] = (uint8_t)draw(r); return n;
    case 2: memmove(bytes + k, bytes + k + 1, n - k - 1); return n - 1;
    default:
        n = 1 + (size_t)below(r, 40);
        for (k = 0; k < n; k++) bytes[k] = (uint8_t)(one_in(r, 2) ? below(r, 5) : draw(r));
        return n;
    }
}
