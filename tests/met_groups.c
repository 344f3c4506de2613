/* met_groups.c: what was met of groups. */
#include "met.h"

#include "groups.h"

#define M UINT64_C(4294967295)

enum {
    RAREST_WRITTEN, RAREST_READ, RAREST_ABSORBED, RAREST_ID_WIDTH, RAREST_LENGTH_WIDTH, /* filled in by the end */
    LONGEST, ID_0, ID_LAST, LENGTH_M,
    ROOM_SHORT, ROOM_EXACT, ROOM_MORE, ROOM_NONE, ROOM_MOST, WORDS_SHORT, WORDS_EXACT, WORDS_MORE, WORDS_NONE, WORDS_MOST,
    EVERY_BIT,
    EMPTY_GROUP, EMPTY_TABLE, FITS, ONE_TOO_MANY, SPARE, FULL_AND_RISES, NOTHING, ALL_RISE, NO_CAPACITY, LARGEST,
    WRONG_AND_NO_ROOM, WRONG_AND_NO_SITE,
    EVENTS
};

const char *const group_names[] = {
    "the rarest size written", "the rarest size read", "the rarest size absorbed", "the rarest width of an id or gap", "the rarest width of a length",
    "898 bytes", "id 0", "largest id", "length M",
    "a byte short", "just fits", "a byte more", "no byte", "961 bytes", "a word short", "as many words", "a word more", "no word", "128 words",
    "every bit of every byte turned",
    "none into a table", "into an empty table", "table just fits", "one entry too many", "room to spare", "full table that rises", "nothing rises",
    "every entry rises", "none into no table", "2,048 entries",
    "no group and no room", "no group and no site",
};

uint64_t groups[EVENTS];
const int group_count = EVENTS;

static uint64_t sizes[3][WG_GROUP_ENTRIES + 1], id_widths[10], length_widths[5];
static uint64_t wrong_bytes[3][BYTE_DAMAGES], wrong_words[2][WORD_DAMAGES];

static int place_of(int call) { return call == WRITE_GROUP ? 0 : call == READ_GROUP ? 1 : 2; }

void meet_group(int call, const uint64_t *entries, size_t count, size_t bytes) {
    size_t k;
    sizes[place_of(call)][count]++;
    groups[LONGEST] += bytes == 898;
    for (k = 0; k < count; k++) {
        uint64_t id = entries[2 * k], least = k == 0 ? 0 : entries[2 * k - 2] + 1;
        id_widths[width_of(id - least) - 1]++;
        length_widths[width_of(entries[2 * k + 1] - 1) - 1]++;
        groups[ID_0] += id == 0;
        groups[ID_LAST] += id == UINT64_MAX;
        groups[LENGTH_M] += entries[2 * k + 1] == M;
    }
}

void meet_room(int call, size_t has, size_t needs) {
    uint64_t *of = groups + (call == WRITE_GROUP ? ROOM_SHORT : WORDS_SHORT);
    of[0] += has + 1 == needs;
    of[1] += has == needs;
    of[2] += has == needs + 1;
    of[3] += has == 0 && needs > 1;
    of[4] += has == (call == WRITE_GROUP ? 961u : 128u);
}

void meet_every_bit(void) { groups[EVERY_BIT]++; }

/* Once with room for anything, once with none, where 13 would come next. */
void meet_word_damage(unsigned way, size_t has) { wrong_words[has == 0][way] += has == 0 || has >= 961; }
void meet_byte_damage(unsigned way, size_t has) { wrong_bytes[has == 0][way] += has == 0 || has >= 128; }

void meet_wrong_absorb(unsigned way, int no_room) {
    wrong_bytes[2][way]++;
    groups[WRONG_AND_NO_ROOM] += no_room != 0;
}

void meet_outside(int wrong) { groups[WRONG_AND_NO_SITE] += wrong != 0; }

void meet_absorb(const joint *before, const shape *s, uint32_t refusal, uint64_t rose) {
    groups[ONE_TOO_MANY] += refusal == 8 && before->all == s->capacity + 1;
    if (refusal != 0) return;
    groups[EMPTY_GROUP] += before->others == 0 && before->own > 0;
    groups[EMPTY_TABLE] += before->others > 0 && before->own == 0;
    groups[FITS] += before->all == s->capacity && before->all > before->own;
    groups[SPARE] += before->all < s->capacity && rose > 0;
    groups[FULL_AND_RISES] += before->own == s->capacity && rose > 0;
    groups[NOTHING] += rose == 0 && before->others > 0;
    groups[ALL_RISE] += rose == before->others && before->all < before->own + before->others;
    groups[NO_CAPACITY] += s->capacity == 0;
    groups[LARGEST] += before->all == WG_CAPACITY_MAX && rose > 0;
}

static uint64_t least_of(const uint64_t *counts, size_t n) {
    uint64_t least = counts[0];
    size_t k;
    for (k = 1; k < n; k++)
        if (counts[k] < least) least = counts[k];
    return least;
}

void sum_up_groups(void) {
    int k;
    for (k = 0; k < 3; k++) groups[RAREST_WRITTEN + k] = least_of(sizes[k], WG_GROUP_ENTRIES + 1);
    groups[RAREST_ID_WIDTH] = least_of(id_widths, 10);
    groups[RAREST_LENGTH_WIDTH] = least_of(length_widths, 5);
}

const uint64_t *group_damage(int of, const char *const **names, int *n) {
    *names = of < 3 ? byte_damage_names : word_damage_names;
    *n = of < 3 ? BYTE_DAMAGES : WORD_DAMAGES;
    return of < 3 ? wrong_bytes[of] : wrong_words[of - 3];
}
