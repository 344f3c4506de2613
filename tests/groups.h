/* groups.h: groups and the strings of bytes that they make, right and damaged. */
#ifndef GROUPS_H
#define GROUPS_H

#include "random.h"

/* Entries are words, an id and a length each; up to MANY_ENTRIES of them, since too many are asked for too. */
enum { MANY_ENTRIES = 127, GROUP_WORDS = 2 * MANY_ENTRIES, GROUP_BYTES = 2200 };

/* So many entries with rising ids, of which gaps and lengths take every width that a number can have. */
void some_entries(rng *r, uint64_t *entries, size_t count);

/* 0 to 64, the ends often. */
size_t some_group_size(rng *r);

/* What a group's bytes are made of: the count, then two numbers for each entry. They are kept apart, so that one can be changed alone. */
typedef struct {
    size_t n;
    uint8_t byte[24];
} field;

typedef struct {
    size_t many;
    field field[1 + GROUP_WORDS];
} fields;

void fields_of(const uint64_t *entries, size_t count, fields *f);

/* The bytes of all fields, and how many they are. */
size_t join_fields(const fields *f, uint8_t *bytes);

/* Strings of bytes that are wrong in one way; none of them is a group. */
enum {
    CUT_SHORT, NO_BYTE, LEFT_OVER, PADDED, TOO_MANY, WIDE_COUNT, TEN_BYTES, ELEVEN_BYTES, GAPS_RUN_OUT, LENGTH_RUNS_OUT, COUNT_OFF_BY_ONE,
    BYTE_DAMAGES
};
extern const char *const byte_damage_names[BYTE_DAMAGES];

/* Makes such a string of n bytes from a group; 0 where the group has nothing that can be wrong so. */
int damaged_bytes(rng *r, unsigned way, const uint64_t *entries, size_t count, uint8_t *bytes, size_t *n);

/* The same for the words of a group. */
enum { ODD_WORDS, OVER_64, EQUAL_IDS, FALLING_IDS, NO_LENGTH, LONG_LENGTH, WORD_DAMAGES };
extern const char *const word_damage_names[WORD_DAMAGES];

int damaged_words(rng *r, unsigned way, uint64_t *entries, size_t count, size_t *n_words);

/* One byte is another one or is gone, or a few bytes that mean nothing: mostly no group, but now and then one. Returns how many bytes they are. */
size_t scrambled_bytes(rng *r, uint8_t *bytes, size_t n);

/* The bytes that a number takes. */
size_t width_of(uint64_t number);

#endif
