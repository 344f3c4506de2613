/* met_merges.c: what was met of merges. What the tables tell is counted where the merge wrote: one that is refused, or in which nothing rises, has only
 * counted. */
#include "met.h"

#define M UINT64_C(4294967295)

enum {
    MANY, MANY_APART, MANY_ALIKE, THREE, FOUR, NINE, ALL_BUT_ONE,
    ALL_BELOW, ALL_ABOVE, LAST_OF_SOURCE, LAST_OF_TARGET,
    EQUAL, LOWER, HIGHER, UP_TO_M, ID_0, ID_LAST, TARGET_EMPTY,
    FROM_THE_TABLES,
    TARGET_FIRST = FROM_THE_TABLES, SOURCE_FIRST, NOT_BESIDE, FITS, SPARE, ALL_RISE, LARGEST,
    SOURCE_EMPTY, NOTHING, ONE_TOO_MANY,
    EVENTS
};

const char *const merge_names[] = {
    "more than eight entries in both", "and none common", "and all common", "three common ids between others", "four on end", "nine or more on end",
    "four on end but for one inside",
    "source all below", "source all above", "last id the source's alone", "last id the target's alone",
    "equal length", "lower in the source", "higher in the source", "from M - 1 to M", "id 0 in the source", "largest id in the source", "target empty",
    "target first in the words", "source first", "others between them", "just fits", "room to spare", "every id of the source rises", "2,048 entries",
    "source empty", "nothing rises", "one entry too many",
};

uint64_t merges[EVENTS];
const int merge_count = EVENTS;

static void saw(joint *j, int event, int so) { j->seen |= (uint32_t)(so != 0) << event; }

static void saw_lengths(joint *j, uint64_t own, uint64_t other) {
    saw(j, EQUAL, other == own);
    saw(j, LOWER, other < own);
    saw(j, HIGHER, other > own);
    saw(j, UP_TO_M, own == M - 1 && other == M);
}

/* So many common ids on end are the last of those passed so far; `more` where another id comes next. */
static void saw_stretch(joint *j, size_t stretch, int more) {
    saw(j, THREE, stretch == 3 && j->all > 3 && more);
    saw(j, FOUR, stretch == 4);
    saw(j, NINE, stretch >= 9);
}

/* Four entries of each, the first ids the same and the last, and of the two between them one. */
static void saw_four(joint *j, const uint64_t *mine, const uint64_t *theirs) {
    int second = mine[2] == theirs[2], third = mine[4] == theirs[4];
    saw(j, ALL_BUT_ONE, mine[0] == theirs[0] && mine[6] == theirs[6] && second != third);
}

/* Passes the ids of both tables in their order; returns how many are common. */
static size_t pass_ids(joint *j, const uint64_t *target, const uint64_t *source) {
    size_t a = 0, b = 0, stretch = 0, common = 0;
    while (a < j->own || b < j->others) {
        int mine = b == j->others || (a < j->own && target[2 * a] <= source[2 * b]);
        int theirs = a == j->own || (b < j->others && source[2 * b] <= target[2 * a]);
        if (a + 4 <= j->own && b + 4 <= j->others) saw_four(j, target + 2 * a, source + 2 * b);
        if (mine && theirs) {
            saw_lengths(j, target[2 * a + 1], source[2 * b + 1]);
            stretch++;
            common++;
        } else {
            saw_stretch(j, stretch, 1);
            stretch = 0;
        }
        a += (size_t)mine;
        b += (size_t)theirs;
        j->all++;
    }
    saw_stretch(j, stretch, 0);
    return common;
}

static void saw_ends(joint *j, const uint64_t *target, const uint64_t *source) {
    uint64_t least = target[0], most = target[2 * j->own - 2], first = source[0], last = source[2 * j->others - 2];
    saw(j, ALL_BELOW, last < least);
    saw(j, ALL_ABOVE, first > most);
    saw(j, LAST_OF_SOURCE, last > most);
    saw(j, LAST_OF_TARGET, last < most);
    saw(j, ID_0, first == 0);
    saw(j, ID_LAST, last == UINT64_MAX);
}

joint joint_of(const uint64_t *target, const uint64_t *source, uint64_t capacity) {
    joint j = {0, 0, 0, 0};
    size_t common;
    int many;
    j.own = in_use(target, capacity);
    j.others = in_use(source, capacity);
    many = j.own > 8 && j.others > 8;
    common = pass_ids(&j, target, source);
    if (j.own > 0 && j.others > 0) saw_ends(&j, target, source);
    saw(&j, MANY, many);
    saw(&j, MANY_APART, many && common == 0);
    saw(&j, MANY_ALIKE, many && common == j.all);
    saw(&j, TARGET_EMPTY, j.own == 0);
    return j;
}

void meet_merge(const joint *before, const shape *s, uint64_t from, uint64_t to, uint32_t refusal, uint64_t rose) {
    int k;
    merges[ONE_TOO_MANY] += refusal == 8 && before->all == s->capacity + 1;
    if (refusal != 0) return;
    merges[SOURCE_EMPTY] += before->others == 0 && before->own > 0;
    merges[NOTHING] += rose == 0 && before->others > 0;
    if (rose == 0) return;
    for (k = 0; k < FROM_THE_TABLES; k++) merges[k] += before->seen >> k & 1;
    merges[TARGET_FIRST] += to < from;
    merges[SOURCE_FIRST] += from < to;
    merges[NOT_BESIDE] += from > to + 1 || to > from + 1;
    merges[FITS] += before->all == s->capacity && before->all > before->own;
    merges[SPARE] += before->all < s->capacity;
    merges[ALL_RISE] += rose == before->others && before->all < before->own + before->others;
    merges[LARGEST] += before->all == WG_CAPACITY_MAX;
}
