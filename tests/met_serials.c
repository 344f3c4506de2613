/* met_serials.c: what was met of serials, marks and lags. */
#include "met.h"
#include "pairs.h"

enum {
    FIRST_0, FIRST_LAST, FIRST_HALF,
    SENT_FIRST, SENT_LAST,
    HEARD_FIRST, HEARD_FIRST_HALF, NEWER, NEWER_WRAPPED, NEWEST_OF_ALL, EQUAL, OLDER, OLDER_WRAPPED, OLDEST_OF_ALL, NEWER_STALE,
    HALF_NO_ROOM, HALF_COUNT_FULL,
    LAG_0, LAG_BELOW, LAG_ABOVE, LAG_WRAPPED, LAG_LEAST, LAG_MOST, LAG_HALF_MARKED,
    MARK_1, MARK_LARGEST, MARK_OTHER,
    EVENTS
};

const char *const serial_names[] = {
    "fresh at 0", "fresh at the last serial", "fresh half way",
    "first of its pair sent", "last serial sent",
    "first heard", "first heard, half way from 0", "newer heard", "newer past the wrap", "newer by all but one of a half", "equal", "older",
    "older from before the wrap", "older by all but one of a half", "newer with an old length",
    "no order and no room", "no order and the counter full",
    "lag 0", "lag below 0", "lag above 0", "lag past the wrap", "least lag", "largest lag", "no order, but marked",
    "mark 1", "largest mark", "another mark",
};

uint64_t serials[EVENTS];
const int serial_count = EVENTS;

void meet_fresh(uint32_t first) {
    serials[FIRST_0] += first == 0;
    serials[FIRST_LAST] += first == UINT32_MAX;
    serials[FIRST_HALF] += first == HALF_WAY;
}

static void meet_mark(uint32_t mark) {
    serials[MARK_1] += mark == 1;
    serials[MARK_LARGEST] += mark == UINT32_MAX;
    serials[MARK_OTHER] += mark > 1 && mark < UINT32_MAX;
}

void meet_send(const wg_pair *before) {
    serials[SENT_FIRST] += before->unsent != 0;
    serials[SENT_LAST] += before->next == UINT32_MAX;
    meet_mark(before->unsent);
}

void meet_delivery(const wg_pair *before, const wg_parcel *p, uint64_t length) {
    uint32_t on = p->serial - before->heard; /* how far the parcel's serial lies ahead, the long way round where it is behind */
    meet_mark(before->unheard);
    if (before->unheard != 0) {
        serials[HEARD_FIRST]++;
        serials[HEARD_FIRST_HALF] += p->serial == HALF_WAY;
        return;
    }
    if (on == 0) serials[EQUAL]++;
    else if (on < HALF_WAY) {
        serials[NEWER]++;
        serials[NEWER_WRAPPED] += p->serial < before->heard;
        serials[NEWEST_OF_ALL] += on == HALF_WAY - 1;
        serials[NEWER_STALE] += p->length <= length;
    } else {
        serials[OLDER]++;
        serials[OLDER_WRAPPED] += p->serial > before->heard;
        serials[OLDEST_OF_ALL] += on == HALF_WAY + 1;
    }
}

void meet_no_order(int no_room, int count_full) {
    serials[HALF_NO_ROOM] += no_room;
    serials[HALF_COUNT_FULL] += count_full;
}

void meet_lag(const wg_pair *p, uint32_t refusal, int32_t lag) {
    uint32_t last = p->next - 1;
    meet_mark(p->unsent);
    meet_mark(p->unheard);
    if (refusal == 16) serials[LAG_HALF_MARKED] += p->heard - last == HALF_WAY;
    if (refusal != 0) return;
    serials[LAG_0] += lag == 0;
    serials[LAG_BELOW] += lag < 0;
    serials[LAG_ABOVE] += lag > 0;
    serials[LAG_WRAPPED] += (lag < 0) != (p->heard < last) && lag != 0;
    serials[LAG_LEAST] += lag == -2147483647;
    serials[LAG_MOST] += lag == 2147483647;
}
