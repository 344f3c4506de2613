/* compare.h: what the library and the model are both lent, and what is said at the first difference. */
#ifndef COMPARE_H
#define COMPARE_H

#include "area.h"

extern uint64_t seed, number; /* the case that runs */
extern char doing[512];       /* the call that runs, in words */

_Noreturn void differ(const char *what, ...);

/* For signals: a touch outside the lent memory, or a call that does not return, is a difference too. */
void stopped(int sig);

extern area words, slots, ledger, value, lag, asks, burst_answers, group_words, group_bytes, entry_count, ids, answers, line, room, input, out, written;

#define LIB(a, type) ((type *)(void *)(a).start[0])
#define MOD(a, type) ((type *)(void *)(a).start[1])

void make_areas(void);

/* Any bytes, the same in both copies. */
void noise(rng *r, area *a);

/* The list ends with 0. */
void same_areas(area *const *list);
void same_answers(uint64_t lib, uint64_t mod, const char *what);

#endif
