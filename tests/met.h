/* met.h: how often each refusal, each size and each kind of damage was met. A test that never met something says nothing about it. */
#ifndef MET_H
#define MET_H

#include "states.h"

/* IN_BURST is no call: its refusals are the answers to the steps inside bursts. */
enum {
    FRESH, ADD, REMOVE, QUERY, SEND, MERGE, DELIVER, AGAIN, LOSE, NO_KIND, BURST, LAG, WRITE_GROUP, READ_GROUP, ABSORB, REPAIR, MEMBERS, READ, CHECK,
    WRITE, REPORT, CALLS, IN_BURST = CALLS, ROWS
};

/* The call for the steps of that kind. */
int call_of(uint64_t kind);

/* A refusal that the call never gives is a difference. */
void meet(int call, uint32_t refusal);
void meet_damage(unsigned way);
void meet_size(const shape *s);
void meet_burst(const shape *s, size_t steps);

/* met_serials.c: a fresh run with this first serial; an accepted send on a pair, as it stood before; an accepted delivery, with the pair and the
 * id's length as they stood; one refused with 15 where 8 or 10 would have been next; a lag query of a pair of the run that got past 4. */
void meet_fresh(uint32_t first);
void meet_send(const wg_pair *before);
void meet_delivery(const wg_pair *before, const wg_parcel *p, uint64_t length);
void meet_no_order(int no_room, int count_full);
void meet_lag(const wg_pair *p, uint32_t refusal, int32_t lag);

extern const char *const serial_names[];
extern uint64_t serials[];
extern const int serial_count;

/* met_merges.c: what the two tables of a merge have between them, as they stand before it. */
typedef struct {
    size_t own, others, all; /* the entries of the target and of the source, and the distinct ids of both */
    uint32_t seen;           /* a bit for each of the names that the tables alone tell */
} joint;

joint joint_of(const uint64_t *target, const uint64_t *source, uint64_t capacity);

/* The merge of two sites of the run, and what it answered. */
void meet_merge(const joint *before, const shape *s, uint64_t from, uint64_t to, uint32_t refusal, uint64_t rose);

extern const char *const merge_names[];
extern uint64_t merges[];
extern const int merge_count;

/* met_groups.c: a group that one of the three calls took, and its bytes; how much room a group had, and needed; what was wrong with one that was
 * refused, with how much room; every bit of one turned over; a group into a table, as it stood, and what was answered; one that is wrong where there
 * was no room for it either, and one for a site that is not there. */
void meet_group(int call, const uint64_t *entries, size_t count, size_t bytes);
void meet_room(int call, size_t has, size_t needs);
void meet_word_damage(unsigned way, size_t has);
void meet_byte_damage(unsigned way, size_t has);
void meet_every_bit(void);
void meet_absorb(const joint *before, const shape *s, uint32_t refusal, uint64_t rose);
void meet_wrong_absorb(unsigned way, int no_room);
void meet_outside(int wrong);

extern const char *const group_names[];
extern uint64_t groups[];
extern const int group_count;

/* Fills in what is known at the end alone: how often the rarest of the sizes and widths was met. */
void sum_up_groups(void);

/* How often the bytes of a group were wrong in each way, read with enough room (0) and with none (1), and absorbed (2); and words that were to be
 * written, with enough room (3) and with none (4). */
enum { GROUP_DAMAGES = 5 };
const uint64_t *group_damage(int of, const char *const **names, int *n);

/* met_lines.c: a line that was made and not damaged, and what its reading answered. */
void meet_line(const uint8_t *line, size_t n, uint32_t refusal);
void sum_up_lines(void);

extern const char *const line_names[];
extern uint64_t lines[];
extern const int line_count;

/* met_repairs.c: repairs of one state in two orders, which name so many ids together, and whether they ended with the same tables. */
enum { ONE_SITE, ALL_SITES, GROUPED, REPAIR_KINDS };
void meet_repairs(int kind, const shape *s, size_t needs, int same);

extern const char *const repair_names[];
extern uint64_t repairs[];
extern const int repair_count;

/* met_rounds.c: a round in a sound state, how many distinct ids its tables had, and how many those of all sites but the last; one in a state that was
 * damaged in this way, where there would have been too many ids, or not; one with sizes outside the limits. */
void meet_round(const shape *s, const kept *before, size_t all, size_t but_last, uint32_t refusal);
void meet_damaged_round(unsigned way, int too_many);
void meet_round_of_bad_sizes(const shape *s);
void sum_up_rounds(void);

extern const char *const round_names[];
extern uint64_t rounds[];
extern const int round_count;

/* Prints all of it, and returns how much was not met, or a refusal too seldom. */
int print_met(void);

#endif
