/* cases.h: the kinds of case. Each makes its inputs from its own random numbers and compares every call that it makes. */
#ifndef CASES_H
#define CASES_H

#include "states.h"

enum { LONGEST_BURST = 1000 };

/* case_runs.c: fresh runs, sound states, damaged states, sizes outside the limits */
void case_run(rng *r, int large);
void case_state(rng *r, int large);
void case_damage(rng *r, int large);
void case_sizes(rng *r);

/* case_bursts.c */
void case_burst(rng *r, int large);

/* case_merges.c: two tables that meet in stretches */
void case_merge(rng *r, int large);

/* case_groups.c: a group written and read */
void case_group(rng *r);

/* case_absorbs.c: a group absorbed at a site */
void case_absorb(rng *r, int large);

/* case_repairs.c: the repairs of one state in two orders */
void case_repairs(rng *r, int large);

/* case_rounds.c: one repair round for all sites */
void case_round(rng *r, int large);

/* case_texts.c: bulk membership, lines, reports */
void case_members(rng *r, int large);
void case_read(rng *r);
void case_write(rng *r);
void case_report(rng *r, int large);

/* What the kinds of case share, in case_runs.c. */
typedef struct {
    uint64_t kind, first, second, id;
} numbers;

numbers some_numbers(rng *r, const shape *s, const pool *p);

/* An id that the sender has, where there is one, and a slot that is occupied, so that steps get past their first tests. */
numbers telling_numbers(rng *r, const shape *s, const pool *p);

extern pool ids_of_case;

/* Room for a state and for what its steps and lags answer, all of it 0. */
void place_state(rng *r, const shape *s);

/* A sound state, in the library's copy alone so far. */
void place_sound(rng *r, const shape *s);

/* Gives it to the model too. */
void share_state(void);

/* The library's words of a site's table. */
uint64_t *table_of(const shape *s, uint64_t site);

/* Sets aside the state that the library has. */
void keep(const shape *s, kept *k);

/* Whether the library has it still: the tables, and the slots and the ledger. */
int kept_tables(const shape *s, const kept *k);
int kept_slots(const shape *s, const kept *k);

/* A state with sizes outside the limits, for both. */
shape place_bad_sizes(rng *r);

/* One step of both, compared; the refusal. What it answered beside that is in `value`. */
uint32_t do_step(rng *r, const shape *s, numbers n);

/* In case_bursts.c: a burst in a sound state that both have, compared with the model's and with its own steps one by one. */
typedef numbers chooser(rng *r, const shape *s, const pool *p);
void burst_placed(rng *r, const shape *s, size_t steps, chooser *choose);

/* In case_groups.c: the bytes of a group for both; and behind the call in words, as many of them as there is room to print. */
void place_bytes(rng *r, const uint8_t *bytes, size_t n);
void tell_bytes(const uint8_t *bytes, size_t n);

/* In case_absorbs.c: bytes absorbed at a site of a run that both have, compared; the refusal. What they raised is in `value`. */
uint32_t do_absorb(rng *r, const shape *s, uint64_t site, const uint8_t *bytes, size_t n);

/* A group of the ids of the case, likewise. */
void absorb_some(rng *r, const shape *s);

/* In case_rounds.c: a round in a sound state that both have, compared with the model's, with the tables that it must come to, and with its merges one
 * by one. */
void round_placed(rng *r, const shape *s);

#endif
