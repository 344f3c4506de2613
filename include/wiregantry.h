/* wiregantry.h: what a C or C++ program calls.
 *
 * A set of 64-bit episode ids is held at 1 to 16 sites. Each id has a causal length: 0 while it has no entry, odd while it is listed, even
 * once it is withdrawn. Updates under way between the sites (parcels) wait in slots, and a ledger counts them and keeps, for each ordered pair
 * of sites, the serial numbers of what was sent and heard. All of it lies in memory that the caller lends; the library allocates nothing and
 * keeps nothing between two calls.
 *
 * Every function takes any numbers and any contents, always returns, and answers 0 (accepted) or the number of a refusal. A refused call
 * has written nothing but the 0 in its `value`, `lag`, `written`, `count`, `rose` or `merges`. Refusal numbers never change their meaning.
 *
 * What the caller owes, since no proof reaches the calling side:
 *
 *  - A pointer and the length beside it name memory of that many elements, aligned for its type, readable, and writable unless the pointer
 *    is to const. No pointer is NULL, even beside a length of 0: there any aligned address that is not NULL will do, as that of a variable.
 *    Nothing is read or written through it.
 *  - The areas of one call do not overlap, and nothing else reads or writes them until it returns. Calls on different areas may run at once.
 *  - The stack has room for WG_STACK bytes, and where wg_repair is called for WG_REPAIR_STACK bytes.
 *
 * C99 or C++11, and a machine with 64-bit sizes. Link with libwiregantry.a; it needs nothing but memcpy, memmove and memset of a C library.
 */
#ifndef WIREGANTRY_H
#define WIREGANTRY_H

#include <stddef.h>
#include <stdint.h>

#ifdef __cplusplus
extern "C" {
#endif

#define WG_VERSION "0.1.0"

/* The library counts bytes and words in 64 bits; on a machine with other sizes this array has a negative length. */
typedef char wg_needs_sizes_of_64_bits[sizeof(size_t) == 8 ? 1 : -1];

/* ---- Limits ------------------------------------------------------------------------------------------------------------------------- */

#define WG_SITES_MAX 16u            /* sites of a run: 1 to this */
#define WG_CAPACITY_MAX 2048u       /* entries of one table: 0 to this */
#define WG_SLOTS_MAX 1024u          /* slots for parcels: 0 to this */
#define WG_LENGTH_MAX 4294967295u   /* the largest causal length, and the largest count of the ledger; odd */
#define WG_SERIAL_MAX 4294967295u   /* the last serial; the one after it is 0 */
#define WG_LAG_MAX 2147483647       /* a lag is from -WG_LAG_MAX to this */
#define WG_MEMBERS_MAX 4096u        /* ids of one call of wg_members */
#define WG_GROUP_ENTRIES 64u        /* entries of one group: 0 to this */
#define WG_GROUP_MAX 961u           /* bytes of room that every group fits; the longest has 898 */
#define WG_LINE_MAX 83u             /* bytes of the longest step line, without its line end */
#define WG_AREA 32u                 /* bytes that wg_read_line fills */
#define WG_INPUT_MAX 32768u         /* bytes of input that wg_report runs */
#define WG_REPORT_MAX 721152u       /* bytes of room that every report fits: WG_REPORT_ROOM(WG_INPUT_MAX) */
#define WG_STACK 32768u             /* bytes of stack that every call but wg_repair keeps within */
#define WG_REPAIR_STACK 131072u     /* bytes of stack that wg_repair keeps within: it gathers what all tables come to there before it writes any */

/* The words of a run, and the bytes that the answers on n ids take. */
#define WG_WORDS(sites, capacity) ((size_t)(sites) * 2u * (size_t)(capacity))
#define WG_ANSWERS(n) (((size_t)(n) + 7u) / 8u)

/* The words of n entries, each an id and a length. */
#define WG_ENTRIES(n) ((size_t)(n) * 2u)

/* The words of a burst of n steps: of its asks, and of the answers to them. */
#define WG_ASKS(n) ((size_t)(n) * 4u)
#define WG_BURST_ANSWERS(n) ((size_t)(n) * 2u)

/* Room that is always enough for wg_report on n bytes of input: proved to hold every report of so many. */
#define WG_REPORT_ROOM(n) ((size_t)(n) * 22u + 256u)

/* ---- Kinds of step ------------------------------------------------------------------------------------------------------------------ */

/* A step is four numbers: kind, first, second, id. A number that the kind does not use is 0.
 *
 *   kind           first          second        id      accepted, the step has *value
 *   WG_ADD         site           0             id      the length after: an even one rose by 1, an odd one stayed
 *   WG_REMOVE      site           0             id      the length after: an odd one rose by 1, an even one stayed and no entry was made
 *   WG_QUERY       site           0             id      the length
 *   WG_SEND        sending site   target site   id      the slot where a parcel with the sender's length and the pair's next serial now waits;
 *                                                       sent rose by 1, the next serial too
 *   WG_MERGE       source site    target site   0       how many ids of the target rose to the source's length
 *   WG_DELIVER     slot           0             0       the length after at the parcel's site; the slot is free, absorbed rose by 1, and a
 *                                                       newer serial is the newest heard
 *   WG_AGAIN       slot           0             0       the slot of a second parcel like the first, serial and all; copied rose by 1
 *   WG_LOSE        slot           0             0       0; the slot is free, lost rose by 1
 */
#define WG_ADD 1u
#define WG_REMOVE 2u
#define WG_QUERY 3u
#define WG_SEND 4u
#define WG_MERGE 5u
#define WG_DELIVER 6u
#define WG_AGAIN 7u
#define WG_LOSE 8u

/* ---- Refusals ----------------------------------------------------------------------------------------------------------------------- */

#define WG_ACCEPTED 0u
#define WG_BAD_SIZES 1u       /* sizes outside the limits, or the run of words is not sites x 2 x capacity long */
#define WG_UNSOUND 2u         /* a table, a slot or the ledger is not laid out as it must be */
#define WG_NO_SITE 3u         /* a site number is at or above the number of sites */
#define WG_SAME_SITE 4u       /* send, merge or a lag query names one site twice */
#define WG_NO_PARCEL 5u       /* the slot number is at or above the slot count, or the slot is free */
#define WG_NOTHING_TO_SEND 6u /* send of an id whose length at the sender is 0 */
#define WG_LENGTHS_OUT 7u     /* remove at the largest length */
#define WG_NO_ROOM 8u         /* the gaining table, or in a repair round each table, would need more entries than its capacity */
#define WG_NO_SLOT 9u         /* send or again with no free slot */
#define WG_COUNT_FULL 10u     /* the counter to be raised is at its largest */
#define WG_NO_STEP 11u        /* the text is not a step line, or the numbers are not a step, or not four for each step of a burst */
#define WG_INPUT_LONG 12u     /* the report's input is longer than WG_INPUT_MAX */
#define WG_SHORT_BUFFER 13u   /* a buffer to be written is too short */
#define WG_MANY_IDS 14u       /* bulk membership asked for more than WG_MEMBERS_MAX ids */
#define WG_NO_ORDER 15u       /* two serials that cannot be ordered: they are exactly 2147483648 apart */
#define WG_NOTHING_HEARD 16u  /* nothing was sent, or nothing heard, on that pair of sites */
#define WG_NO_GROUP 17u       /* the bytes or the entries form no group */

/* A few words on a refusal for people to read; never NULL. */
static inline const char *wg_refusal_text(uint32_t refusal) {
    switch (refusal) {
    case WG_ACCEPTED: return "accepted";
    case WG_BAD_SIZES: return "sizes outside the limits";
    case WG_UNSOUND: return "a table, a slot or the ledger is unsound";
    case WG_NO_SITE: return "no such site";
    case WG_SAME_SITE: return "one site named twice";
    case WG_NO_PARCEL: return "no parcel in that slot";
    case WG_NOTHING_TO_SEND: return "the sender has no entry for the id";
    case WG_LENGTHS_OUT: return "the lengths of the id have run out";
    case WG_NO_ROOM: return "no room in the table";
    case WG_NO_SLOT: return "no free slot";
    case WG_COUNT_FULL: return "the counter has run out";
    case WG_NO_STEP: return "not a step";
    case WG_INPUT_LONG: return "the input is too long";
    case WG_SHORT_BUFFER: return "the buffer is too short";
    case WG_MANY_IDS: return "too many ids asked for";
    case WG_NO_ORDER: return "two serials that cannot be ordered";
    case WG_NOTHING_HEARD: return "nothing sent or nothing heard on that pair";
    case WG_NO_GROUP: return "not a group";
    default: return "not a refusal of this version";
    }
}

/* ---- What is lent ------------------------------------------------------------------------------------------------------------------- */

/* An update under way to `site`. A free slot has all five 0. An occupied one has a site of the run, a length of 1 to WG_LENGTH_MAX, and a sender
 * that is another site of the run; its id and its serial are any. So in a run of one site every slot is free. */
typedef struct {
    uint64_t site, id, length;
    uint32_t sender, serial;
} wg_parcel;

/* What went from one site to another. Serials go up by one with each accepted send, and after 4294967295 comes 0. Their order is that of
 * RFC 1982 with 32 bits: a serial is newer than another from which it is reached by counting up, past the wrap too, in 1 to 2147483647 steps; two
 * that are exactly 2147483648 apart have no order. A mark stands where it is not 0; the library writes 1 and 0. Sound: heard is 0 while unheard
 * stands. */
typedef struct {
    uint32_t next;    /* the serial of the next parcel; the one before it was the last sent, unless nothing was */
    uint32_t heard;   /* the newest serial of those delivered */
    uint32_t unsent;  /* the mark: nothing was sent */
    uint32_t unheard; /* the mark: nothing was heard */
} wg_pair;

/* Accepted steps send, again, deliver and lose, and what went between each two sites. Sound: each count at most WG_LENGTH_MAX,
 * sent + copied = absorbed + lost + occupied slots, and the pair of each two different sites of the run sound. The pair of a site with itself,
 * and one with a site that the run does not have, is never looked at and never written, not by wg_fresh either. */
typedef struct {
    uint64_t sent, copied, absorbed, lost;
    wg_pair pairs[WG_SITES_MAX][WG_SITES_MAX]; /* [sender][destination], however many sites the run has */
} wg_ledger;

/* A run's words hold its tables one after the other: site k's begins at word k x 2 x capacity. A table is pairs of an id and a length; those
 * in use come first, their ids strictly rising and their lengths 1 to WG_LENGTH_MAX, and every word after them is 0. */

/* ---- The library -------------------------------------------------------------------------------------------------------------------- */

/* Makes a run fresh: every word, slot and count 0, whatever stood there. Each pair of two different sites of the run has `first` for its next
 * serial, 0 for the newest heard, and both marks.
 * Refuses with 1 exactly when sites is not 1 to 16, capacity is above 2,048, n_slots is above 1,024, or n_words is not
 * sites x 2 x capacity. */
uint32_t wg_fresh(uint64_t *words, size_t n_words, wg_parcel *slots, size_t n_slots, wg_ledger *ledger,
                  uint64_t sites, uint64_t capacity, uint32_t first);

/* One step of a run; the four numbers are those above. *value is what the step returns, and 0 on a refusal.
 *
 * First 11, exactly when kind is not 1 to 8 or a number that the kind does not use is not 0. Then, for every kind, 1 as in wg_fresh, and 2
 * exactly when a table, a slot or the ledger is not sound. Then the first that applies, in this order:
 *
 *   add       3 no such site, 8 the id has no entry and the table is full
 *   remove    3 no such site, 7 the length is WG_LENGTH_MAX
 *   query     3 no such site
 *   send      3 no such site (either), 4 both the same, 6 the length at the sender is 0, 9 no free slot, 10 sent is WG_LENGTH_MAX
 *   merge     3 no such site (either), 4 both the same, 8 the ids of both tables together are more than the capacity
 *   deliver   5 no such slot or a free one, 15 something was heard on the parcel's pair and the parcel's serial is 2147483648 from the newest,
 *             8 the id has no entry at its site and the table is full, 10 absorbed is WG_LENGTH_MAX
 *   again     5 no such slot or a free one, 9 no free slot, 10 copied is WG_LENGTH_MAX
 *   lose      5 no such slot or a free one, 10 lost is WG_LENGTH_MAX
 *
 * A new parcel takes the free slot with the lowest number. A refused send uses no serial. A delivery that is refused leaves its parcel waiting
 * and the newest heard as it was. An accepted one makes the parcel's serial the newest heard where it is newer, or where nothing was heard;
 * whether the length rose does not matter. */
uint32_t wg_step(uint64_t *words, size_t n_words, wg_parcel *slots, size_t n_slots, wg_ledger *ledger,
                 uint64_t sites, uint64_t capacity,
                 uint64_t kind, uint64_t first, uint64_t second, uint64_t id, uint64_t *value);

/* Many steps of one run, which is judged once for all of them. An ask is the four numbers of a step (kind, first, second, id), an answer is
 * two, its refusal and its value. n_asks and n_answers count words: WG_ASKS(n) and at least WG_BURST_ANSWERS(n) for n steps.
 *
 * Answer i is what wg_step would return and leave in *value after the asks before it. So a refused step changes nothing and has the value 0,
 * numbers that are no step are answered with 11, and the burst goes on behind both. Words behind the answers keep what they had. No asks:
 * accepted once the run is judged, nothing written.
 * Refuses in this order, the run and the answers as they were: 1 and 2 as in wg_step; 11 exactly when n_asks is not a multiple of 4;
 * 13 exactly when n_answers is below WG_BURST_ANSWERS(n_asks / 4). */
uint32_t wg_burst(uint64_t *words, size_t n_words, wg_parcel *slots, size_t n_slots, wg_ledger *ledger,
                  uint64_t sites, uint64_t capacity,
                  const uint64_t *asks, size_t n_asks, uint64_t *answers, size_t n_answers);

/* How far site `to` is behind site `from`: *lag is the newest serial that `to` heard from `from`, less the last that `from` sent to `to`, as a
 * signed difference. 0: the last one sent was heard, whatever was lost before it. -3: three were sent after the newest heard; they may be under
 * way or lost. A merge, a group or a repair round has no serial and moves no lag. In a run from wg_fresh on a lag is above 0 only where more than
 * 2147483648 were sent after the newest heard. Nothing that is lent changes but *lag.
 * Refuses in this order, with *lag 0: 1 and 2 as in wg_step; 3 no such site (either); 4 both the same; 16 nothing was sent or nothing heard on
 * that pair; 15 the two serials are exactly 2147483648 apart. */
uint32_t wg_lag(uint64_t *words, size_t n_words, wg_parcel *slots, size_t n_slots, wg_ledger *ledger,
                uint64_t sites, uint64_t capacity,
                uint64_t from, uint64_t to, int32_t *lag);

/* A group is 0 to 64 entries, ids strictly rising and lengths 1 to WG_LENGTH_MAX, in words as in a table: up to 64 entries in use of a table, from
 * any of them on, are a group as they stand. Its bytes, for one datagram, are numbers: how many entries; then for each entry its id (the first one)
 * or how far its id lies above the one before, less 1 (the others), and its length less 1. Each number is unsigned LEB128, as in DWARF: seven bits to
 * a byte, the lowest first, and 128 added in each byte but the last; only the shortest form will do. {7:2, 8:3} is the bytes 2, 7, 1, 0, 2. A group
 * has one string of bytes, and a string of bytes at most one group. */

/* Writes the bytes of a group to the front of out. *written is how many they are; bytes behind them keep what they had. n_words counts words:
 * WG_ENTRIES(n) for n entries.
 * Refuses in this order, with *written 0: 17 exactly when n_words is odd or above 128, an id is not above the one before it, or a length is 0 or above
 * WG_LENGTH_MAX; 13 exactly when room is below the length of this very group. WG_GROUP_MAX is always enough. */
uint32_t wg_write_group(const uint64_t *entries, size_t n_words, uint8_t *out, size_t room, size_t *written);

/* Reads the n bytes of a group and writes its entries to the front of the words. *count is how many entries they are; words behind them keep what
 * they had.
 * Refuses in this order, with *count 0: 17 exactly when the bytes form no group: they are cut short (as no bytes at all are) or go on behind the
 * last entry, a number has more bytes than it needs or is past 64 bits, there are more than 64 entries, the gaps lead to an id past 64 bits, or a length
 * is above WG_LENGTH_MAX; 13 exactly when n_words is below two for each entry. WG_ENTRIES(WG_GROUP_ENTRIES) is always enough. */
uint32_t wg_read_group(const uint8_t *bytes, size_t n, uint64_t *entries, size_t n_words, size_t *count);

/* Takes the n bytes of a group in at a site, all of its entries or none, as a merge takes in a table: each id then has the larger of its two lengths.
 * *rose is how many lengths rose, new ids among them. It changes that site's table and *rose alone: the ledger does not count it.
 * Refuses in this order, with *rose 0: 1 and 2 as in wg_step; 3 no such site; 17 as in wg_read_group; 8 the ids of the table and of the group together
 * are more than the capacity. */
uint32_t wg_absorb(uint64_t *words, size_t n_words, wg_parcel *slots, size_t n_slots, wg_ledger *ledger,
                   uint64_t sites, uint64_t capacity,
                   uint64_t site, const uint8_t *bytes, size_t n, uint64_t *rose);

/* One repair round, for an operator who holds all tables of a run in one place after an outage: it makes them equal. Site 0 takes in the tables of
 * the other sites in rising order, then each other site takes in that of site 0, each as a merge does. Every site then has each id that any site had,
 * with the largest length that any site held before. *merges is how many merges that was: 2 x (sites - 1), also where nothing rose, and 0 for one
 * site. It changes the tables and *merges alone: parcels under way stay where they wait, and the ledger does not count it.
 * Refuses in this order, with *merges 0: 1 and 2 as in wg_step; 8 exactly when the distinct ids of all tables together are more than the capacity.
 * That is judged before any table is written; one site never meets it. */
uint32_t wg_repair(uint64_t *words, size_t n_words, wg_parcel *slots, size_t n_slots, wg_ledger *ledger,
                   uint64_t sites, uint64_t capacity, uint64_t *merges);

/* Which of n_ids ids one table lists. Answer i goes into bit i mod 8 of answers[i / 8], lowest bit first; spare bits of the last byte are 0,
 * and bytes behind it keep what they had. The ids may repeat and need no order. No ids: accepted, nothing written.
 * Refuses in this order: 1 exactly when n_words is odd or above 4,096; 2 the table is not sound; 14 n_ids is above 4,096;
 * 13 n_answers is below WG_ANSWERS(n_ids). */
uint32_t wg_members(const uint64_t *table, size_t n_words, const uint64_t *ids, size_t n_ids,
                    uint8_t *answers, size_t n_answers);

/* Reads a step line (without its line end) into the first 32 bytes of area: kind, first, second, id, each 8 bytes, lowest byte first.
 * Bytes behind them keep what they had. wg_number reads them.
 *
 *   step=add node=N id=I         likewise remove and query
 *   step=send from=N to=N id=I
 *   step=merge from=N to=N
 *   step=deliver slot=S          likewise again and lose
 *
 * Numbers are decimal, 0 to 18446744073709551615, with no sign; one space between the pairs and no other byte. Any of the numbers may have
 * zeros in front, up to 20 digits in all: `id=00000000000000000007` is read as `id=7`. wg_write_line writes none of them, so a line that is read
 * and written again has the same step with no padding. Whether a run has such a site or slot is not judged here.
 * Refuses in this order: 13 exactly when n_area is below 32; 11 the n bytes are not such a line (a byte 10 anywhere included, and a number of
 * 21 digits, even if they are zeros). */
uint32_t wg_read_line(const uint8_t *line, size_t n, uint8_t *area, size_t n_area);

/* Whether wg_write_line would write this step into room bytes: 11 exactly when kind is not 1 to 8 or an unused number is not 0, then 13 when
 * the line is longer than room, else 0. */
uint32_t wg_check_line(uint64_t kind, uint64_t first, uint64_t second, uint64_t id, size_t room);

/* Writes the step's line to the front of buffer and returns how many bytes it has; bytes behind it keep what they had. Returns 0, with nothing
 * written, exactly when wg_check_line refuses. WG_LINE_MAX bytes are enough for every step. No line is empty. */
size_t wg_write_line(uint64_t kind, uint64_t first, uint64_t second, uint64_t id, uint8_t *buffer, size_t room);

/* Runs a text of step lines, each ended by byte 10, from a fresh state with 3 sites, capacity 8, 8 slots and first serial 0, and writes the report
 * to the front of out: a line for each refused step (`line=L refused=R`) and each accepted query
 * (`line=L node=N id=I length=K present=P`), then sent, copied, absorbed, lost and waiting, then `node=N held=H shown=S` for each site:
 * H entries in its table, S of them listed. *written is how many bytes that is; bytes behind it keep what they had.
 *
 * A line that is no step line, an empty one, and a last piece without its byte 10 stand in the report as refused with 11.
 * Refuses in this order: 12 exactly when n is above 32,768; 13 exactly when room is below the length of this very report. Nothing is written
 * then, and *written is 0. WG_REPORT_ROOM(n) is always enough. With less the input is run twice, first to measure the report. */
uint32_t wg_report(const uint8_t *input, size_t n, uint8_t *out, size_t room, size_t *written);

/* ---- In short, over the calls above ------------------------------------------------------------------------------------------------- */

/* The lent areas of one run with their sizes, so that a step is one short call. A run is the same at all its calls. */
typedef struct {
    uint64_t *words;
    size_t n_words;
    wg_parcel *slots;
    size_t n_slots;
    wg_ledger *ledger;
    uint64_t sites, capacity;
} wg_run;

/* wg_fresh on a run: every pair's first parcel will have the serial `first`. */
static inline uint32_t wg_start(const wg_run *run, uint32_t first) {
    return wg_fresh(run->words, run->n_words, run->slots, run->n_slots, run->ledger, run->sites, run->capacity, first);
}

/* wg_step on a run. */
static inline uint32_t wg_do(const wg_run *run, uint64_t kind, uint64_t first, uint64_t second, uint64_t id, uint64_t *value) {
    return wg_step(run->words, run->n_words, run->slots, run->n_slots, run->ledger, run->sites, run->capacity,
                   kind, first, second, id, value);
}

/* wg_burst on a run: n steps, WG_ASKS(n) words of asks and WG_BURST_ANSWERS(n) of answers. Refuses with 1, 2. */
static inline uint32_t wg_do_all(const wg_run *run, const uint64_t *asks, size_t n, uint64_t *answers) {
    return wg_burst(run->words, run->n_words, run->slots, run->n_slots, run->ledger, run->sites, run->capacity,
                    asks, WG_ASKS(n), answers, WG_BURST_ANSWERS(n));
}

/* wg_lag on a run: how far site `to` is behind site `from`, 0 or below in the usual case; -3 is three behind. Refuses with 1, 2, 3, 4, 16, 15. */
static inline uint32_t wg_behind(const wg_run *run, uint64_t from, uint64_t to, int32_t *lag) {
    return wg_lag(run->words, run->n_words, run->slots, run->n_slots, run->ledger, run->sites, run->capacity, from, to, lag);
}

/* Publishes id at a site. Refuses with 1, 2, 3, 8. */
static inline uint32_t wg_add(const wg_run *run, uint64_t site, uint64_t id, uint64_t *length) {
    return wg_do(run, WG_ADD, site, 0, id, length);
}

/* Withdraws id at a site. Refuses with 1, 2, 3, 7. */
static inline uint32_t wg_remove(const wg_run *run, uint64_t site, uint64_t id, uint64_t *length) {
    return wg_do(run, WG_REMOVE, site, 0, id, length);
}

/* The length of id at a site. Refuses with 1, 2, 3. */
static inline uint32_t wg_query(const wg_run *run, uint64_t site, uint64_t id, uint64_t *length) {
    return wg_do(run, WG_QUERY, site, 0, id, length);
}

/* Puts a parcel with the sender's length for id under way. Refuses with 1, 2, 3, 4, 6, 9, 10. */
static inline uint32_t wg_send(const wg_run *run, uint64_t from, uint64_t to, uint64_t id, uint64_t *slot) {
    return wg_do(run, WG_SEND, from, to, id, slot);
}

/* Merges the whole table of one site into another's; the first is unchanged. Refuses with 1, 2, 3, 4, 8. */
static inline uint32_t wg_merge(const wg_run *run, uint64_t from, uint64_t to, uint64_t *rose) {
    return wg_do(run, WG_MERGE, from, to, 0, rose);
}

/* wg_absorb on a run: takes in, at a site, a group as it came in a datagram. Refuses with 1, 2, 3, 17, 8. */
static inline uint32_t wg_take_in(const wg_run *run, uint64_t site, const uint8_t *bytes, size_t n, uint64_t *rose) {
    return wg_absorb(run->words, run->n_words, run->slots, run->n_slots, run->ledger, run->sites, run->capacity, site, bytes, n, rose);
}

/* wg_repair on a run: one repair round, which levels all tables. Refuses with 1, 2, 8. */
static inline uint32_t wg_level(const wg_run *run, uint64_t *merges) {
    return wg_repair(run->words, run->n_words, run->slots, run->n_slots, run->ledger, run->sites, run->capacity, merges);
}

/* Delivers the parcel in a slot at its site. Refuses with 1, 2, 5, 15, 8, 10. */
static inline uint32_t wg_deliver(const wg_run *run, uint64_t slot, uint64_t *length) {
    return wg_do(run, WG_DELIVER, slot, 0, 0, length);
}

/* Doubles the parcel in a slot. Refuses with 1, 2, 5, 9, 10. */
static inline uint32_t wg_again(const wg_run *run, uint64_t slot, uint64_t *new_slot) {
    return wg_do(run, WG_AGAIN, slot, 0, 0, new_slot);
}

/* Gives the parcel in a slot up for lost. Refuses with 1, 2, 5, 10. */
static inline uint32_t wg_lose(const wg_run *run, uint64_t slot) {
    uint64_t nothing;
    return wg_do(run, WG_LOSE, slot, 0, 0, &nothing);
}

/* Whether an id with this length is listed: 1 or 0. */
static inline int wg_listed(uint64_t length) { return (int)(length & 1u); }

/* Number i (0 kind, 1 first, 2 second, 3 id) of what wg_read_line left in area, on a machine of either byte order. */
static inline uint64_t wg_number(const uint8_t *area, unsigned i) {
    uint64_t n = 0;
    unsigned b;
    for (b = 8; b-- > 0;) n = n << 8 | area[8u * i + b];
    return n;
}

/* Reads a step line and takes the step. Refuses with 11 if it is no step line, then as the step; *value is 0 on a refusal. */
static inline uint32_t wg_do_line(const wg_run *run, const uint8_t *line, size_t n, uint64_t *value) {
    uint8_t area[WG_AREA];
    uint32_t refusal = wg_read_line(line, n, area, sizeof area);
    *value = 0;
    if (refusal != WG_ACCEPTED) return refusal;
    return wg_do(run, wg_number(area, 0), wg_number(area, 1), wg_number(area, 2), wg_number(area, 3), value);
}

#ifdef __cplusplus
}
#endif

#endif
