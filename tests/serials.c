/* serials.c: asks the library about pairs of serials, for serials.py. Standard input has pairs of 32-bit numbers in the machine's byte order; for each
 * pair a, b a line is printed with six numbers:
 *
 *   the refusal and the lag where a is the newest heard and b was sent last
 *   the refusal and the newest heard afterwards where b is the newest heard and a parcel with serial a is delivered
 *   the refusal and the newest heard afterwards where nothing was heard before */
#include <inttypes.h>
#include <stdio.h>

#include "wiregantry.h"

static uint64_t words[WG_WORDS(2, 1)];
static wg_parcel slots[1];
static wg_ledger ledger;
static const wg_run run = {words, WG_WORDS(2, 1), slots, 1, &ledger, 2, 1};

static void lag_of(uint32_t heard, uint32_t last) {
    wg_pair *p = &ledger.pairs[0][1];
    int32_t lag;
    uint32_t refusal;
    wg_start(&run, last + 1);
    p->heard = heard;
    p->unsent = p->unheard = 0;
    refusal = wg_behind(&run, 0, 1, &lag);
    printf("%" PRIu32 " %" PRId32, refusal, lag);
}

/* Sends a parcel with that serial and delivers it. */
static void heard_after(uint32_t serial, uint32_t heard, int anything) {
    wg_pair *p = &ledger.pairs[0][1];
    uint64_t length, slot;
    uint32_t refusal;
    wg_start(&run, serial);
    p->heard = heard;
    p->unheard = !anything;
    refusal = wg_add(&run, 0, 7, &length);
    if (refusal == 0) refusal = wg_send(&run, 0, 1, 7, &slot);
    if (refusal == 0) refusal = wg_deliver(&run, slot, &length);
    printf(" %" PRIu32 " %" PRIu32, refusal, p->heard);
}

int main(void) {
    uint32_t pair[2];
    while (fread(pair, sizeof pair, 1, stdin) == 1) {
        lag_of(pair[0], pair[1]);
        heard_after(pair[0], pair[1], 1);
        heard_after(pair[0], 0, 0);
        printf("\n");
    }
    return 0;
}
