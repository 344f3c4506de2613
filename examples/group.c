/* A table as one datagram: the entries of site 0 are written as a group, and site 1 takes the bytes in, twice, and once cut short. */
#include <inttypes.h>
#include <stdio.h>
#include <wiregantry.h>

enum { SITES = 2, CAPACITY = 8 };

int main(void) {
    static const uint64_t asks[] = {WG_ADD, 0, 0, 7, WG_REMOVE, 0, 0, 7, WG_ADD, 0, 0, 9, WG_ADD, 0, 0, 300};
    static uint64_t words[WG_WORDS(SITES, CAPACITY)], answers[WG_BURST_ANSWERS(4)];
    static wg_parcel slots[1];
    static wg_ledger ledger;
    const wg_run run = {words, WG_WORDS(SITES, CAPACITY), slots, 1, &ledger, SITES, CAPACITY};
    uint8_t datagram[WG_GROUP_MAX];
    uint64_t rose, again;
    size_t n, k;

    uint32_t refusal = wg_start(&run, 1);
    if (refusal == 0) refusal = wg_do_all(&run, asks, 4, answers);
    if (refusal == 0) refusal = wg_write_group(words, WG_ENTRIES(3), datagram, sizeof datagram, &n); /* 7, 9 and 300, as they stand in the table */
    if (refusal == 0) refusal = wg_take_in(&run, 1, datagram, n, &rose);
    if (refusal == 0) refusal = wg_take_in(&run, 1, datagram, n, &again);
    if (refusal != 0) return printf("refused: %s\n", wg_refusal_text(refusal)), 1;
    for (k = 0; k < n; k++) printf(k == 0 ? "bytes: %d" : " %d", datagram[k]);
    printf("\nlengths that rose at site 1: %" PRIu64 ", the second time %" PRIu64 "\n", rose, again);
    refusal = wg_take_in(&run, 1, datagram, n - 1, &rose);
    printf("a byte short: %s\n", wg_refusal_text(refusal));
    return 0;
}
