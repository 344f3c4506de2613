/* Two sites with room for four ids each and two updates under way: one publishes id 7, the other hears of it. */
#include <inttypes.h>
#include <stdio.h>
#include <wiregantry.h>

int main(void) {
    static uint64_t words[WG_WORDS(2, 4)];
    static wg_parcel slots[2];
    static wg_ledger ledger;
    const wg_run run = {words, WG_WORDS(2, 4), slots, 2, &ledger, 2, 4};
    uint64_t length, slot;

    uint32_t refusal = wg_start(&run, 1); /* the first parcel from one site to another has the serial 1 */
    if (refusal == 0) refusal = wg_add(&run, 0, 7, &length);
    if (refusal == 0) refusal = wg_send(&run, 0, 1, 7, &slot);
    if (refusal == 0) refusal = wg_deliver(&run, slot, &length);
    if (refusal != 0) return printf("refused: %s\n", wg_refusal_text(refusal)), 1;
    printf("site 1: id=7 length=%" PRIu64 " listed=%d absorbed=%" PRIu64 "\n", length, wg_listed(length), ledger.absorbed);
    return 0;
}
