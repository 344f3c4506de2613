/* After an outage: the tables of three sites stand in one place, each with something that the others missed, and one repair round makes them equal. */
#include <inttypes.h>
#include <stdio.h>
#include <wiregantry.h>

enum { SITES = 3, CAPACITY = 4 };

static void print_site(const uint64_t *words, unsigned site) {
    const uint64_t *table = words + WG_WORDS(site, CAPACITY);
    unsigned k;
    printf("site %u:", site);
    for (k = 0; k < CAPACITY && table[2 * k + 1] != 0; k++) printf(" %" PRIu64 "%s", table[2 * k], wg_listed(table[2 * k + 1]) ? "" : " (withdrawn)");
    printf("\n");
}

int main(void) {
    /* 7 was listed at two sites and withdrawn at one; 8, 9 and 10 are known to one site each */
    static const uint64_t asks[] = {WG_ADD, 0, 0, 7, WG_ADD, 0, 0, 8, WG_ADD, 1, 0, 7, WG_REMOVE, 1, 0, 7, WG_ADD, 1, 0, 9, WG_ADD, 2, 0, 10};
    static uint64_t words[WG_WORDS(SITES, CAPACITY)], answers[WG_BURST_ANSWERS(6)];
    static wg_parcel slots[1];
    static wg_ledger ledger;
    const wg_run run = {words, WG_WORDS(SITES, CAPACITY), slots, 1, &ledger, SITES, CAPACITY};
    uint64_t merges;
    unsigned site;

    uint32_t refusal = wg_start(&run, 1);
    if (refusal == 0) refusal = wg_do_all(&run, asks, 6, answers);
    for (site = 0; site < SITES; site++) print_site(words, site);
    if (refusal == 0) refusal = wg_level(&run, &merges);
    if (refusal != 0) return printf("refused: %s\n", wg_refusal_text(refusal)), 1;
    printf("after %" PRIu64 " merges\n", merges);
    for (site = 0; site < SITES; site++) print_site(words, site);
    return 0;
}
