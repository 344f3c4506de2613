/* A queue of datagrams, each a step line as it came off a socket and one of them cut short, drained with one call. */
#include <inttypes.h>
#include <stdio.h>
#include <string.h>
#include <wiregantry.h>

static const char *const queue[] = {
    "step=add node=0 id=7",
    "step=add node=0 id=9",
    "step=send from=0 to=1 id=7",
    "step=send from=0 to=2 id=9",
    "step=deliver sl",
    "step=deliver slot=0",
    "step=lose slot=1",
    "step=deliver slot=1",
    "step=query node=1 id=7",
    "step=query node=2 id=9",
};

enum { SITES = 3, CAPACITY = 8, SLOTS = 4, QUEUED = sizeof queue / sizeof *queue };

/* A line that cannot be read leaves four zeros. They name no step, so it keeps its place in the queue and is answered with a refusal. */
static void read_ask(const char *line, uint64_t *ask) {
    uint8_t area[WG_AREA] = {0};
    unsigned i;
    wg_read_line((const uint8_t *)line, strlen(line), area, sizeof area);
    for (i = 0; i < 4; i++) ask[i] = wg_number(area, i);
}

static void print_answer(const char *line, const uint64_t *answer) {
    if (answer[0] == WG_ACCEPTED) printf("%-28s%" PRIu64 "\n", line, answer[1]);
    else printf("%-28srefused: %s\n", line, wg_refusal_text((uint32_t)answer[0]));
}

int main(void) {
    static uint64_t words[WG_WORDS(SITES, CAPACITY)], asks[WG_ASKS(QUEUED)], answers[WG_BURST_ANSWERS(QUEUED)];
    static wg_parcel slots[SLOTS];
    static wg_ledger ledger;
    const wg_run run = {words, WG_WORDS(SITES, CAPACITY), slots, SLOTS, &ledger, SITES, CAPACITY};
    size_t k;

    uint32_t refusal = wg_start(&run, 1);
    for (k = 0; k < QUEUED; k++) read_ask(queue[k], asks + WG_ASKS(k));
    if (refusal == 0) refusal = wg_do_all(&run, asks, QUEUED, answers);
    if (refusal != 0) return printf("refused: %s\n", wg_refusal_text(refusal)), 1;
    for (k = 0; k < QUEUED; k++) print_answer(queue[k], answers + WG_BURST_ANSWERS(k));
    return 0;
}
