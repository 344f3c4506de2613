/* group.c: any bytes as a group. The library and the model must agree on the refusal and on every word, also when the group is absorbed by a small table; what
 * is read must be written back byte for byte, and what was absorbed once must raise nothing. */
#include "model.h"
#include <stdlib.h>
#include <string.h>

enum { ROOM = 140, CAPACITY = 6, TABLE = 2 * CAPACITY };

typedef struct {
    uint64_t words[TABLE];
    wg_parcel slot;
    wg_ledger ledger;
} state;

static void read_both(const uint8_t *bytes, size_t n, size_t room) {
    uint64_t ours[ROOM], theirs[ROOM];
    size_t count = 1, other = 2;
    memset(ours, 0xa5, sizeof ours);
    memset(theirs, 0xa5, sizeof theirs);
    if (wg_read_group(bytes, n, ours, room, &count) != model_read_group(bytes, n, theirs, room, &other)) abort();
    if (count != other || memcmp(ours, theirs, sizeof ours) != 0) abort();
}

static void write_back(const uint8_t *bytes, size_t n) {
    uint64_t entries[ROOM];
    uint8_t back[WG_GROUP_MAX];
    size_t count, written;
    if (wg_read_group(bytes, n, entries, ROOM, &count) != WG_ACCEPTED) return;
    if (wg_write_group(entries, WG_ENTRIES(count), back, sizeof back, &written) != WG_ACCEPTED) abort();
    if (written != n || memcmp(back, bytes, n) != 0) abort();
}

static void absorb_both(const uint8_t *bytes, size_t n) {
    static const uint64_t held[] = {0, 1, 3, 2, 7, 4294967295u};
    static state ours, theirs;
    uint64_t rose = 1, other = 2;
    uint32_t a, b;
    memset(&ours, 0, sizeof ours);
    memcpy(ours.words, held, sizeof held);
    theirs = ours;
    a = wg_absorb(ours.words, TABLE, &ours.slot, 1, &ours.ledger, 1, CAPACITY, 0, bytes, n, &rose);
    b = model_absorb(theirs.words, TABLE, &theirs.slot, 1, &theirs.ledger, 1, CAPACITY, 0, bytes, n, &other);
    if (a != b || rose != other || memcmp(&ours, &theirs, sizeof ours) != 0) abort();
    if (a == WG_ACCEPTED && (wg_absorb(ours.words, TABLE, &ours.slot, 1, &ours.ledger, 1, CAPACITY, 0, bytes, n, &rose) != a || rose != 0)) abort();
}

int LLVMFuzzerTestOneInput(const uint8_t *data, size_t n);

int LLVMFuzzerTestOneInput(const uint8_t *data, size_t n) {
    static const uint8_t nothing;
    size_t room = n ? data[n - 1] % (ROOM + 1) : ROOM; /* the last byte also says how many words there are */
    if (n == 0) data = &nothing;
    read_both(data, n, room);
    read_both(data, n, ROOM);
    write_back(data, n);
    absorb_both(data, n);
    return 0;
}
