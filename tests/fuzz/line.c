/* line.c: any bytes as a step line. The library and the model must agree on the refusal and on every byte of the area, and a line that is read
 * must be written back without its padding. */
#include "model.h"
#include <stdlib.h>
#include <string.h>

enum { ROOM = 40 };

int LLVMFuzzerTestOneInput(const uint8_t *data, size_t n);

int LLVMFuzzerTestOneInput(const uint8_t *data, size_t n) {
    static const uint8_t nothing;
    uint8_t ours[ROOM], theirs[ROOM], back[WG_LINE_MAX], bare[WG_LINE_MAX];
    size_t room = n ? data[n - 1] % (ROOM + 1) : WG_AREA; /* the last byte also says how long the area is */
    if (n == 0) data = &nothing;
    memset(ours, 0xa5, sizeof ours);
    memset(theirs, 0xa5, sizeof theirs);
    if (wg_read_line(data, n, ours, room) != model_read_line(data, n, theirs, room)) abort();
    if (memcmp(ours, theirs, sizeof ours) != 0) abort();
    if (wg_read_line(data, n, ours, WG_AREA) == 0) {
        size_t written = wg_write_line(wg_number(ours, 0), wg_number(ours, 1), wg_number(ours, 2), wg_number(ours, 3), back, sizeof back);
        if (n > WG_LINE_MAX || written != model_unpadded(data, n, bare) || memcmp(back, bare, written) != 0) abort();
    }
    return 0;
}
