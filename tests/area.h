/* area.h: memory to lend. Every area is held twice, one for the library and one for the model. It stands against a page that nobody may touch
 * (at its end, or at its start), and known words stand on its other side: a read or write past the first ends the test, a write past the
 * second is found afterwards. */
#ifndef AREA_H
#define AREA_H

#include <stddef.h>
#include <stdint.h>

#include "random.h"

typedef struct {
    const char *name;
    size_t most, size;        /* bytes that it can have, and has in this case */
    uint8_t *pages[2];        /* 0 the library's, 1 the model's */
    uint8_t *start[2];
    size_t span;              /* usable bytes between the two guard pages */
    int at_end;
} area;

void area_make(area *a, const char *name, size_t most);

/* Gives the area its size and its place for this case, the known words around it, and zeros in it. */
void area_place(area *a, rng *r, size_t size);

/* Takes the contents of the library's copy over into the model's. */
void area_share(area *a);

/* 0 if both copies are equal and the known words stand; else what is wrong, in words, with the place of it. */
const char *area_differs(const area *a, size_t *place);

#endif
