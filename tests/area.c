#define _DEFAULT_SOURCE
#include "area.h"

#include <stdio.h>
#include <stdlib.h>
#include <string.h>
#include <sys/mman.h>
#include <unistd.h>

#define KNOWN 64 /* bytes of known words */

static uint8_t known(size_t k) { return (uint8_t)(0xa5 ^ 29 * k); }

void area_make(area *a, const char *name, size_t most) {
    size_t page = (size_t)sysconf(_SC_PAGESIZE);
    int side;
    a->name = name;
    a->most = most;
    a->span = (most + KNOWN + page - 1) / page * page;
    for (side = 0; side < 2; side++) {
        a->pages[side] = mmap(NULL, a->span + 2 * page, PROT_NONE, MAP_PRIVATE | MAP_ANONYMOUS, -1, 0);
        if (a->pages[side] == MAP_FAILED || mprotect(a->pages[side] + page, a->span, PROT_READ | PROT_WRITE) != 0) {
            perror("area");
            exit(2);
        }
        a->pages[side] += page;
    }
}

/* Where the known words begin. */
static uint8_t *beside(const area *a, int side) {
    return a->at_end ? a->start[side] - KNOWN : a->start[side] + a->size;
}

void area_place(area *a, rng *r, size_t size) {
    int side;
    size_t k;
    if (size > a->most) {
        fprintf(stderr, "area %s: %zu bytes asked for\n", a->name, size);
        exit(2);
    }
    a->size = size;
    a->at_end = !one_in(r, 3);
    for (side = 0; side < 2; side++) {
        a->start[side] = a->at_end ? a->pages[side] + a->span - size : a->pages[side];
        memset(a->start[side], 0, size);
        for (k = 0; k < KNOWN; k++) beside(a, side)[k] = known(k);
    }
}

void area_share(area *a) { memcpy(a->start[1], a->start[0], a->size); }

const char *area_differs(const area *a, size_t *place) {
    int side;
    size_t k;
    for (side = 0; side < 2; side++)
        for (k = 0; k < KNOWN; k++)
            if (beside(a, side)[k] != known(k)) {
                *place = k;
                return side == 0 ? "the library wrote beside the area" : "the model wrote beside the area";
            }
    if (memcmp(a->start[0], a->start[1], a->size) == 0) return 0;
    for (k = 0; a->start[0][k] == a->start[1][k];) k++;
    *place = k;
    return "the contents differ";
}
