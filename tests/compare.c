#define _POSIX_C_SOURCE 200809L
#include "compare.h"

#include <inttypes.h>
#include <signal.h>
#include <stdarg.h>
#include <stdio.h>
#include <string.h>
#include <unistd.h>

#include "cases.h"
#include "groups.h"
#include "texts.h"

uint64_t seed = 20200427, number;
char doing[512] = "nothing yet";

_Noreturn void differ(const char *what, ...) {
    va_list rest;
    va_start(rest, what);
    printf("differential: first difference at seed %" PRIu64 ", case %" PRIu64 "\n  %s\n  ", seed, number, doing);
    vprintf(what, rest);
    va_end(rest);
    printf("\n  again: differential --seed %" PRIu64 " --case %" PRIu64 "\n", seed, number);
    fflush(stdout);
    _exit(1);
}

void stopped(int sig) {
    differ("%s", sig == SIGALRM ? "the call did not return in 100 seconds" : "a read or write outside what was lent");
}

area words, slots, ledger, value, lag, asks, burst_answers, group_words, group_bytes, entry_count, ids, answers, line, room, input, out, written;

void same_areas(area *const *list) {
    size_t place;
    const char *wrong;
    for (; *list; list++)
        if ((wrong = area_differs(*list, &place)) != 0) {
            uint64_t a = 0, b = 0;
            size_t at = place / 8 * 8, many = (*list)->size - at;
            if (at < (*list)->size) {
                memcpy(&a, (*list)->start[0] + at, many < 8 ? many : 8);
                memcpy(&b, (*list)->start[1] + at, many < 8 ? many : 8);
            }
            differ("%s: %s at byte %zu; 8 bytes from byte %zu: library %" PRIu64 ", model %" PRIu64, (*list)->name, wrong, place, at, a, b);
        }
}

void same_answers(uint64_t lib, uint64_t mod, const char *what) {
    if (lib != mod) differ("%s: library %" PRIu64 ", model %" PRIu64, what, lib, mod);
}

void noise(rng *r, area *a) {
    size_t k;
    for (k = 0; k < a->size; k += 8) {
        uint64_t n = draw(r);
        memcpy(a->start[0] + k, &n, a->size - k < 8 ? a->size - k : 8);
    }
    area_share(a);
}

void make_areas(void) {
    area_make(&words, "words", 65570 * 8);
    area_make(&slots, "slots", 1025 * sizeof(wg_parcel));
    area_make(&ledger, "ledger", sizeof(wg_ledger));
    area_make(&value, "value", 8);
    area_make(&lag, "lag", 4);
    area_make(&asks, "asks", (4 * LONGEST_BURST + 3) * 8);
    area_make(&burst_answers, "answers", (2 * LONGEST_BURST + 20) * 8);
    area_make(&group_words, "entries", (GROUP_WORDS + 120) * 8);
    area_make(&group_bytes, "bytes", GROUP_BYTES);
    area_make(&entry_count, "count", sizeof(size_t));
    area_make(&ids, "ids", 4100 * 8);
    area_make(&answers, "answers", 600);
    area_make(&line, "line", 2 * LINE_ROOM);
    area_make(&room, "buffer", 2 * LINE_ROOM);
    area_make(&input, "input", TEXT_MAX);
    area_make(&out, "out", 1 << 20);
    area_make(&written, "written", sizeof(size_t));
}
