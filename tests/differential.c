/* differential.c: the library and the model on the same inputs. Both are lent the same memory, twice; answers and all that was lent must be
 * equal afterwards. Cases are numbered, and a case depends on the seed and its number alone.
 *
 *   differential [--seed S] [--cases N] [--case K]
 *
 * Prints how often each refusal was met; ends with status 1 at the first difference, or if a refusal that a call can give was not met. */
#define _POSIX_C_SOURCE 200809L
#include <inttypes.h>
#include <signal.h>
#include <stdio.h>
#include <stdlib.h>
#include <string.h>
#include <unistd.h>

#include "cases.h"
#include "compare.h"
#include "met.h"

static uint64_t cases = 200000;

static void one_case(uint64_t k) {
    rng r = rng_of(seed, k);
    int large = one_in(&r, 150);
    number = k;
    switch (below(&r, 25)) {
    case 0: case 1: case 2: case_run(&r, large); break;
    case 3: case 4: case 5: case 6: case_state(&r, large); break;
    case 7: case 8: case_damage(&r, large); break;
    case 9: case_sizes(&r); break;
    case 10: case 11: case_members(&r, large); break;
    case 12: case 13: case_read(&r); break;
    case 14: case_write(&r); break;
    case 15: case_burst(&r, large); break;
    case 16: case 17: case_merge(&r, large); break;
    case 18: case 19: case_group(&r); break;
    case 20: case 21: case_absorb(&r, large); break;
    case 22: case_repairs(&r, large); break;
    case 23: case_round(&r, large); break;
    default: case_report(&r, large);
    }
}

int main(int n_args, char **args) {
    uint64_t k, only = UINT64_MAX;
    int a, missed;
    for (a = 1; a + 1 < n_args; a += 2) {
        uint64_t given = strtoull(args[a + 1], 0, 10);
        if (strcmp(args[a], "--seed") == 0) seed = given;
        else if (strcmp(args[a], "--cases") == 0) cases = given;
        else if (strcmp(args[a], "--case") == 0) only = given;
        else a = n_args;
    }
    if (a != n_args) {
        fprintf(stderr, "usage: differential [--seed S] [--cases N] [--case K]\n");
        return 2;
    }
    make_areas();
    signal(SIGSEGV, stopped);
    signal(SIGBUS, stopped);
    signal(SIGILL, stopped);
    signal(SIGALRM, stopped);
    if (only != UINT64_MAX) {
        one_case(only);
        printf("differential: seed %" PRIu64 ", case %" PRIu64 ": no difference in %s\n", seed, only, doing);
        return 0;
    }
    for (k = 0; k < cases; k++) {
        if (k % 1024 == 0) alarm(100);
        one_case(k);
    }
    missed = print_met();
    printf("differential: seed %" PRIu64 ", %" PRIu64 " cases, no difference%s\n", seed, cases,
           missed ? "; but some of the above was met too seldom" : "");
    return missed != 0;
}
