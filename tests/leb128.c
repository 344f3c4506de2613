/* leb128.c: asks the library about single numbers, for leb128.py. Each line of standard input is a question:
 *
 *   = NUMBER    how the number is written: as an id, as a gap less 1, and as a length less 1, each in hexadecimal digits, or - where it is too large
 *   ? DIGITS    how the bytes with these hexadecimal digits are read in the same three places: the refusal and the number, three times
 *   !           the numbers that the assembler wrote, all of them on end
 *
 * The numbers of the assembler are those of leb128.py, which lets it write them with its own directive, .uleb128. */
#include <inttypes.h>
#include <stdio.h>
#include <stdlib.h>
#include <string.h>

#include "wiregantry.h"

extern const uint8_t assembled[], assembled_end[];

static void print_digits(const uint8_t *bytes, size_t n) {
    size_t k;
    for (k = 0; k < n; k++) printf("%02x", bytes[k]);
}

/* The bytes of a group without those in front of the number and behind it. */
static void print_written(const uint64_t *entries, size_t many, size_t front, size_t behind) {
    uint8_t bytes[WG_GROUP_MAX];
    size_t n;
    if (wg_write_group(entries, WG_ENTRIES(many), bytes, sizeof bytes, &n) != WG_ACCEPTED) exit(2);
    print_digits(bytes + front, n - front - behind);
}

static void write_number(uint64_t number) {
    uint64_t id[2] = {0, 1}, gap[4] = {0, 1, 0, 1}, length[2] = {0, 0};
    id[0] = number;
    print_written(id, 1, 1, 1);
    printf(" ");
    gap[2] = number + 1;
    if (number < UINT64_MAX) print_written(gap, 2, 3, 1);
    else printf("-");
    printf(" ");
    length[1] = number + 1;
    if (number < WG_LENGTH_MAX) print_written(length, 1, 2, 0);
    else printf("-");
    printf("\n");
}

/* A group of some bytes, the bytes of the question, and some more; which of its words is the number, and what it is less. */
static void print_read(const char *front, size_t n_front, const uint8_t *bytes, size_t n, size_t behind, size_t which, uint64_t less) {
    uint8_t all[128];
    uint64_t entries[WG_ENTRIES(WG_GROUP_ENTRIES)];
    size_t count;
    uint32_t refusal;
    memset(all, 0, sizeof all);
    memcpy(all, front, n_front);
    memcpy(all + n_front, bytes, n);
    refusal = wg_read_group(all, n_front + n + behind, entries, WG_ENTRIES(WG_GROUP_ENTRIES), &count);
    printf("%" PRIu32 " %" PRIu64 " ", refusal, refusal == WG_ACCEPTED ? entries[which] - less : 0);
}

static void read_bytes(const char *digits) {
    uint8_t bytes[64];
    size_t n = strlen(digits) / 2, k;
    unsigned byte;
    for (k = 0; k < n && sscanf(digits + 2 * k, "%2x", &byte) == 1; k++) bytes[k] = (uint8_t)byte;
    print_read("\1", 1, bytes, n, 1, 0, 0);
    print_read("\2\0\0", 3, bytes, n, 1, 2, 1);
    print_read("\1\0", 2, bytes, n, 0, 1, 1);
    printf("\n");
}

int main(void) {
    char line[160];
    while (fgets(line, sizeof line, stdin)) {
        line[strcspn(line, "\n")] = 0;
        if (line[0] == '=') write_number(strtoull(line + 1, 0, 10));
        else if (line[0] == '?') read_bytes(line + 2);
        else {
            print_digits(assembled, (size_t)(assembled_end - assembled));
            printf("\n");
        }
    }
    return 0;
}
