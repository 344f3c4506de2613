/* texts.h: step lines and texts of them, valid and damaged. */
#ifndef TEXTS_H
#define TEXTS_H

#include "random.h"

enum { TEXT_MAX = 33000, LINE_ROOM = 256 };

/* A step line with any numbers (or with small ones, such as the report's run has), now and then with zeros in front of them. It is valid, but for
 * a number of 21 digits now and then. Returns its bytes. */
size_t some_line(rng *r, int small, uint8_t *line);

/* Changes a line a little, in one of the ways that a loose reader would let through; returns its bytes. */
size_t damage_line(rng *r, uint8_t *line, size_t n);

/* A text for the report of at most `most` bytes; returns its bytes. */
size_t some_text(rng *r, uint8_t *text, size_t most);

#endif
