/* The house numbering by its formulas, and the check of a numbering by trying every pair of
 * channels. Nothing here is shared with the proved crates: tests/compare_number.c sets the two side
 * by side. */
#ifndef SECOND_NUMBER_H
#define SECOND_NUMBER_H

#include <stddef.h>
#include <stdint.h>

/* Takes any arguments; `length` counts the words of the list. Returns the refusal: 0, or 1, 2, 7.
 * The list is written only if it is 0. */
unsigned second_number(unsigned columns, unsigned rows, unsigned rule, uint16_t *list,
                       size_t length);

struct second_checked {
    unsigned refusal;            /* 0, or 1, 2, 7, 14 */
    unsigned incoming, outgoing; /* with 14 the first pair of channels that fails, else 0, 0 */
};

/* Takes any arguments. Like second_pairs it remembers the pairs of the mesh and rule asked about
 * last, so one thread only; it is quick when questions about one mesh and rule come in a row. */
struct second_checked second_check(unsigned columns, unsigned rows, unsigned rule,
                                   const uint16_t *list, size_t length);

/* Two channels at right angles, the one after the other, where the rule allows the turn. */
struct second_pair {
    uint16_t incoming, outgoing;
};

/* All pairs of a mesh and rule that are served, by incoming, then outgoing; returns how many. They
 * stay until the next question about another mesh or rule. */
size_t second_pairs(unsigned columns, unsigned rows, unsigned rule,
                    const struct second_pair **pairs);

#endif
