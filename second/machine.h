/* The wormhole machine, worked on channels and packets that have a form of their own and are
 * written back to the lent memory only after an accepted call. Nothing here is shared with the
 * proved crates: tests/compare_machine.c sets the two side by side. list.h builds on it. */
#ifndef SECOND_MACHINE_H
#define SECOND_MACHINE_H

#include <stdbool.h>
#include <stddef.h>
#include <stdint.h>

enum { SECOND_RECORDS = 64, SECOND_NO_RECORD = 255 };

/* A packet as the caller keeps it; all zero is an empty record. */
struct second_record {
    unsigned live;
    unsigned source, destination;
    unsigned flits, waiting, eaten; /* in all, still at the source, taken by the destination */
    unsigned rear, front;           /* 0, or 1 + the oldest and the newest channel held */
};

/* What the caller lends: the words owner, holds and next of all channels, section by section, and
 * the records. `length` counts words, `count` records. */
struct second_memory {
    uint16_t *words;
    size_t length;
    struct second_record *records;
    size_t count;
};

/* The calls take any arguments and any contents of memory, and write memory only if the refusal
 * is 0. They keep what they work on in one place, so one thread only. */

/* Returns the refusal: 0, or 1, 7. */
unsigned second_reset(unsigned columns, unsigned rows, struct second_memory lent);

struct second_offered {
    unsigned refusal; /* 0, or 1, 2, 7, 9, 3, 6, 5, 10 */
    unsigned record;  /* SECOND_NO_RECORD with a refusal */
};

struct second_offered second_offer(unsigned columns, unsigned rows, unsigned rule,
                                   struct second_memory lent, unsigned source, unsigned destination,
                                   unsigned flits);

/* Returns the refusal: 0, or 1, 2, 7, 9, 13, 8. */
unsigned second_move(unsigned columns, unsigned rows, unsigned rule, struct second_memory lent,
                     unsigned record, unsigned kind, unsigned channel, unsigned direction);

/* What an offer and a move look at first: 0, or 1, 2, 7, 9. */
unsigned second_refusal_of_memory(unsigned columns, unsigned rows, unsigned rule,
                                  struct second_memory lent);

/* Whether as many words and records are lent as a mesh of these sides, which are served, takes. */
bool second_sizes_right(unsigned columns, unsigned rows, struct second_memory lent);

/* Makes moves in an order of its own until none is allowed, and adds to each record's count the
 * moves that it made. For memory that calls have left. */
void second_drain(unsigned columns, unsigned rows, unsigned rule, struct second_memory lent,
                  unsigned long moves[SECOND_RECORDS]);

#endif
