/* The traffic list, read and written bit by bit, and the sheet that `mesh run` prints of it, by the
 * machine of machine.h. Nothing here is shared with the proved crates: tests/compare_list.c and
 * tests/compare_run.sh set the two side by side. */
#ifndef SECOND_LIST_H
#define SECOND_LIST_H

#include "machine.h"

/* The longest list, and what a sheet is written into. */
enum { SECOND_LIST_BYTES = 194, SECOND_SHEET_BYTES = 1024 };

struct second_list_read {
    unsigned refusal;                      /* 0, or 12, 1, 2, 7, 3, 6, 5, 10 */
    unsigned columns, rows, rule, packets; /* 0 with a refusal */
};

struct second_written {
    unsigned refusal; /* of writing 0, or 1, 2, 7, 9; of a sheet 0 or 7 */
    size_t length;    /* 0 with a refusal */
};

/* The calls take any arguments, and with a refusal write nothing. One thread only. */

/* Makes the mesh empty and offers it the list's packets in order. */
struct second_list_read second_read(const uint8_t *list, size_t length, struct second_memory lent);

/* The list of the live records, at the start of `out`. */
struct second_written second_write(unsigned columns, unsigned rows, unsigned rule,
                                   struct second_memory lent, uint8_t *out, size_t size);

/* The sheet, at the start of `out`, of reading the list into 64 records and as many of the words as
 * its mesh takes, and draining it. The words of a list that is refused stay as they were. */
struct second_written second_report(const uint8_t *list, size_t length, uint16_t *words,
                                    size_t word_count, uint8_t *out, size_t size);

#endif
