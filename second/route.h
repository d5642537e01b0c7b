/* The routing question answered by looking for paths. Nothing here is shared with the proved
 * crates: tests/compare_route.c sets the two side by side. */
#ifndef SECOND_ROUTE_H
#define SECOND_ROUTE_H

struct second_answer {
    unsigned refusal; /* 0, or 1, 2, 3, 4, 11 */
    unsigned outputs; /* west 1, east 2, south 4, north 8, summed; 16 to deliver; 0 if refused */
};

/* Takes any arguments. It remembers between calls what it found, so one thread only; it is quick
 * when questions about one mesh, rule and destination come in a row. */
struct second_answer second_route(unsigned columns, unsigned rows, unsigned rule, unsigned node,
                                  unsigned arrival, unsigned destination);

#endif
