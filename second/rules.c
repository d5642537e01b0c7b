/* The turns that a rule forbids, as the published rules list them. Nothing here is shared with the
 * proved crates. */
#include "rules.h"

enum columns_meant { ALL_COLUMNS, EVEN_COLUMNS, ODD_COLUMNS };

struct turn {
    unsigned before, after; /* the ways travelled into and out of the node */
    enum columns_meant where;
};

static const struct {
    unsigned count;
    struct turn turns[4];
} forbidden[RULES] = {
    [XY] = {4, {{NORTH, EAST, ALL_COLUMNS},
                {NORTH, WEST, ALL_COLUMNS},
                {SOUTH, EAST, ALL_COLUMNS},
                {SOUTH, WEST, ALL_COLUMNS}}},
    [WEST_FIRST] = {2, {{NORTH, WEST, ALL_COLUMNS}, {SOUTH, WEST, ALL_COLUMNS}}},
    [NORTH_LAST] = {2, {{NORTH, EAST, ALL_COLUMNS}, {NORTH, WEST, ALL_COLUMNS}}},
    [NEGATIVE_FIRST] = {2, {{NORTH, WEST, ALL_COLUMNS}, {EAST, SOUTH, ALL_COLUMNS}}},
    [ODD_EVEN] = {4, {{EAST, NORTH, EVEN_COLUMNS},
                      {EAST, SOUTH, EVEN_COLUMNS},
                      {NORTH, WEST, ODD_COLUMNS},
                      {SOUTH, WEST, ODD_COLUMNS}}},
};

bool turn_allowed(unsigned rule, struct place at, unsigned before, unsigned after)
{
    if (before == LOCAL || before == after)
        return true;
    if (after == opposite(before))
        return false;
    enum columns_meant here = at.column % 2 == 0 ? EVEN_COLUMNS : ODD_COLUMNS;
    for (unsigned i = 0; i < forbidden[rule].count; i++) {
        const struct turn *turn = &forbidden[rule].turns[i];
        if (turn->before == before && turn->after == after &&
            (turn->where == ALL_COLUMNS || turn->where == here))
            return false;
    }
    return true;
}
