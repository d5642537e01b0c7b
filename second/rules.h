/* The mesh and its turn rules, for the second programs in this directory. The geometry stands here
 * whole, so that a compiler can make it quick; the rules stand in rules.c. */
#ifndef SECOND_RULES_H
#define SECOND_RULES_H

#include <stdbool.h>

enum { WEST, EAST, SOUTH, NORTH, WAYS, LOCAL = WAYS, ARRIVALS };
enum { XY, WEST_FIRST, NORTH_LAST, NEGATIVE_FIRST, ODD_EVEN, RULES };
enum { SIDE_MIN = 2, SIDE_MAX = 16, FLITS_MAX = 200 };

/* The refusals that the second programs give. */
enum {
    OK = 0,
    BAD_SIDE = 1,
    BAD_RULE = 2,
    BAD_NODE = 3,
    BAD_ARRIVAL = 4,
    SAME_NODE = 5,
    BAD_FLITS = 6,
    BAD_SIZE = 7,
    NOT_NOW = 8,
    BAD_MEMORY = 9,
    FULL = 10,
    NO_PATH = 11,
    BAD_LIST = 12,
    BAD_MOVE = 13,
    NOT_RISING = 14
};

struct mesh {
    unsigned columns, rows, rule;
};

struct place {
    int column, row;
};

static inline bool side_served(unsigned side)
{
    return side >= SIDE_MIN && side <= SIDE_MAX;
}

/* OK, BAD_SIDE or BAD_RULE. All that follows wants a mesh for which it is OK. */
static inline unsigned refusal_of_mesh(const struct mesh *mesh)
{
    if (!side_served(mesh->columns) || !side_served(mesh->rows))
        return BAD_SIDE;
    return mesh->rule < RULES ? OK : BAD_RULE;
}

static inline bool same_mesh(const struct mesh *one, const struct mesh *other)
{
    return one->columns == other->columns && one->rows == other->rows && one->rule == other->rule;
}

static inline struct place place_of(const struct mesh *mesh, unsigned node)
{
    return (struct place){(int)(node % mesh->columns), (int)(node / mesh->columns)};
}

static inline unsigned node_at(const struct mesh *mesh, struct place at)
{
    return (unsigned)at.row * mesh->columns + (unsigned)at.column;
}

/* The place one step away, on the mesh or off it. */
static inline struct place neighbour(struct place at, unsigned way)
{
    static const struct place step[WAYS] = {
        [WEST] = {-1, 0}, [EAST] = {1, 0}, [SOUTH] = {0, -1}, [NORTH] = {0, 1}};
    return (struct place){at.column + step[way].column, at.row + step[way].row};
}

static inline bool on_mesh(const struct mesh *mesh, struct place at)
{
    return at.column >= 0 && at.column < (int)mesh->columns && at.row >= 0 &&
           at.row < (int)mesh->rows;
}

/* Where a channel ends; off the mesh if it does not exist. */
static inline struct place end_of(const struct mesh *mesh, unsigned channel)
{
    return neighbour(place_of(mesh, channel / WAYS), channel % WAYS);
}

/* How many numbers of channels there are, four a node. */
static inline unsigned channel_count(const struct mesh *mesh)
{
    return WAYS * mesh->columns * mesh->rows;
}

static inline bool channel_exists(const struct mesh *mesh, unsigned channel)
{
    return channel < channel_count(mesh) && on_mesh(mesh, end_of(mesh, channel));
}

static inline unsigned opposite(unsigned way)
{
    static const unsigned ways[WAYS] = {
        [WEST] = EAST, [EAST] = WEST, [SOUTH] = NORTH, [NORTH] = SOUTH};
    return ways[way];
}

/* Whether a packet that travelled one way into a place, or starts there, may go on another way. */
bool turn_allowed(unsigned rule, struct place at, unsigned before, unsigned after);

#endif
