/* The formulas of the house numbering, one function for each rule; and the pairs of channels
 * between which numbers must rise, found by trying all pairs. */
#include "number.h"

#include "rules.h"

/* A channel is the incoming one of two pairs at the most. */
enum { CHANNELS = WAYS * SIDE_MAX * SIDE_MAX, PAIRS = 2 * CHANNELS };

/* What the formulas speak of, for the channel that leaves (c, r) on a mesh of C by R. */
struct terms {
    unsigned C, R, c, r;
    unsigned u, d; /* steps from (c, r) to the east edge and to the north edge */
    unsigned v;    /* steps to (c, r) from the edge behind a north or south channel */
};

static unsigned xy(unsigned way, struct terms t)
{
    switch (way) {
    case EAST:
        return t.c;
    case WEST:
        return t.u;
    default:
        return t.C + t.v;
    }
}

static unsigned west_first(unsigned way, struct terms t)
{
    switch (way) {
    case WEST:
        return t.u;
    case EAST:
        return t.C + t.c * (t.R + 1) + t.R;
    default:
        return t.C + t.c * (t.R + 1) + t.v;
    }
}

static unsigned north_last(unsigned way, struct terms t)
{
    switch (way) {
    case EAST:
        return t.d * (t.C + 1) + t.c;
    case WEST:
        return t.d * (t.C + 1) + t.u;
    case SOUTH:
        return t.d * (t.C + 1) + t.C;
    default:
        return t.R * (t.C + 1) + t.r;
    }
}

static unsigned negative_first(unsigned way, struct terms t)
{
    bool positive = way == EAST || way == NORTH;
    return positive ? t.C + t.R - 2 + t.c + t.r : t.C + t.R - 2 - t.c - t.r;
}

/* Only north and south go by the parity of the column. */
static unsigned odd_even(unsigned way, struct terms t)
{
    switch (way) {
    case WEST:
        return t.u * (t.R + 1) + t.R;
    case EAST:
        return (t.C + t.c) * (t.R + 1) + t.R;
    default:
        return t.c % 2 == 0 ? t.u * (t.R + 1) + t.v : (t.C + t.c) * (t.R + 1) + t.v;
    }
}

static unsigned (*const formulas[RULES])(unsigned way, struct terms t) = {
    [XY] = xy,
    [WEST_FIRST] = west_first,
    [NORTH_LAST] = north_last,
    [NEGATIVE_FIRST] = negative_first,
    [ODD_EVEN] = odd_even,
};

static struct terms terms_of(const struct mesh *mesh, struct place from, unsigned way)
{
    struct terms t = {.C = mesh->columns, .R = mesh->rows};
    t.c = (unsigned)from.column;
    t.r = (unsigned)from.row;
    t.u = t.C - 1 - t.c;
    t.d = t.R - 1 - t.r;
    t.v = way == NORTH ? t.r : t.d;
    return t;
}

static unsigned house_number(const struct mesh *mesh, unsigned channel)
{
    unsigned way = channel % WAYS;
    if (!on_mesh(mesh, end_of(mesh, channel)))
        return 0;
    return formulas[mesh->rule](way, terms_of(mesh, place_of(mesh, channel / WAYS), way));
}

static unsigned refusal_of_list(const struct mesh *mesh, size_t length)
{
    unsigned refusal = refusal_of_mesh(mesh);
    if (refusal != OK)
        return refusal;
    return length == 4 * mesh->columns * mesh->rows ? OK : BAD_SIZE;
}

unsigned second_number(unsigned columns, unsigned rows, unsigned rule, uint16_t *list,
                       size_t length)
{
    struct mesh mesh = {columns, rows, rule};
    unsigned refusal = refusal_of_list(&mesh, length);
    if (refusal != OK)
        return refusal;
    for (unsigned channel = 0; channel < length; channel++)
        list[channel] = (uint16_t)house_number(&mesh, channel);
    return OK;
}

struct channel {
    bool exists;
    unsigned from, way, to; /* the nodes it joins; no meaning if it does not exist */
};

static struct channel channel_of(const struct mesh *mesh, unsigned number)
{
    struct channel channel = {.from = number / WAYS, .way = number % WAYS};
    struct place end = end_of(mesh, number);
    channel.exists = on_mesh(mesh, end);
    channel.to = channel.exists ? node_at(mesh, end) : 0;
    return channel;
}

static bool at_right_angles(unsigned one, unsigned other)
{
    return one != other && one != opposite(other);
}

static bool must_rise(const struct mesh *mesh, const struct channel *incoming,
                      const struct channel *outgoing)
{
    return incoming->exists && outgoing->exists && incoming->to == outgoing->from &&
           at_right_angles(incoming->way, outgoing->way) &&
           turn_allowed(mesh->rule, place_of(mesh, outgoing->from), incoming->way, outgoing->way);
}

/* The pairs of the mesh and rule at hand. */
static struct {
    struct mesh mesh;
    size_t count;
    struct second_pair pairs[PAIRS];
} topic;

static void turn_to(const struct mesh *mesh)
{
    static struct channel channels[CHANNELS];
    unsigned count = WAYS * mesh->columns * mesh->rows;
    if (same_mesh(&topic.mesh, mesh))
        return;
    topic.mesh = *mesh;
    topic.count = 0;
    for (unsigned number = 0; number < count; number++)
        channels[number] = channel_of(mesh, number);
    for (unsigned incoming = 0; incoming < count; incoming++)
        for (unsigned outgoing = 0; outgoing < count; outgoing++)
            if (must_rise(mesh, &channels[incoming], &channels[outgoing]))
                topic.pairs[topic.count++] =
                    (struct second_pair){(uint16_t)incoming, (uint16_t)outgoing};
}

size_t second_pairs(unsigned columns, unsigned rows, unsigned rule,
                    const struct second_pair **pairs)
{
    turn_to(&(struct mesh){columns, rows, rule});
    *pairs = topic.pairs;
    return topic.count;
}

struct second_checked second_check(unsigned columns, unsigned rows, unsigned rule,
                                   const uint16_t *list, size_t length)
{
    struct mesh mesh = {columns, rows, rule};
    unsigned refusal = refusal_of_list(&mesh, length);
    if (refusal != OK)
        return (struct second_checked){refusal, 0, 0};
    turn_to(&mesh);
    for (size_t i = 0; i < topic.count; i++) {
        const struct second_pair *pair = &topic.pairs[i];
        if (list[pair->outgoing] <= list[pair->incoming])
            return (struct second_checked){NOT_RISING, pair->incoming, pair->outgoing};
    }
    return (struct second_checked){OK, 0, 0};
}
