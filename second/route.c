/* A search for paths, channel by channel, that remembers what it found. */
#include "route.h"

#include "rules.h"

#include <stdlib.h>
#include <string.h>

enum { DELIVER = 16 };

/* What the search at hand is about. */
static struct {
    struct mesh mesh;
    unsigned destination;
    struct place goal; /* where the destination lies */
} topic;

/* The first hops found for a packet at a node that travelled a certain way, under the topic. */
static unsigned char found[SIDE_MAX * SIDE_MAX][ARRIVALS];
static const unsigned char UNSEARCHED = 255;

static unsigned distance_left(struct place at)
{
    return (unsigned)(abs(topic.goal.column - at.column) + abs(topic.goal.row - at.row));
}

static unsigned first_hops(struct place at, unsigned travelled, unsigned channels);

/* Whether a legal path of exactly so many channels leads from here to the destination. */
static bool arrives(struct place at, unsigned travelled, unsigned channels)
{
    if (distance_left(at) > channels)
        return false;
    return channels == 0 || first_hops(at, travelled, channels) != 0;
}

/* The hops with which such a path can begin. `channels` is no part of the key of `found`: the
 * search sets out with the distance, a hop changes the distance by one and uses one channel, and
 * arrives() turns back where the distance is the greater, so here the two are always equal. */
static unsigned first_hops(struct place at, unsigned travelled, unsigned channels)
{
    unsigned char *known = &found[node_at(&topic.mesh, at)][travelled];
    if (*known == UNSEARCHED) {
        unsigned hops = 0;
        for (unsigned way = 0; way < WAYS; way++) {
            struct place next = neighbour(at, way);
            if (on_mesh(&topic.mesh, next) && turn_allowed(topic.mesh.rule, at, travelled, way) &&
                arrives(next, way, channels - 1))
                hops |= 1u << way;
        }
        *known = (unsigned char)hops;
    }
    return *known;
}

static void turn_to(const struct mesh *mesh, unsigned destination)
{
    if (same_mesh(&topic.mesh, mesh) && topic.destination == destination)
        return;
    topic.mesh = *mesh;
    topic.destination = destination;
    topic.goal = place_of(mesh, destination);
    memset(found, UNSEARCHED, sizeof found);
}

/* A packet travelling some way has just left the node that lies the other way. */
static bool arrival_possible(struct place at, unsigned arrival)
{
    if (arrival >= ARRIVALS)
        return false;
    return arrival == LOCAL || on_mesh(&topic.mesh, neighbour(at, opposite(arrival)));
}

static struct second_answer refused(unsigned number)
{
    return (struct second_answer){number, 0};
}

struct second_answer second_route(unsigned columns, unsigned rows, unsigned rule, unsigned node,
                                  unsigned arrival, unsigned destination)
{
    struct mesh mesh = {columns, rows, rule};
    unsigned refusal = refusal_of_mesh(&mesh);
    if (refusal != OK)
        return refused(refusal);
    if (node >= columns * rows || destination >= columns * rows)
        return refused(BAD_NODE);
    turn_to(&mesh, destination);
    struct place at = place_of(&mesh, node);
    if (!arrival_possible(at, arrival))
        return refused(BAD_ARRIVAL);
    if (node == destination)
        return (struct second_answer){OK, DELIVER};
    unsigned hops = first_hops(at, arrival, distance_left(at));
    return hops == 0 ? refused(NO_PATH) : (struct second_answer){OK, hops};
}
