/* The answer, a move and the draining of a list as a C programmer would write them for speed, with
 * nothing proved: what tests/benchmark.c measures the archives against. Only good lists are
 * drained.
 */
#ifndef PLAIN_H
#define PLAIN_H

#include "../include/mesh.h"

#include <stdbool.h>
#include <stdio.h>
#include <stdlib.h>
#include <string.h>

/* By rule, parity of the column and way before: the ways after that are allowed, as a set. */
static const uint8_t plain_turns[5][2][5] = {
    [MESH_XY] = {{13, 14, 4, 8, 15}, {13, 14, 4, 8, 15}},
    [MESH_WEST_FIRST] = {{13, 14, 6, 10, 15}, {13, 14, 6, 10, 15}},
    [MESH_NORTH_LAST] = {{13, 14, 7, 8, 15}, {13, 14, 7, 8, 15}},
    [MESH_NEGATIVE_FIRST] = {{13, 10, 7, 10, 15}, {13, 10, 7, 10, 15}},
    [MESH_ODD_EVEN] = {{13, 2, 7, 11, 15}, {13, 14, 6, 10, 15}},
};

static inline bool plain_turn(unsigned rule, unsigned column, unsigned before, unsigned after)
{
    return plain_turns[rule][column % 2][before] >> after & 1;
}

/* The set of outputs, 0 if there is none. Whoever goes along the column may go all of it here;
 * whoever goes along the row must find a column to turn in, and the destination's or the one before
 * it is as good as any. */
static inline unsigned plain_outputs(unsigned columns, unsigned rule, unsigned node,
                                     unsigned arrival, unsigned destination)
{
    unsigned c = node % columns, r = node / columns;
    unsigned e = destination % columns, f = destination / columns;
    unsigned h = e < c ? MESH_WEST : MESH_EAST, v = f < r ? MESH_SOUTH : MESH_NORTH;
    unsigned left = e < c ? c - e : e - c, before = e < c ? e + 1 : e - 1, outputs = 0;
    if (node == destination)
        return MESH_DELIVER;
    if (f != r && plain_turn(rule, c, arrival, v) && (left == 0 || plain_turn(rule, c, v, h)))
        outputs |= 1u << v;
    if (left != 0 && plain_turn(rule, c, arrival, h) &&
        (f == r || plain_turn(rule, e, h, v) ||
         (left >= 2 && plain_turn(rule, before, h, v) && plain_turn(rule, before, v, h))))
        outputs |= 1u << h;
    return outputs;
}

/* Whether a packet that travelled that way came from a node of the mesh. */
static inline bool plain_arrives(unsigned columns, unsigned nodes, unsigned node, unsigned arrival)
{
    switch (arrival) {
    case MESH_WEST:
        return node % columns + 1 < columns;
    case MESH_EAST:
        return node % columns != 0;
    case MESH_SOUTH:
        return node + columns < nodes;
    case MESH_NORTH:
        return node >= columns;
    default:
        return arrival == MESH_LOCAL;
    }
}

static inline Routed plain_route(uint8_t columns, uint8_t rows, uint8_t rule, uint16_t node,
                                 uint8_t arrival, uint16_t destination)
{
    unsigned nodes = (unsigned)columns * rows;
    if (columns < 2 || columns > 16 || rows < 2 || rows > 16)
        return (Routed){MESH_BAD_SIDE, 0};
    if (rule > MESH_ODD_EVEN)
        return (Routed){MESH_BAD_RULE, 0};
    if (node >= nodes || destination >= nodes)
        return (Routed){MESH_BAD_NODE, 0};
    if (!plain_arrives(columns, nodes, node, arrival))
        return (Routed){MESH_BAD_ARRIVAL, 0};
    unsigned outputs = plain_outputs(columns, rule, node, arrival, destination);
    return (Routed){outputs == 0 ? MESH_NO_PATH : 0, (uint8_t)outputs};
}

/* The memory of a mesh as it is lent. */
struct plain_mesh {
    unsigned columns, rule, channels;
    uint16_t *owner, *holds, *next;
    Record *records;
};

static inline struct plain_mesh plain_mesh(unsigned columns, unsigned rows, unsigned rule,
                                           uint16_t *words, Record *records)
{
    unsigned channels = 4 * columns * rows;
    return (struct plain_mesh){
        columns, rule, channels, words, words + channels, words + 2 * channels, records};
}

static inline unsigned plain_end(const struct plain_mesh *m, unsigned channel)
{
    unsigned node = channel / 4;
    switch (channel % 4) {
    case MESH_WEST:
        return node - 1;
    case MESH_EAST:
        return node + 1;
    case MESH_SOUTH:
        return node - m->columns;
    default:
        return node + m->columns;
    }
}

/* What follows a flit's leaving a channel. */
static inline void plain_leave(struct plain_mesh *m, Record *r, unsigned channel, bool was_front)
{
    uint16_t next = m->next[channel];
    m->holds[channel] = 0;
    if (r->rear != channel + 1 || r->waiting != 0)
        return;
    m->owner[channel] = m->next[channel] = 0;
    r->rear = next;
    if (was_front && next == 0)
        r->front = 0;
}

/* The four moves; each is false, and changes nothing, if it is not allowed now. */

static inline bool plain_lead(struct plain_mesh *m, unsigned record, unsigned direction)
{
    Record *r = &m->records[record];
    unsigned front = r->front, node = front == 0 ? r->source : plain_end(m, front - 1);
    unsigned arrival = front == 0 ? MESH_LOCAL : (front - 1) % 4, channel = 4 * node + direction;
    if (!r->live || (front == 0 ? r->waiting == 0 : m->holds[front - 1] == 0) ||
        node == r->destination ||
        !(plain_outputs(m->columns, m->rule, node, arrival, r->destination) >> direction & 1) ||
        m->owner[channel] != 0)
        return false;
    m->owner[channel] = (uint16_t)(record + 1);
    m->holds[channel] = 1;
    m->next[channel] = 0;
    r->front = (uint16_t)(channel + 1);
    if (front == 0) {
        r->waiting--;
        r->rear = r->front;
    } else {
        m->next[front - 1] = r->front;
        plain_leave(m, r, front - 1, true);
    }
    return true;
}

static inline bool plain_follow(struct plain_mesh *m, unsigned record, unsigned channel)
{
    Record *r = &m->records[record];
    unsigned next = m->next[channel];
    if (!r->live || m->owner[channel] != record + 1 || m->holds[channel] == 0 || next == 0 ||
        m->holds[next - 1] != 0)
        return false;
    m->holds[next - 1] = 1;
    plain_leave(m, r, channel, r->front == channel + 1);
    return true;
}

static inline bool plain_feed(struct plain_mesh *m, unsigned record)
{
    Record *r = &m->records[record];
    if (!r->live || r->waiting == 0 || r->rear == 0 || m->holds[r->rear - 1] != 0)
        return false;
    r->waiting--;
    m->holds[r->rear - 1] = 1;
    return true;
}

static inline bool plain_eat(struct plain_mesh *m, unsigned record)
{
    Record *r = &m->records[record];
    unsigned front = r->front;
    if (!r->live || front == 0 || plain_end(m, front - 1) != r->destination ||
        m->holds[front - 1] == 0 || r->eaten >= r->flits)
        return false;
    r->eaten++;
    plain_leave(m, r, front - 1, true);
    if (r->eaten == r->flits)
        *r = (Record){0};
    return true;
}

/* A channel leads on where a packet could have come from by the opposite one. */
static inline bool plain_channel(const struct plain_mesh *m, unsigned channel)
{
    return channel < m->channels &&
           plain_arrives(m->columns, m->channels / 4, channel / 4, channel % 4 ^ 1);
}

static inline bool plain_none_or_channel(const struct plain_mesh *m, unsigned word)
{
    return word == 0 || plain_channel(m, word - 1);
}

static inline bool plain_record_fits(const struct plain_mesh *m, const Record *r)
{
    if (r->live == 0)
        return (r->source | r->destination | r->flits | r->waiting | r->eaten | r->rear |
                r->front) == 0;
    return r->live == 1 && r->source < m->channels / 4 && r->destination < m->channels / 4 &&
           r->source != r->destination && r->flits >= 1 && r->flits <= 200 &&
           r->waiting <= r->flits && r->eaten <= r->flits && plain_none_or_channel(m, r->rear) &&
           plain_none_or_channel(m, r->front);
}

static inline bool plain_in_range(const struct plain_mesh *m, size_t count)
{
    for (unsigned channel = 0; channel < m->channels; channel++)
        if (m->owner[channel] > count || m->holds[channel] > 1 ||
            !plain_none_or_channel(m, m->next[channel]))
            return false;
    for (size_t i = 0; i < count; i++)
        if (!plain_record_fits(m, &m->records[i]))
            return false;
    return true;
}

static inline uint8_t plain_move(uint8_t columns, uint8_t rows, uint8_t rule, uint16_t *words,
                                 size_t length, Record *records, size_t count, uint8_t record,
                                 uint8_t kind, uint16_t channel, uint8_t direction)
{
    struct plain_mesh m = plain_mesh(columns, rows, rule, words, records);
    bool made;
    if (columns < 2 || columns > 16 || rows < 2 || rows > 16)
        return MESH_BAD_SIDE;
    if (rule > MESH_ODD_EVEN)
        return MESH_BAD_RULE;
    if (length != 3 * m.channels || count < 1 || count > MESH_RECORDS)
        return MESH_BAD_SIZE;
    if (!plain_in_range(&m, count))
        return MESH_BAD_MEMORY;
    if (record >= count || kind > MESH_EAT || (kind == MESH_LEAD && direction >= 4) ||
        (kind == MESH_FOLLOW && !plain_channel(&m, channel)))
        return MESH_BAD_MOVE;
    if (kind == MESH_LEAD)
        made = plain_lead(&m, record, direction);
    else if (kind == MESH_FOLLOW)
        made = plain_follow(&m, record, channel);
    else
        made = kind == MESH_FEED ? plain_feed(&m, record) : plain_eat(&m, record);
    return made ? 0 : MESH_NOT_NOW;
}

/* Tries everything once; returns how many moves were made, and counts them by record. */
static inline unsigned plain_sweep(struct plain_mesh *m, unsigned *moves)
{
    unsigned made = 0;
    for (unsigned record = 0; record < MESH_RECORDS; record++) {
        unsigned by_record = 0;
        for (unsigned direction = 0; direction < 4; direction++)
            by_record += plain_lead(m, record, direction);
        by_record += plain_feed(m, record);
        by_record += plain_eat(m, record);
        moves[record] += by_record;
        made += by_record;
    }
    for (unsigned channel = 0; channel < m->channels; channel++) {
        unsigned owner = m->owner[channel]; /* it may be given up */
        if (owner != 0 && plain_follow(m, owner - 1, channel)) {
            moves[owner - 1]++;
            made++;
        }
    }
    return made;
}

static inline unsigned plain_node(unsigned columns, unsigned place)
{
    return place % 16 * columns + place / 16;
}

/* The sheet of a good list; returns its length. */
static inline size_t plain_report(const uint8_t *list, size_t length, uint16_t *words, char *out)
{
    unsigned columns = list[0] / 16 + 1u, rows = list[0] % 16 + 1u;
    unsigned moves[MESH_RECORDS] = {0}, total = 0;
    unsigned hops[MESH_RECORDS], packets = (unsigned)(length - 2) / 3;
    Record records[MESH_RECORDS];
    struct plain_mesh m = plain_mesh(columns, rows, list[1] / 32u, words, records);
    memset(words, 0, 3 * m.channels * sizeof *words);
    memset(records, 0, sizeof records);
    for (unsigned i = 0; i < packets; i++) {
        const uint8_t *p = list + 2 + 3 * i;
        uint8_t flits = (uint8_t)(p[2] + 1);
        m.records[i] = (Record){.live = 1,
                                .source = (uint16_t)plain_node(columns, p[0]),
                                .destination = (uint16_t)plain_node(columns, p[1]),
                                .flits = flits,
                                .waiting = flits};
        hops[i] = (unsigned)(abs(p[0] / 16 - p[1] / 16) + abs(p[0] % 16 - p[1] % 16));
    }
    while (plain_sweep(&m, moves) != 0)
        ;
    char *end = out + sprintf(out, "packet hops moves\n");
    for (unsigned i = 0; i < packets; i++) {
        if (m.records[i].live)
            return (size_t)sprintf(out, "stalled\n");
        end += sprintf(end, "%u %u %u\n", i, hops[i], moves[i]);
        total += moves[i];
    }
    return (size_t)(end - out + sprintf(end, "total %u\n", total));
}

#endif
