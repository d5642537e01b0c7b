/* Memory to lend to the calls of the wormhole machine, once for the archive and once for the second
 * program, with the same contents: how it is filled, how it goes wrong, how the two are compared.
 */
#ifndef COMPARE_MEMORY_H
#define COMPARE_MEMORY_H

#include "../include/mesh.h"
#include "../second/machine.h"
#include "compare.h"

enum { CHANNELS = WAYS * SIDE_MAX * SIDE_MAX, SECTIONS = 3, WORD_VALUES = 65536 };
enum { OWNER, HOLDS, NEXT }; /* the sections */

/* The most words and records that are lent, and how many guards stand before and after them. */
enum { LONGEST = SECTIONS * CHANNELS + WORD_VALUES, MOST = MESH_RECORDS + VALUES, GUARD = 16 };

/* The memory of each, between guards. */
static struct {
    uint16_t words[GUARD + LONGEST + GUARD];
    Record records[GUARD + MOST + GUARD];
} by_archive;

static struct {
    uint16_t words[GUARD + LONGEST + GUARD];
    struct second_record records[GUARD + MOST + GUARD];
} by_second;

/* The contents, to be read. put_word and put_record write them, in both memories. */
static const uint16_t *const words = by_second.words + GUARD;
static const struct second_record *const records = by_second.records + GUARD;

/* The mesh at hand, and how much memory is in use for it, even when less is lent. */
static struct mesh mesh;
static struct {
    size_t length, count;
} used;

static inline Record archive_record(const struct second_record *r)
{
    return (Record){.live = (uint8_t)r->live,
                    .source = (uint16_t)r->source,
                    .destination = (uint16_t)r->destination,
                    .flits = (uint8_t)r->flits,
                    .waiting = (uint8_t)r->waiting,
                    .eaten = (uint8_t)r->eaten,
                    .rear = (uint16_t)r->rear,
                    .front = (uint16_t)r->front};
}

static inline void put_word(size_t word, unsigned value)
{
    by_archive.words[GUARD + word] = by_second.words[GUARD + word] = (uint16_t)value;
}

static inline void put_record(size_t record, struct second_record value)
{
    by_archive.records[GUARD + record] = archive_record(&value);
    by_second.records[GUARD + record] = value;
}

static inline struct second_record any_record(void)
{
    return (struct second_record){below(VALUES),      below(WORD_VALUES), below(WORD_VALUES),
                                  below(VALUES),      below(VALUES),      below(VALUES),
                                  below(WORD_VALUES), below(WORD_VALUES)};
}

/* Guards and all; put_word counts on from the guards before. */
static inline void fill_with_garbage(size_t length, size_t count)
{
    for (size_t i = 0; i < GUARD + length + GUARD; i++)
        put_word(i - GUARD, below(WORD_VALUES));
    for (size_t i = 0; i < GUARD + count + GUARD; i++)
        put_record(i - GUARD, any_record());
}

static inline bool same_record(const Record *a, const struct second_record *b)
{
    return a->live == b->live && a->source == b->source && a->destination == b->destination &&
           a->flits == b->flits && a->waiting == b->waiting && a->eaten == b->eaten &&
           a->rear == b->rear && a->front == b->front;
}

/* Both count from the first guard; as many as there are if nothing differs. */
static inline size_t first_wrong_word(size_t count)
{
    size_t i = 0;
    while (i < count && by_archive.words[i] == by_second.words[i])
        i++;
    return i;
}

static inline size_t first_wrong_record(size_t count)
{
    size_t i = 0;
    while (i < count && same_record(&by_archive.records[i], &by_second.records[i]))
        i++;
    return i;
}

static inline void show_record(const char *who, const struct second_record *r)
{
    printf(", %s %u %u %u %u %u %u %u %u", who, r->live, r->source, r->destination, r->flits,
           r->waiting, r->eaten, r->rear, r->front);
}

static inline void show_wrong_word(size_t word)
{
    printf(", word %td archive %u second %u", (ptrdiff_t)word - GUARD, by_archive.words[word],
           by_second.words[word]);
}

static inline void show_wrong_record(size_t record)
{
    const Record *a = &by_archive.records[record];
    struct second_record archive = {a->live,    a->source, a->destination, a->flits,
                                    a->waiting, a->eaten,  a->rear,        a->front};
    printf(", record %td", (ptrdiff_t)record - GUARD);
    show_record("archive", &archive);
    show_record("second", &by_second.records[record]);
}

static inline size_t greater(size_t a, size_t b)
{
    return a > b ? a : b;
}

/* How many words and records are compared, guards too, and the first that differ. */
struct compared {
    size_t words, records, word, record;
};

/* Compares so many, or as many as are in use. */
static inline struct compared compare_memory(size_t length, size_t count)
{
    struct compared c = {.words = GUARD + greater(length, used.length) + GUARD,
                         .records = GUARD + greater(count, used.count) + GUARD};
    c.word = first_wrong_word(c.words);
    c.record = first_wrong_record(c.records);
    return c;
}

static inline bool all_same(struct compared c)
{
    return c.word == c.words && c.record == c.records;
}

static inline void show_wrong(struct compared c)
{
    if (c.word < c.words)
        show_wrong_word(c.word);
    if (c.record < c.records)
        show_wrong_record(c.record);
}

/* After a difference the archive goes on with the memory of the second program. */
static inline void mend(struct compared c)
{
    for (; c.word < c.words; c.word++)
        by_archive.words[c.word] = by_second.words[c.word];
    for (; c.record < c.records; c.record++)
        by_archive.records[c.record] = archive_record(&by_second.records[c.record]);
}

static inline unsigned nodes(void)
{
    return mesh.columns * mesh.rows;
}

static inline unsigned channels(void)
{
    return channel_count(&mesh);
}

static inline bool exists(unsigned channel)
{
    return channel_exists(&mesh, channel);
}

static inline size_t word_at(unsigned section, unsigned channel)
{
    return section * channels() + channel;
}

static inline unsigned word(unsigned section, unsigned channel)
{
    return words[word_at(section, channel)];
}

static inline void put(unsigned section, unsigned channel, unsigned value)
{
    put_word(word_at(section, channel), value);
}

/* Whether a value may stand in a section, by what the scope says of each. */
static inline bool word_in_range(unsigned section, unsigned value)
{
    if (section == OWNER)
        return value <= used.count;
    if (section == HOLDS)
        return value <= 1;
    return value == 0 || exists(value - 1);
}

/* Records at the edges of the range, for every mesh. */
static const struct edge {
    struct second_record record;
    bool in_range;
} edges[] = {
    {{0, 0, 0, 0, 0, 0, 0, 0}, true},      {{0, 1, 0, 0, 0, 0, 0, 0}, false},
    {{0, 0, 1, 0, 0, 0, 0, 0}, false},     {{0, 0, 0, 1, 0, 0, 0, 0}, false},
    {{0, 0, 0, 0, 1, 0, 0, 0}, false},     {{0, 0, 0, 0, 0, 1, 0, 0}, false},
    {{0, 0, 0, 0, 0, 0, 2, 0}, false},     {{0, 0, 0, 0, 0, 0, 0, 2}, false},
    {{0, 256, 0, 0, 0, 0, 0, 0}, false},   {{0, 0, 256, 0, 0, 0, 0, 0}, false},
    {{0, 0, 0, 0, 0, 0, 256, 0}, false},   {{0, 0, 0, 0, 0, 0, 0, 256}, false},
    {{0, 0, 3, 4, 2, 1, 2, 2}, false},     {{1, 0, 0, 0, 0, 0, 0, 0}, false},
    {{1, 0, 0, 4, 2, 1, 0, 0}, false},     {{1, 3, 3, 4, 2, 1, 0, 0}, false},
    {{1, 0, 3, 4, 2, 1, 0, 0}, true},      {{1, 0, 3, 4, 2, 1, 2, 2}, true},
    {{2, 0, 3, 4, 2, 1, 2, 2}, false},     {{255, 0, 3, 4, 2, 1, 2, 2}, false},
    {{2, 0, 0, 0, 0, 0, 0, 0}, false},     {{1, 0, 3, 0, 0, 0, 0, 0}, false},
    {{1, 0, 3, 1, 0, 0, 0, 0}, true},      {{1, 0, 3, 1, 1, 1, 0, 0}, true},
    {{1, 0, 3, 1, 2, 0, 0, 0}, false},     {{1, 0, 3, 1, 0, 2, 0, 0}, false},
    {{1, 0, 3, 4, 4, 4, 0, 0}, true},      {{1, 0, 3, 4, 5, 0, 0, 0}, false},
    {{1, 0, 3, 4, 0, 5, 0, 0}, false},     {{1, 0, 3, 4, 255, 0, 0, 0}, false},
    {{1, 0, 3, 4, 0, 255, 0, 0}, false},   {{1, 0, 3, 200, 200, 200, 0, 0}, true},
    {{1, 0, 3, 200, 201, 0, 0, 0}, false}, {{1, 0, 3, 200, 0, 201, 0, 0}, false},
    {{1, 0, 3, 201, 0, 0, 0, 0}, false},   {{1, 0, 3, 255, 0, 0, 0, 0}, false},
};
enum { EDGES = sizeof edges / sizeof edges[0] };

/* And those that go by the number of nodes. */
enum { NODE_EDGES = 10 };

static inline struct edge node_edge(unsigned number)
{
    unsigned all = nodes();
    const struct {
        unsigned source, destination;
        bool in_range;
    } ends[NODE_EDGES] = {
        {all - 1, 0, true},  {0, all - 1, true},  {all, 0, false},       {0, all, false},
        {65535, 0, false},   {0, 65535, false},   {all - 1, all, false}, {all, all, false},
        {256 + 3, 1, false}, {1, 256 + 3, false},
    };
    struct second_record record = {1, ends[number].source, ends[number].destination, 4, 2, 1, 0, 0};
    return (struct edge){record, ends[number].in_range};
}

/* And those with a certain word for rear or front. */
static inline struct edge end_edge(unsigned rear, unsigned front)
{
    return (struct edge){{1, 0, 3, 4, 2, 1, rear, front},
                         word_in_range(NEXT, rear) && word_in_range(NEXT, front)};
}

/* Values from 0 to past all channels, and then some that end like small ones. */
enum { FAR_VALUES = 5 };

static inline unsigned edge_value(unsigned number)
{
    static const unsigned far_values[FAR_VALUES] = {256, 257, 258, 32768, 65535};
    unsigned near = channels() + 3;
    return number < near ? number : far_values[number - near];
}

static inline unsigned edge_values(void)
{
    return channels() + 3 + FAR_VALUES;
}

/* The first and last channel, or any other. */
static inline unsigned edge_channel(void)
{
    const unsigned ends[] = {0, channels() - 1, below(channels()), below(channels())};
    return ends[below(4)];
}

static inline unsigned edge_word(unsigned section)
{
    const unsigned owners[] = {0, 1, (unsigned)used.count, (unsigned)used.count + 1, 65535};
    const unsigned held[] = {0, 1, 2, 256, 65535};
    if (section == OWNER)
        return owners[below(5)];
    return section == HOLDS ? held[below(5)] : edge_value(below(edge_values()));
}

static inline struct edge any_edge(void)
{
    switch (below(4)) {
    case 0:
        return edges[below(EDGES)];
    case 1:
        return node_edge(below(NODE_EDGES));
    case 2:
        return end_edge(edge_value(below(edge_values())), 0);
    default:
        return end_edge(0, edge_value(below(edge_values())));
    }
}

static inline void spoil_word(void)
{
    unsigned section = below(SECTIONS), value = edge_word(section);
    while (word_in_range(section, value))
        value = edge_word(section);
    put(section, edge_channel(), value);
}

static inline void spoil_record(void)
{
    struct edge edge = any_edge();
    while (edge.in_range)
        edge = any_edge();
    put_record(below((unsigned)used.count), edge.record);
}

static inline unsigned some_channel(void)
{
    unsigned channel = below(channels());
    while (!exists(channel))
        channel = below(channels());
    return channel;
}

/* Some channel that ends at a node: the one from the first neighbour from some direction on. */
static inline unsigned some_channel_to(unsigned node)
{
    unsigned way = below(WAYS);
    while (!on_mesh(&mesh, neighbour(place_of(&mesh, node), way)))
        way = (way + 1) % WAYS;
    return WAYS * node_at(&mesh, neighbour(place_of(&mesh, node), way)) + opposite(way);
}

/* Some channel that starts at the end of a channel, or anywhere if that does not exist. */
static inline unsigned some_channel_after(unsigned channel)
{
    unsigned node = exists(channel) ? node_at(&mesh, end_of(&mesh, channel)) : below(nodes());
    unsigned way = below(WAYS);
    while (!exists(WAYS * node + way))
        way = (way + 1) % WAYS;
    return WAYS * node + way;
}

static inline unsigned some_next(unsigned channel)
{
    switch (below(5)) {
    case 0:
        return 0;
    case 1:
        return exists(channel) ? 1 + channel : 0;
    case 2:
        return 1 + some_channel();
    default:
        return 1 + some_channel_after(channel);
    }
}

/* A rear or front, often the likely one. */
static inline unsigned some_end(unsigned likely)
{
    switch (below(4)) {
    case 0:
        return 0;
    case 1:
        return 1 + some_channel();
    default:
        return likely;
    }
}

static inline unsigned some_front(unsigned destination)
{
    return some_end(1 + some_channel_to(destination));
}

/* A live record in range, flits being few or many. */
static inline struct second_record some_live_record(void)
{
    struct second_record r = {.live = 1, .source = below(nodes())};
    r.destination = (r.source + 1 + below(nodes() - 1)) % nodes();
    r.flits = 1 + below(below(4) ? 6 : FLITS_MAX);
    r.waiting = below(2) ? 0 : below(r.flits + 1);
    r.eaten = below(4) ? below(r.flits + 1) : r.flits - 1;
    r.front = some_front(r.destination);
    r.rear = some_end(r.front);
    return r;
}

static inline unsigned some_owner(void)
{
    return below(3) ? below((unsigned)used.count + 1) : 0;
}

/* Sizes that are refused. */
static const size_t wrong_counts[] = {0, 65, 66, 255, 256, 257, 256 + 64};
enum { WRONG_COUNTS = sizeof wrong_counts / sizeof wrong_counts[0], WRONG_LENGTHS = 10 };

/* The last two are the words of a smaller and of a greater mesh. */
static inline size_t wrong_length(unsigned number)
{
    size_t right = used.length;
    const size_t lengths[WRONG_LENGTHS] = {
        0,         1,         right / 3,           right / 3 * 2,          right - 1,
        right + 1, 2 * right, right + WORD_VALUES, right - 12 * mesh.rows, right + 12 * mesh.rows};
    return lengths[number];
}

/* All memory at random, in range. */
static inline void fill_in_range(void)
{
    for (unsigned channel = 0; channel < channels(); channel++) {
        put(OWNER, channel, some_owner());
        put(HOLDS, channel, below(2));
        put(NEXT, channel, some_next(channel));
    }
    for (size_t i = 0; i < used.count; i++)
        put_record(i, below(4) ? some_live_record() : (struct second_record){0});
}

struct move {
    uint8_t record, kind;
    uint16_t channel;
    uint8_t direction;
};

/* A move of one of the first records, which may well be accepted: a follow is from one of the
 * channels that the record holds. */
static inline struct move some_move(unsigned records_tried)
{
    unsigned record = below(records_tried), at = records[record].rear;
    for (unsigned i = below(8); i > 0 && at != 0 && word(NEXT, at - 1) != 0; i--)
        at = word(NEXT, at - 1);
    return (struct move){(uint8_t)record, (uint8_t)below(4),
                         (uint16_t)(at == 0 ? some_channel() : at - 1), (uint8_t)below(WAYS)};
}

/* Makes a move in the memory of each, all of it that is in use being lent; returns the refusal. */
static inline unsigned move_by_archive(const struct move *move)
{
    return mesh_move((uint8_t)mesh.columns, (uint8_t)mesh.rows, (uint8_t)mesh.rule,
                     by_archive.words + GUARD, used.length, by_archive.records + GUARD, used.count,
                     move->record, move->kind, move->channel, move->direction);
}

static inline unsigned move_by_second(const struct move *move)
{
    struct second_memory lent = {by_second.words + GUARD, used.length, by_second.records + GUARD,
                                 used.count};
    return second_move(mesh.columns, mesh.rows, mesh.rule, lent, move->record, move->kind,
                       move->channel, move->direction);
}

#endif
