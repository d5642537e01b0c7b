/* Puts the same calls of the wormhole machine to the proved archive and to the second program, each
 * with memory of its own and the same contents, and compares the answers and all memory after every
 * call: cases worked out by hand; every set of faults that a call can have at once; memory at the
 * edges of its range; packets offered and moved until the mesh is empty; memory that no call could
 * have left; stray arguments. Says how many calls were made and how many differ; the exit status is
 * 0 if none does, every known answer was given, and every refusal and every kind of accepted move
 * that can occur did. With --all it makes about ten times as many calls. */
#include "compare_memory.h"

#include <stdlib.h>
#include <string.h>

enum { KINDS = 4 };

enum call { RESET, OFFER, MOVE, CALLS };

struct question {
    enum call call;
    uint8_t columns, rows, rule;
    size_t length, count;
    struct {
        uint16_t source, destination;
        uint8_t flits;
    } packet; /* of an offer */
    struct move move;
};

/* A call that has no record to answer gives 0 here. */
struct answer {
    unsigned refusal, record;
};

/* 1, or with --all more: how many times over the long parts are run. */
static unsigned times = 1;

/* Where the contents of memory come from: calls alone have left them, or damage was done in
 * between, or they were put down for a single question. */
static enum { LEFT, DAMAGED, PUT_DOWN, ORIGINS } origin;

/* How often the archive gave each refusal, and how often it accepted each kind of move. */
static unsigned long refusals[CALLS][VALUES], accepted[ORIGINS][KINDS];

static void show(const char *what, const struct question *q)
{
    printf("%s: %u x %u, rule %u, length %zu, count %zu, ", what, q->columns, q->rows, q->rule,
           q->length, q->count);
    if (q->call == RESET)
        printf("reset");
    else if (q->call == OFFER)
        printf("offer %u to %u, flits %u", q->packet.source, q->packet.destination,
               q->packet.flits);
    else
        printf("move record %u, kind %u, channel %u, direction %u", q->move.record, q->move.kind,
               q->move.channel, q->move.direction);
}

static void show_answers(struct answer archive, struct answer second)
{
    printf(": archive %u record %u, second %u record %u", archive.refusal, archive.record,
           second.refusal, second.record);
}

static struct answer ask_archive(const struct question *q)
{
    uint16_t *lent = by_archive.words + GUARD;
    Record *lent_records = by_archive.records + GUARD;
    if (q->call == RESET)
        return (struct answer){
            mesh_reset(q->columns, q->rows, lent, q->length, lent_records, q->count), 0};
    if (q->call == MOVE)
        return (struct answer){mesh_move(q->columns, q->rows, q->rule, lent, q->length,
                                         lent_records, q->count, q->move.record, q->move.kind,
                                         q->move.channel, q->move.direction),
                               0};
    Offered offered =
        mesh_offer(q->columns, q->rows, q->rule, lent, q->length, lent_records, q->count,
                   q->packet.source, q->packet.destination, q->packet.flits);
    return (struct answer){offered.refusal, offered.record};
}

static struct answer ask_second(const struct question *q)
{
    struct second_memory lent = {by_second.words + GUARD, q->length, by_second.records + GUARD,
                                 q->count};
    if (q->call == RESET)
        return (struct answer){second_reset(q->columns, q->rows, lent), 0};
    if (q->call == MOVE)
        return (struct answer){second_move(q->columns, q->rows, q->rule, lent, q->move.record,
                                           q->move.kind, q->move.channel, q->move.direction),
                               0};
    struct second_offered offered =
        second_offer(q->columns, q->rows, q->rule, lent, q->packet.source, q->packet.destination,
                     q->packet.flits);
    return (struct answer){offered.refusal, offered.record};
}

static bool same(struct answer a, struct answer b)
{
    return a.refusal == b.refusal && a.record == b.record;
}

/* A question about the mesh at hand with nothing wrong. */
static struct question here;

static void compare_both(const struct question *q, struct answer archive, struct answer second)
{
    struct compared memory = compare_memory(q->length, q->count);
    if (same(archive, second) && all_same(memory))
        return;
    if (tally.differ++ < SHOWN) {
        show("differ", q);
        show_answers(archive, second);
        show_wrong(memory);
        printf("\n");
    }
    mend(memory);
}

/* Asks both and returns the archive's answer; `wanted` is the answer known beforehand, or null. */
static struct answer ask(const struct question *q, const char *what, const struct answer *wanted)
{
    struct answer archive = ask_archive(q);
    struct answer second = ask_second(q);
    tally.asked++;
    refusals[q->call][archive.refusal]++;
    if (q->call == MOVE && archive.refusal == OK && q->move.kind < KINDS)
        accepted[origin][q->move.kind]++;
    compare_both(q, archive, second);
    if (wanted != NULL && (!same(archive, *wanted) || !same(second, *wanted)) &&
        tally.unexpected++ < SHOWN) {
        show(what, q);
        show_answers(archive, second);
        printf(", wanted %u record %u\n", wanted->refusal, wanted->record);
    }
    return archive;
}

/* The answer that is due with a refusal, or with acceptance where there is no record to answer. */
static struct answer due(enum call call, unsigned refusal)
{
    return (struct answer){refusal, call == OFFER && refusal != OK ? MESH_NO_RECORD : 0};
}

static void ask_due(const struct question *q, const char *what, unsigned refusal)
{
    struct answer wanted = due(q->call, refusal);
    ask(q, what, &wanted);
}

static struct question question(enum call call)
{
    struct question q = here;
    q.call = call;
    return q;
}

static struct question offer(unsigned source, unsigned destination, unsigned flits)
{
    struct question q = question(OFFER);
    q.packet.source = (uint16_t)source;
    q.packet.destination = (uint16_t)destination;
    q.packet.flits = (uint8_t)flits;
    return q;
}

/* `named` is the direction of a lead and the channel of a follow; what is not named is garbage. */
static struct question move(unsigned record, unsigned kind, unsigned named)
{
    struct question q = question(MOVE);
    q.move = (struct move){(uint8_t)record, (uint8_t)kind, (uint16_t)below(WORD_VALUES),
                           (uint8_t)below(VALUES)};
    if (kind == MESH_LEAD)
        q.move.direction = (uint8_t)named;
    else if (kind == MESH_FOLLOW)
        q.move.channel = (uint16_t)named;
    return q;
}

/* All of memory that is not zero: the words of some channels, which a 0 ends, for there never is a
 * channel 0; and the first two records. */
enum { HELD = 5, KNOWN_RECORDS = 2 };

struct held {
    uint16_t channel, words[SECTIONS];
};

struct state {
    struct held held[HELD];
    struct second_record records[KNOWN_RECORDS];
};

static unsigned known_word(const struct state *state, unsigned section, unsigned channel)
{
    for (const struct held *held = state->held; held->channel != 0; held++)
        if (held->channel == channel)
            return held->words[section];
    return 0;
}

static struct second_record known_record(const struct state *state, size_t record)
{
    return record < KNOWN_RECORDS ? state->records[record] : (struct second_record){0};
}

static void put_state(const struct state *state)
{
    for (unsigned i = 0; i < SECTIONS * channels(); i++)
        put_word(i, known_word(state, i / channels(), i % channels()));
    for (size_t i = 0; i < here.count; i++)
        put_record(i, known_record(state, i));
    origin = PUT_DOWN;
}

/* Looks at one memory: the two have been compared. */
static void expect_state(const char *what, const struct state *state)
{
    unsigned wrong = 0;
    for (unsigned i = 0; i < SECTIONS * channels(); i++)
        wrong += words[i] != known_word(state, i / channels(), i % channels());
    for (size_t i = 0; i < here.count; i++) {
        struct second_record known = known_record(state, i);
        wrong += memcmp(&records[i], &known, sizeof known) != 0;
    }
    if (wrong != 0 && tally.unexpected++ < SHOWN)
        printf("%s: %u words and records are not as known\n", what, wrong);
}

static const struct state empty = {{{0, {0}}}, {{0}}};

static void reset(const char *what)
{
    struct question q = question(RESET);
    ask_due(&q, what, OK);
    expect_state(what, &empty);
    origin = LEFT;
}

/* Turns to a mesh, and makes it empty from garbage. */
static void turn_to(unsigned columns, unsigned rows, unsigned rule, size_t count)
{
    mesh = (struct mesh){columns, rows, rule};
    here = (struct question){.columns = (uint8_t)columns,
                             .rows = (uint8_t)rows,
                             .rule = (uint8_t)rule,
                             .length = SECTIONS * channels(),
                             .count = count};
    used.length = here.length;
    used.count = here.count;
    fill_with_garbage(here.length, here.count);
    reset("reset of garbage");
}

/* A call, the refusal due and the state due; a refused call leaves the state of the step before.
 * OFFERING offers the packet of the case and is due to get `record`; PUTTING puts the state down.
 */
enum { OFFERING = KINDS, PUTTING };

struct step {
    const char *name;
    uint8_t kind, record;
    uint16_t named;
    unsigned refusal;
    struct state state;
};

#define AS_BEFORE {{{0, {0}}}, {{0}}}

/* On 2 x 2 the channels are 1 from node 0 to 1, 3 from 0 to 2, 4 from 1 to 0, 7 from 1 to 3, 9 from
 * 2 to 3, 10 from 2 to 0, 12 from 3 to 2 and 14 from 3 to 1. */

/* One flit from node 0 to 3: it gives up its old channel at once. */
static const struct step one_flit[] = {
    {"offered", OFFERING, 0, 0, OK, {{{0}}, {{1, 0, 3, 1, 1, 0, 0, 0}}}},
    {"no second record", OFFERING, MESH_NO_RECORD, 0, FULL, AS_BEFORE},
    {"xy goes east first", MESH_LEAD, 0, NORTH, NOT_NOW, AS_BEFORE},
    {"off the mesh", MESH_LEAD, 0, WEST, NOT_NOW, AS_BEFORE},
    {"no rear to feed", MESH_FEED, 0, 0, NOT_NOW, AS_BEFORE},
    {"no front to eat from", MESH_EAT, 0, 0, NOT_NOW, AS_BEFORE},
    {"lead", MESH_LEAD, 0, EAST, OK, {{{1, {1, 1, 0}}}, {{1, 0, 3, 1, 0, 0, 2, 2}}}},
    {"nothing at the source", MESH_FEED, 0, 0, NOT_NOW, AS_BEFORE},
    {"not at the destination", MESH_EAT, 0, 0, NOT_NOW, AS_BEFORE},
    {"no next", MESH_FOLLOW, 0, 1, NOT_NOW, AS_BEFORE},
    {"back", MESH_LEAD, 0, WEST, NOT_NOW, AS_BEFORE},
    {"second lead", MESH_LEAD, 0, NORTH, OK, {{{7, {1, 1, 0}}}, {{1, 0, 3, 1, 0, 0, 8, 8}}}},
    {"at the destination", MESH_LEAD, 0, WEST, NOT_NOW, AS_BEFORE},
    {"eaten", MESH_EAT, 0, 0, OK, {{{0}}, {{0}}}},
    {"an empty record", MESH_EAT, 0, 0, NOT_NOW, AS_BEFORE},
    {"the record serves again", OFFERING, 0, 0, OK, {{{0}}, {{1, 0, 3, 1, 1, 0, 0, 0}}}},
};

/* Two flits from node 0 to 5 on 3 x 2, by channels 1, 5 and 11. */
static const struct step two_flits[] = {
    {"offered", OFFERING, 0, 0, OK, {{{0}}, {{1, 0, 5, 2, 2, 0, 0, 0}}}},
    {"lead", MESH_LEAD, 0, EAST, OK, {{{1, {1, 1, 0}}}, {{1, 0, 5, 2, 1, 0, 2, 2}}}},
    {"rear is full", MESH_FEED, 0, 0, NOT_NOW, AS_BEFORE},
    {"second lead", MESH_LEAD, 0, EAST, OK,
     {{{1, {1, 0, 6}}, {5, {1, 1, 0}}}, {{1, 0, 5, 2, 1, 0, 2, 6}}}},
    {"third lead", MESH_LEAD, 0, NORTH, OK,
     {{{1, {1, 0, 6}}, {5, {1, 0, 12}}, {11, {1, 1, 0}}}, {{1, 0, 5, 2, 1, 0, 2, 12}}}},
    {"at the destination", MESH_LEAD, 0, WEST, NOT_NOW, AS_BEFORE},
    {"no flit in it", MESH_FOLLOW, 0, 1, NOT_NOW, AS_BEFORE},
    {"eaten one", MESH_EAT, 0, 0, OK,
     {{{1, {1, 0, 6}}, {5, {1, 0, 12}}, {11, {1, 0, 0}}}, {{1, 0, 5, 2, 1, 1, 2, 12}}}},
    {"front is empty", MESH_EAT, 0, 0, NOT_NOW, AS_BEFORE},
    {"fed", MESH_FEED, 0, 0, OK,
     {{{1, {1, 1, 6}}, {5, {1, 0, 12}}, {11, {1, 0, 0}}}, {{1, 0, 5, 2, 0, 1, 2, 12}}}},
    {"rear is given up", MESH_FOLLOW, 0, 1, OK,
     {{{5, {1, 1, 12}}, {11, {1, 0, 0}}}, {{1, 0, 5, 2, 0, 1, 6, 12}}}},
    {"given up already", MESH_FOLLOW, 0, 1, NOT_NOW, AS_BEFORE},
    {"and the next", MESH_FOLLOW, 0, 5, OK, {{{11, {1, 1, 0}}}, {{1, 0, 5, 2, 0, 1, 12, 12}}}},
    {"eaten both", MESH_EAT, 0, 0, OK, {{{0}}, {{0}}}},
};

/* Three flits from node 0 to 1: the one channel is held as long as flits wait. */
static const struct step one_channel[] = {
    {"offered", OFFERING, 0, 0, OK, {{{0}}, {{1, 0, 1, 3, 3, 0, 0, 0}}}},
    {"lead", MESH_LEAD, 0, EAST, OK, {{{1, {1, 1, 0}}}, {{1, 0, 1, 3, 2, 0, 2, 2}}}},
    {"eaten one", MESH_EAT, 0, 0, OK, {{{1, {1, 0, 0}}}, {{1, 0, 1, 3, 2, 1, 2, 2}}}},
    {"no header", MESH_LEAD, 0, EAST, NOT_NOW, AS_BEFORE},
    {"fed", MESH_FEED, 0, 0, OK, {{{1, {1, 1, 0}}}, {{1, 0, 1, 3, 1, 1, 2, 2}}}},
    {"eaten two", MESH_EAT, 0, 0, OK, {{{1, {1, 0, 0}}}, {{1, 0, 1, 3, 1, 2, 2, 2}}}},
    {"fed the last", MESH_FEED, 0, 0, OK, {{{1, {1, 1, 0}}}, {{1, 0, 1, 3, 0, 2, 2, 2}}}},
    {"eaten all", MESH_EAT, 0, 0, OK, {{{0}}, {{0}}}},
};

/* Two packets of two flits from node 0 to 3: what the first holds, the second does not get. */
static const struct step two_packets[] = {
    {"offered", OFFERING, 0, 0, OK, {{{0}}, {{1, 0, 3, 2, 2, 0, 0, 0}}}},
    {"an empty record's lead", MESH_LEAD, 1, EAST, NOT_NOW, AS_BEFORE},
    {"offered another", OFFERING, 1, 0, OK,
     {{{0}}, {{1, 0, 3, 2, 2, 0, 0, 0}, {1, 0, 3, 2, 2, 0, 0, 0}}}},
    {"no third record", OFFERING, MESH_NO_RECORD, 0, FULL, AS_BEFORE},
    {"lead", MESH_LEAD, 0, EAST, OK,
     {{{1, {1, 1, 0}}}, {{1, 0, 3, 2, 1, 0, 2, 2}, {1, 0, 3, 2, 2, 0, 0, 0}}}},
    {"channel owned, flit in it", MESH_LEAD, 1, EAST, NOT_NOW, AS_BEFORE},
    {"second lead", MESH_LEAD, 0, NORTH, OK,
     {{{1, {1, 0, 8}}, {7, {1, 1, 0}}}, {{1, 0, 3, 2, 1, 0, 2, 8}, {1, 0, 3, 2, 2, 0, 0, 0}}}},
    {"channel owned, no flit in it", MESH_LEAD, 1, EAST, NOT_NOW, AS_BEFORE},
    {"fed", MESH_FEED, 0, 0, OK,
     {{{1, {1, 1, 8}}, {7, {1, 1, 0}}}, {{1, 0, 3, 2, 0, 0, 2, 8}, {1, 0, 3, 2, 2, 0, 0, 0}}}},
    {"next is full", MESH_FOLLOW, 0, 1, NOT_NOW, AS_BEFORE},
    {"eaten one", MESH_EAT, 0, 0, OK,
     {{{1, {1, 1, 8}}, {7, {1, 0, 0}}}, {{1, 0, 3, 2, 0, 1, 2, 8}, {1, 0, 3, 2, 2, 0, 0, 0}}}},
    {"another's channel", MESH_FOLLOW, 1, 1, NOT_NOW, AS_BEFORE},
    {"followed", MESH_FOLLOW, 0, 1, OK,
     {{{7, {1, 1, 0}}}, {{1, 0, 3, 2, 0, 1, 8, 8}, {1, 0, 3, 2, 2, 0, 0, 0}}}},
    {"lead of the other", MESH_LEAD, 1, EAST, OK,
     {{{1, {2, 1, 0}}, {7, {1, 1, 0}}}, {{1, 0, 3, 2, 0, 1, 8, 8}, {1, 0, 3, 2, 1, 0, 2, 2}}}},
    {"further owned", MESH_LEAD, 1, NORTH, NOT_NOW, AS_BEFORE},
    {"eaten both", MESH_EAT, 0, 0, OK, {{{1, {2, 1, 0}}}, {{0}, {1, 0, 3, 2, 1, 0, 2, 2}}}},
    {"lowest record again", OFFERING, 0, 0, OK,
     {{{1, {2, 1, 0}}}, {{1, 0, 3, 2, 2, 0, 0, 0}, {1, 0, 3, 2, 1, 0, 2, 2}}}},
    {"held by the other", MESH_LEAD, 0, EAST, NOT_NOW, AS_BEFORE},
};

/* What follows is memory that no call could have left. */

static const struct step damaged_leads[] = {
    {"no front, a rear", PUTTING, 0, 0, OK, {{{3, {1, 1, 8}}}, {{1, 0, 3, 4, 2, 0, 4, 0}}}},
    {"rear is new", MESH_LEAD, 0, EAST, OK,
     {{{1, {1, 1, 0}}, {3, {1, 1, 8}}}, {{1, 0, 3, 4, 1, 0, 2, 2}}}},
    {"no front, no flits", PUTTING, 0, 0, OK, {{{0}}, {{1, 0, 3, 4, 0, 0, 0, 0}}}},
    {"nothing at the source", MESH_LEAD, 0, EAST, NOT_NOW, AS_BEFORE},
    {"free but full", PUTTING, 0, 0, OK, {{{1, {0, 1, 2}}}, {{1, 0, 3, 4, 1, 4, 0, 0}}}},
    {"taken", MESH_LEAD, 0, EAST, OK, {{{1, {1, 1, 0}}}, {{1, 0, 3, 4, 0, 4, 2, 2}}}},
    {"front another's", PUTTING, 0, 0, OK, {{{1, {2, 1, 5}}}, {{1, 0, 3, 4, 0, 0, 0, 2}}}},
    {"not rear: kept", MESH_LEAD, 0, NORTH, OK,
     {{{1, {2, 0, 8}}, {7, {1, 1, 0}}}, {{1, 0, 3, 4, 0, 0, 0, 8}}}},
    {"rear another's", PUTTING, 0, 0, OK, {{{1, {2, 1, 5}}}, {{1, 0, 3, 4, 0, 0, 2, 2}}}},
    {"given up", MESH_LEAD, 0, NORTH, OK, {{{7, {1, 1, 0}}}, {{1, 0, 3, 4, 0, 0, 8, 8}}}},
    {"one flit to come", PUTTING, 0, 0, OK, {{{1, {0, 1, 2}}}, {{1, 0, 3, 4, 1, 0, 2, 2}}}},
    {"kept", MESH_LEAD, 0, NORTH, OK,
     {{{1, {0, 0, 8}}, {7, {1, 1, 0}}}, {{1, 0, 3, 4, 1, 0, 2, 8}}}},
    {"rear is the free one", PUTTING, 0, 0, OK,
     {{{1, {1, 1, 0}}, {7, {0, 0, 5}}}, {{1, 0, 3, 4, 0, 0, 8, 2}}}},
    {"it stays rear", MESH_LEAD, 0, NORTH, OK,
     {{{1, {1, 0, 8}}, {7, {1, 1, 0}}}, {{1, 0, 3, 4, 0, 0, 8, 8}}}},
    {"front is empty", PUTTING, 0, 0, OK, {{{1, {1, 0, 0}}}, {{1, 0, 3, 4, 2, 0, 2, 2}}}},
    {"no header", MESH_LEAD, 0, NORTH, NOT_NOW, AS_BEFORE},
    {"no path, NW", PUTTING, 0, 0, OK, {{{7, {1, 1, 0}}}, {{1, 1, 2, 2, 0, 0, 8, 8}}}},
    {"west", MESH_LEAD, 0, WEST, NOT_NOW, AS_BEFORE},
    {"east", MESH_LEAD, 0, EAST, NOT_NOW, AS_BEFORE},
    {"south", MESH_LEAD, 0, SOUTH, NOT_NOW, AS_BEFORE},
    {"north", MESH_LEAD, 0, NORTH, NOT_NOW, AS_BEFORE},
};

static const struct step damaged_follows[] = {
    {"front goes on", PUTTING, 0, 0, OK,
     {{{1, {1, 1, 8}}, {7, {2, 0, 5}}}, {{1, 0, 3, 4, 0, 0, 2, 2}}}},
    {"into another's", MESH_FOLLOW, 0, 1, OK, {{{7, {2, 1, 5}}}, {{1, 0, 3, 4, 0, 0, 8, 2}}}},
    {"no rear", PUTTING, 0, 0, OK, {{{1, {1, 1, 8}}}, {{1, 0, 3, 2, 0, 0, 0, 0}}}},
    {"kept", MESH_FOLLOW, 0, 1, OK,
     {{{1, {1, 0, 8}}, {7, {0, 1, 0}}}, {{1, 0, 3, 2, 0, 0, 0, 0}}}},
    {"one to come", PUTTING, 0, 0, OK, {{{1, {1, 1, 8}}}, {{1, 0, 3, 2, 1, 0, 2, 0}}}},
    {"kept for it", MESH_FOLLOW, 0, 1, OK,
     {{{1, {1, 0, 8}}, {7, {0, 1, 0}}}, {{1, 0, 3, 2, 1, 0, 2, 0}}}},
    {"far away", PUTTING, 0, 0, OK, {{{1, {1, 1, 13}}}, {{1, 0, 3, 2, 0, 0, 2, 4}}}},
    {"got there", MESH_FOLLOW, 0, 1, OK, {{{12, {0, 1, 0}}}, {{1, 0, 3, 2, 0, 0, 13, 4}}}},
    {"next is itself", PUTTING, 0, 0, OK, {{{1, {1, 1, 2}}}, {{1, 0, 3, 2, 0, 0, 2, 2}}}},
    {"full", MESH_FOLLOW, 0, 1, NOT_NOW, AS_BEFORE},
    {"free channel", PUTTING, 0, 0, OK, {{{1, {0, 1, 8}}}, {{1, 0, 3, 2, 0, 0, 2, 2}}}},
    {"not this record's", MESH_FOLLOW, 0, 1, NOT_NOW, AS_BEFORE},
    {"no flit", PUTTING, 0, 0, OK, {{{1, {1, 0, 8}}}, {{1, 0, 3, 2, 0, 0, 2, 2}}}},
    {"nothing to move", MESH_FOLLOW, 0, 1, NOT_NOW, AS_BEFORE},
    {"owner not live", PUTTING, 0, 0, OK, {{{1, {1, 1, 8}}}, {{0}}}},
    {"nobody's", MESH_FOLLOW, 0, 1, NOT_NOW, AS_BEFORE},
};

static const struct step damaged_feeds[] = {
    {"rear another's", PUTTING, 0, 0, OK, {{{7, {2, 0, 5}}}, {{1, 0, 3, 4, 2, 4, 8, 0}}}},
    {"fed", MESH_FEED, 0, 0, OK, {{{7, {2, 1, 5}}}, {{1, 0, 3, 4, 1, 4, 8, 0}}}},
    {"full", MESH_FEED, 0, 0, NOT_NOW, AS_BEFORE},
    {"no rear", PUTTING, 0, 0, OK, {{{1, {1, 0, 0}}}, {{1, 0, 3, 4, 2, 0, 0, 2}}}},
    {"nowhere to go", MESH_FEED, 0, 0, NOT_NOW, AS_BEFORE},
    {"nothing left", PUTTING, 0, 0, OK, {{{1, {1, 0, 0}}}, {{1, 0, 3, 4, 0, 0, 2, 2}}}},
    {"nothing to feed", MESH_FEED, 0, 0, NOT_NOW, AS_BEFORE},
};

static const struct step damaged_eats[] = {
    {"next is itself", PUTTING, 0, 0, OK, {{{1, {1, 1, 2}}}, {{1, 0, 1, 2, 0, 0, 2, 2}}}},
    {"rear stays", MESH_EAT, 0, 0, OK, {{{0}}, {{1, 0, 1, 2, 0, 1, 2, 2}}}},
    {"no next", PUTTING, 0, 0, OK, {{{1, {1, 1, 0}}}, {{1, 0, 1, 2, 0, 0, 2, 2}}}},
    {"nothing held", MESH_EAT, 0, 0, OK, {{{0}}, {{1, 0, 1, 2, 0, 1, 0, 0}}}},
    {"another next", PUTTING, 0, 0, OK, {{{1, {1, 1, 8}}}, {{1, 0, 1, 2, 0, 0, 2, 2}}}},
    {"rear goes on", MESH_EAT, 0, 0, OK, {{{0}}, {{1, 0, 1, 2, 0, 1, 8, 2}}}},
    {"much held", PUTTING, 0, 0, OK,
     {{{1, {1, 1, 0}}, {3, {1, 1, 5}}}, {{1, 0, 1, 2, 2, 1, 4, 2}}}},
    {"cleared", MESH_EAT, 0, 0, OK, {{{1, {1, 0, 0}}, {3, {1, 1, 5}}}, {{0}}}},
    {"no rear", PUTTING, 0, 0, OK, {{{1, {1, 1, 0}}}, {{1, 0, 1, 3, 0, 0, 0, 2}}}},
    {"kept", MESH_EAT, 0, 0, OK, {{{1, {1, 0, 0}}}, {{1, 0, 1, 3, 0, 1, 0, 2}}}},
    {"another's", PUTTING, 0, 0, OK, {{{1, {2, 1, 0}}}, {{1, 0, 1, 3, 1, 1, 2, 2}}}},
    {"eaten all the same", MESH_EAT, 0, 0, OK, {{{1, {2, 0, 0}}}, {{1, 0, 1, 3, 1, 2, 2, 2}}}},
    {"all eaten", PUTTING, 0, 0, OK, {{{1, {1, 1, 0}}}, {{1, 0, 1, 2, 0, 2, 2, 2}}}},
    {"no more", MESH_EAT, 0, 0, NOT_NOW, AS_BEFORE},
    {"elsewhere", PUTTING, 0, 0, OK, {{{1, {1, 1, 0}}}, {{1, 1, 0, 2, 0, 0, 2, 2}}}},
    {"its near node", MESH_EAT, 0, 0, NOT_NOW, AS_BEFORE},
    {"no front", PUTTING, 0, 0, OK, {{{1, {1, 1, 0}}}, {{1, 0, 1, 2, 0, 0, 2, 0}}}},
    {"rear is not eaten from", MESH_EAT, 0, 0, NOT_NOW, AS_BEFORE},
};

#define STEPS(steps) steps, sizeof steps / sizeof steps[0]

static const struct known_case {
    const char *name;
    uint8_t columns, rows, rule, count, packet[3]; /* source, destination, flits */
    const struct step *steps;
    size_t length;
} known_cases[] = {
    {"one flit", 2, 2, XY, 1, {0, 3, 1}, STEPS(one_flit)},
    {"two flits", 3, 2, XY, 2, {0, 5, 2}, STEPS(two_flits)},
    {"two flits, north-last", 3, 2, NORTH_LAST, 64, {0, 5, 2}, STEPS(two_flits)},
    {"one channel", 2, 2, ODD_EVEN, 3, {0, 1, 3}, STEPS(one_channel)},
    {"two packets", 2, 2, XY, 2, {0, 3, 2}, STEPS(two_packets)},
    {"damaged leads", 2, 2, WEST_FIRST, 2, {0}, STEPS(damaged_leads)},
    {"damaged follows", 2, 2, XY, 2, {0}, STEPS(damaged_follows)},
    {"damaged feeds", 2, 2, NEGATIVE_FIRST, 2, {0}, STEPS(damaged_feeds)},
    {"damaged eats", 2, 2, ODD_EVEN, 2, {0}, STEPS(damaged_eats)},
};

static void make_step(const struct known_case *known, const struct step *step, const char *what)
{
    struct question q = move(step->record, step->kind, step->named);
    struct answer wanted = {step->refusal, 0};
    if (step->kind == PUTTING) {
        put_state(&step->state);
        return;
    }
    if (step->kind == OFFERING) {
        q = offer(known->packet[0], known->packet[1], known->packet[2]);
        wanted.record = step->record;
    }
    ask(&q, what, &wanted);
}

static void ask_known_case(const struct known_case *known)
{
    const struct state *state = &empty;
    turn_to(known->columns, known->rows, known->rule, known->count);
    for (size_t i = 0; i < known->length; i++) {
        const struct step *step = &known->steps[i];
        char what[100];
        snprintf(what, sizeof what, "%s, %s", known->name, step->name);
        make_step(known, step, what);
        if (step->refusal == OK)
            state = &step->state;
        expect_state(what, state);
    }
}

static void ask_known_cases(void)
{
    for (size_t i = 0; i < sizeof known_cases / sizeof known_cases[0]; i++)
        ask_known_case(&known_cases[i]);
}

/* Calls with a fault that comes later in their order: so the answer is known if memory is in range,
 * too. If it is not, a call without fault as well. */
static void ask_range(const char *what, bool in_range)
{
    struct question bad_node = offer(nodes(), below(nodes()), 1);
    struct question bad_record = move((unsigned)here.count, below(KINDS), 1);
    ask_due(&bad_node, what, in_range ? BAD_NODE : BAD_MEMORY);
    ask_due(&bad_record, what, in_range ? BAD_MOVE : BAD_MEMORY);
    if (!in_range) {
        struct question good = below(2) ? offer(0, 3, 1) : move(0, MESH_LEAD, EAST);
        ask_due(&good, what, BAD_MEMORY);
    }
}

static void ask_word_edge(unsigned section, unsigned channel, unsigned value)
{
    unsigned before = word(section, channel);
    put(section, channel, value);
    ask_range("word edge", word_in_range(section, value));
    put(section, channel, before);
}

static void ask_record_edge(size_t record, struct edge edge)
{
    struct second_record before = records[record];
    put_record(record, edge.record);
    ask_range("record edge", edge.in_range);
    put_record(record, before);
}

static void ask_every_word_edge(void)
{
    for (unsigned section = 0; section < SECTIONS; section++)
        for (unsigned channel = 0; channel < channels(); channel++)
            for (unsigned number = 0; number < edge_values(); number++)
                ask_word_edge(section, channel, edge_value(number));
}

static void ask_every_record_edge(size_t record)
{
    for (unsigned number = 0; number < EDGES; number++)
        ask_record_edge(record, edges[number]);
    for (unsigned number = 0; number < NODE_EDGES; number++)
        ask_record_edge(record, node_edge(number));
    for (unsigned number = 0; number < edge_values(); number++) {
        ask_record_edge(record, end_edge(edge_value(number), 0));
        ask_record_edge(record, end_edge(0, edge_value(number)));
    }
}

static void ask_some_edges(unsigned rounds)
{
    for (unsigned i = 0; i < rounds; i++) {
        unsigned section = below(SECTIONS);
        ask_word_edge(section, edge_channel(), edge_word(section));
        ask_record_edge(below((unsigned)here.count), any_edge());
    }
}

static void make_side_wrong(struct question *q)
{
    unsigned which = 1 + below(3);
    if (which & 1)
        q->columns = (uint8_t)wrong_of(side_choices(mesh.columns));
    if (which & 2)
        q->rows = (uint8_t)wrong_of(side_choices(mesh.rows));
}

static void make_size_wrong(struct question *q)
{
    unsigned which = 1 + below(3);
    if (which & 1)
        q->length = wrong_length(below(WRONG_LENGTHS));
    if (which & 2)
        q->count = wrong_counts[below(WRONG_COUNTS)];
}

static void make_node_wrong(struct question *q)
{
    const unsigned wrong[] = {nodes(), nodes() + 1, 256 + nodes() - 1, 65535};
    unsigned which = 1 + below(3);
    unsigned node = wrong[below(4)];
    if (which & 1)
        q->packet.source = (uint16_t)node;
    if (which & 2)
        q->packet.destination = (uint16_t)node;
}

static void make_flits_wrong(struct question *q)
{
    static const uint8_t wrong[] = {0, 201, 202, 255};
    q->packet.flits = wrong[below(4)];
}

static void make_all_live(void)
{
    for (size_t i = 0; i < here.count; i++)
        if (records[i].live == 0)
            put_record(i, (struct second_record){1, 3, 1, 2, 2, 0, 0, 0});
}

/* A number of a channel that does not exist: off the mesh, or past all. */
static unsigned absent_channel(void)
{
    const unsigned past[] = {channels(), channels() + 1, WORD_VALUES - 1, WORD_VALUES - 255};
    unsigned channel = below(channels());
    if (below(2))
        return past[below(4)];
    while (exists(channel))
        channel = (channel + 1) % channels();
    return channel;
}

static void make_move_wrong(struct question *q)
{
    static const uint8_t wrong_kinds[] = {4, 5, 8, 255};
    static const uint8_t wrong_directions[] = {4, 5, 9, 255};
    switch (below(4)) {
    case 0:
        q->move.record = (uint8_t)(below(2) ? here.count : 255);
        break;
    case 1:
        q->move.kind = wrong_kinds[below(4)];
        break;
    case 2:
        q->move.kind = MESH_LEAD;
        q->move.direction = wrong_directions[below(4)];
        break;
    default:
        q->move.kind = MESH_FOLLOW;
        q->move.channel = (uint16_t)absent_channel();
    }
}

/* The record named becomes empty. */
static void make_move_early(struct question *q)
{
    put_record(q->move.record, (struct second_record){0});
}

/* Gives a call, or the memory it is lent, a fault that calls for the refusal. */
static void make_wrong(struct question *q, unsigned refusal)
{
    switch (refusal) {
    case BAD_SIDE:
        make_side_wrong(q);
        break;
    case BAD_RULE:
        q->rule = (uint8_t)wrong_of(rule_choices(mesh.rule));
        break;
    case BAD_NODE:
        make_node_wrong(q);
        break;
    case SAME_NODE:
        q->packet.destination = q->packet.source;
        break;
    case BAD_FLITS:
        make_flits_wrong(q);
        break;
    case BAD_SIZE:
        make_size_wrong(q);
        break;
    case NOT_NOW:
        make_move_early(q);
        break;
    case BAD_MEMORY:
        if (below(2))
            spoil_word();
        else
            spoil_record();
        break;
    case FULL:
        make_all_live();
        break;
    case BAD_MOVE:
        make_move_wrong(q);
        break;
    }
}

/* For each call its refusals in its order. */
static const struct {
    unsigned count;
    uint8_t refusals[8];
} orders[CALLS] = {
    [RESET] = {2, {1, 7}},
    [OFFER] = {8, {1, 2, 7, 9, 3, 6, 5, 10}},
    [MOVE] = {6, {1, 2, 7, 9, 13, 8}},
};

/* Gives a call that has nothing wrong a set of faults, a bit for each refusal of its order. The
 * first is due: it is made last, so that nothing undoes it. */
static void ask_faults(struct question q, unsigned faults)
{
    struct answer wanted = {OK, 0};
    for (unsigned i = orders[q.call].count; i-- > 0;)
        if (faults >> i & 1) {
            make_wrong(&q, orders[q.call].refusals[i]);
            wanted = due(q.call, orders[q.call].refusals[i]);
        }
    ask(&q, "faults", &wanted);
}

/* A move that is accepted: east from node 0 to 1 by channel 1, from there back by channel 4, into
 * channel 1, out of it. */
static struct question move_not_wrong(unsigned kind)
{
    static const struct state states[KINDS] = {
        [MESH_LEAD] = {{{0}}, {{1, 0, 1, 3, 3, 0, 0, 0}}},
        [MESH_FOLLOW] = {{{1, {1, 1, 5}}}, {{1, 0, 1, 3, 2, 0, 2, 2}}},
        [MESH_FEED] = {{{1, {1, 0, 0}}}, {{1, 0, 1, 3, 2, 0, 2, 2}}},
        [MESH_EAT] = {{{1, {1, 1, 0}}}, {{1, 0, 1, 3, 2, 0, 2, 2}}},
    };
    put_state(&states[kind]);
    return move(0, kind, 1);
}

/* Contents do not matter to a reset. */
static struct question reset_not_wrong(void)
{
    fill_with_garbage(here.length, here.count);
    return question(RESET);
}

static struct question offer_not_wrong(void)
{
    const unsigned flits[] = {1, FLITS_MAX, 1 + below(FLITS_MAX)};
    put_state(&empty);
    return offer(below(nodes() - 1), nodes() - 1, flits[below(3)]);
}

/* A call with nothing wrong, for which memory is put down. */
static struct question call_not_wrong(enum call call)
{
    if (call == RESET)
        return reset_not_wrong();
    return call == OFFER ? offer_not_wrong() : move_not_wrong(below(KINDS));
}

enum { FAULT_ROUNDS = 40 };

/* Every set of faults, the empty one too; and each fault alone many times, for there are many ways
 * of having it. */
static void ask_refusal_orders(enum call call)
{
    for (unsigned faults = 0; faults < 1u << orders[call].count; faults++)
        ask_faults(call_not_wrong(call), faults);
    for (unsigned i = 0; i < orders[call].count; i++)
        for (unsigned round = 0; round < FAULT_ROUNDS; round++)
            ask_faults(call_not_wrong(call), 1u << i);
}

static void ask_wrong_sizes(enum call call)
{
    struct question q = call_not_wrong(call);
    for (unsigned i = 0; i < WRONG_LENGTHS; i++) {
        struct question wrong = q;
        wrong.length = wrong_length(i);
        ask_due(&wrong, "wrong length", BAD_SIZE);
    }
    for (unsigned i = 0; i < WRONG_COUNTS; i++) {
        struct question wrong = q;
        wrong.count = wrong_counts[i];
        ask_due(&wrong, "wrong count", BAD_SIZE);
    }
    ask_due(&q, "right sizes", OK);
}

/* The moves of one record that are worth trying. A packet holds fewer than CHAIN_MAX channels;
 * where memory is damaged they may go round in a loop, and CHAIN_DAMAGED of them are enough. */
enum { MOVES_MAX = 64, CHAIN_MAX = 32, CHAIN_DAMAGED = 3 };

static struct {
    unsigned count;
    struct question moves[MOVES_MAX];
} list;

/* Whether there is a flit where the move takes one from: a channel or, as 0, the source. */
static bool flit_there(const struct move *move)
{
    const struct second_record *r = &records[move->record];
    unsigned from = move->kind == MESH_FOLLOW ? 1u + move->channel : r->front;
    if (move->kind == MESH_FEED || from == 0)
        return r->waiting != 0;
    return word(HOLDS, from - 1) == 1;
}

static unsigned distance(unsigned from, unsigned to)
{
    struct place a = place_of(&mesh, from), b = place_of(&mesh, to);
    return (unsigned)(abs(a.column - b.column) + abs(a.row - b.row));
}

/* Whether a lead brings the header nearer to its destination. */
static bool nearer(const struct move *move)
{
    const struct second_record *r = &records[move->record];
    unsigned node = r->front == 0 ? r->source : node_at(&mesh, end_of(&mesh, r->front - 1));
    unsigned channel = WAYS * node + move->direction;
    return exists(channel) && distance(node_at(&mesh, end_of(&mesh, channel)), r->destination) <
                                  distance(node, r->destination);
}

static void list_move(unsigned record, unsigned kind, unsigned named, bool all)
{
    struct question q = move(record, kind, named);
    if (all || (flit_there(&q.move) && (kind != MESH_LEAD || nearer(&q.move))))
        list.moves[list.count++] = q;
}

/* A channel that the record holds, if there is one: the first from some channel on. */
static unsigned some_held_by(unsigned record)
{
    unsigned channel = below(channels());
    for (unsigned i = 0; i < channels() && word(OWNER, channel) != record + 1; i++)
        channel = (channel + 1) % channels();
    return channel;
}

/* All moves, or only those with some prospect. On memory that calls have left no other follow
 * can be accepted. On damaged memory one may, so two more channels are looked at. */
static void list_moves(unsigned record, bool all)
{
    unsigned at = records[record].rear, front = records[record].front;
    unsigned chain = origin == DAMAGED ? CHAIN_DAMAGED : CHAIN_MAX;
    list.count = 0;
    for (unsigned direction = 0; direction < WAYS; direction++)
        list_move(record, MESH_LEAD, direction, all);
    list_move(record, MESH_FEED, 0, all);
    list_move(record, MESH_EAT, 0, all);
    for (unsigned i = 0; i < chain && at != 0; i++, at = word(NEXT, at - 1))
        list_move(record, MESH_FOLLOW, at - 1, all);
    if (origin == DAMAGED && front != 0)
        list_move(record, MESH_FOLLOW, front - 1, all);
    if (origin == DAMAGED)
        list_move(record, MESH_FOLLOW, some_held_by(record), all);
}

/* Tries so many moves of one record at the most, until one is accepted. */
static bool move_record(unsigned record, bool all, unsigned tries)
{
    list_moves(record, all);
    unsigned first = below(MOVES_MAX);
    for (unsigned i = 0; i < list.count && i < tries; i++)
        if (ask(&list.moves[(first + i) % list.count], NULL, NULL).refusal == OK)
            return true;
    return false;
}

/* Tries the moves of all live records, from some record on, until one is accepted. */
static bool move_some_record(bool all)
{
    unsigned count = (unsigned)here.count;
    unsigned first = below(count);
    for (unsigned i = 0; i < count; i++) {
        unsigned record = (first + i) % count;
        if (records[record].live == 1 && move_record(record, all, MOVES_MAX))
            return true;
    }
    return false;
}

static bool all_empty(void)
{
    for (size_t i = 0; i < here.count; i++)
        if (records[i].live != 0)
            return false;
    return true;
}

/* Offers a packet of so many flits at most; returns the moves it will take, 0 if refused. */
static unsigned long offer_some(unsigned flits_max)
{
    unsigned source = below(nodes());
    unsigned destination = (source + 1 + below(nodes() - 1)) % nodes();
    unsigned flits = 1 + below(flits_max);
    struct question q = offer(source, destination, flits);
    bool taken = ask(&q, NULL, NULL).refusal == OK;
    return taken ? flits * (distance(source, destination) + 1ul) : 0;
}

static void missed(const char *what, unsigned long found, unsigned long wanted)
{
    if (found != wanted && tally.unexpected++ < SHOWN)
        printf("%s: %u x %u, rule %u, count %zu: %lu, wanted %lu\n", what, here.columns, here.rows,
               here.rule, here.count, found, wanted);
}

/* Offers and moves packets from an empty mesh until it is empty again. While a packet is there some
 * move is accepted; and the moves accepted are as many as the packets take. */
static void run_until_empty(unsigned offers, unsigned flits_max)
{
    unsigned long moves_due = 0, moves = 0;
    bool stalled = false;
    while (!stalled && moves <= moves_due && (offers > 0 || !all_empty())) {
        if (offers > 0 && (all_empty() || below(4) == 0)) {
            moves_due += offer_some(flits_max);
            offers--;
        } else if (move_some_record(below(8) == 0) || move_some_record(true)) {
            moves++;
        } else {
            stalled = true;
        }
    }
    missed("stalled", stalled, false);
    missed("moves until empty", moves, moves_due);
    expect_state("mesh after its last packet", &empty);
}

static const size_t counts[] = {1, 2, 3, 8, 64};
enum { COUNTS = sizeof counts / sizeof counts[0] };

/* A second time without a reset. */
static void ask_runs(unsigned columns, unsigned rows, unsigned offers, unsigned flits_max)
{
    for (unsigned rule = 0; rule < RULES; rule++) {
        turn_to(columns, rows, rule, counts[below(COUNTS)]);
        run_until_empty(offers, flits_max);
        run_until_empty(offers, flits_max);
    }
}

static void randomise_memory(void)
{
    fill_in_range();
    origin = DAMAGED;
}

/* One that some record names as its rear or front, if that record does; else any, even one that
 * does not exist. */
static unsigned channel_to_damage(void)
{
    const struct second_record *r = &records[below((unsigned)here.count)];
    unsigned end = below(2) ? r->rear : r->front;
    return end != 0 ? end - 1 : below(channels());
}

static void damage_word(void)
{
    unsigned channel = channel_to_damage();
    switch (below(4)) {
    case 0:
        put(OWNER, channel, some_owner());
        break;
    case 1:
        put(NEXT, channel, some_next(channel));
        break;
    default:
        put(HOLDS, channel, 1 - word(HOLDS, channel));
    }
}

/* A live record as it was but for one thing, or another one, or an empty one. */
static void damage_record(void)
{
    unsigned number = below((unsigned)here.count);
    struct second_record r = records[number], other = some_live_record();
    if (r.live == 0)
        r = other;
    switch (below(6)) {
    case 0:
        r.front = some_front(r.destination);
        break;
    case 1:
        r.rear = some_end(r.front);
        break;
    case 2:
        r.waiting = below(2) ? 0 : below(r.flits + 1);
        break;
    case 3:
        r.eaten = below(r.flits + 1);
        break;
    case 4:
        r.source = other.source;
        r.destination = other.destination;
        break;
    default:
        r = below(3) ? other : (struct second_record){0};
    }
    put_record(number, r);
}

/* Packets on their way, yet to be damaged. */
static void start_run(void)
{
    reset("reset in a run");
    for (unsigned i = 0; i < 2 * here.count && i < 6; i++)
        offer_some(4);
    for (unsigned i = below(12); i > 0 && !all_empty(); i--)
        move_some_record(false);
    origin = DAMAGED;
}

/* Moves on damaged memory, with more damage in between. */
static void move_on_damaged_memory(unsigned rounds)
{
    for (unsigned i = 0; i < rounds; i++) {
        unsigned record = below((unsigned)here.count);
        if (below(2))
            damage_word();
        if (below(3) == 0)
            damage_record();
        if (below(16) == 0)
            offer_some(4);
        if (records[record].live == 1 || below(16) == 0)
            move_record(record, below(8) == 0, 6);
    }
}

static void ask_damaged(unsigned columns, unsigned rows, unsigned rounds)
{
    for (unsigned rule = 0; rule < RULES; rule++) {
        turn_to(columns, rows, rule, counts[below(COUNTS)]);
        for (unsigned i = 0; i < rounds; i++) {
            if (below(2))
                randomise_memory();
            else
                start_run();
            move_on_damaged_memory(12);
        }
    }
}

static uint16_t stray_node(void)
{
    switch (below(4)) {
    case 0:
        return (uint16_t)below(WORD_VALUES);
    case 1:
        return (uint16_t)(nodes() + below(5) - 2);
    default:
        return (uint16_t)below(nodes());
    }
}

static size_t stray_count(void)
{
    static const uint8_t edge_counts[] = {0, 1, 1, 2, 3, 8, 63, 64, 64, 64, 65, 255};
    return edge_or_below(edge_counts, sizeof edge_counts, 65);
}

/* Right for the sides, be they served or not, but for one in four that are off by a little. */
static size_t stray_length(unsigned columns, unsigned rows)
{
    size_t right = (size_t)SECTIONS * WAYS * columns * rows;
    size_t length = below(4) == 0 ? right + 2 - below(5) : right;
    return length > LONGEST ? here.length : length;
}

/* Everything at random, on memory that is mostly in range for the mesh at hand, and often for
 * others as well. */
static struct question stray_question(void)
{
    static const uint8_t edge_flits[] = {0, 1, 2, 199, 200, 201, 255};
    struct question q = move(stray_of_five(), stray_of_five(), below(channels() + 4));
    q.move.direction = stray_of_five();
    q.call = (enum call)below(CALLS);
    if (below(2)) {
        q.columns = stray_side();
        q.rows = stray_side();
        q.rule = stray_of_five();
        q.length = stray_length(q.columns, q.rows);
        q.count = stray_count();
    }
    q.packet.source = stray_node();
    q.packet.destination = stray_node();
    q.packet.flits = edge_or_below(edge_flits, sizeof edge_flits, VALUES);
    return q;
}

static void ask_stray_questions(unsigned rounds)
{
    for (unsigned i = 0; i < rounds; i++) {
        if (i % 8 == 0)
            randomise_memory();
        origin = PUT_DOWN;
        struct question q = stray_question();
        ask(&q, NULL, NULL);
    }
}

/* On the greatest meshes there are few packets, for a call takes as long as there are words. */
static void ask_all_runs(void)
{
    static const uint8_t small[][2] = {{2, 2}, {2, 3}, {3, 2}, {3, 3}, {4, 4}, {5, 2}, {3, 7}};
    for (unsigned i = 0; i < times; i++) {
        for (size_t j = 0; j < sizeof small / sizeof small[0]; j++)
            ask_runs(small[j][0], small[j][1], 12, 5);
        ask_runs(2, 16, 4, 4);
        ask_runs(16, 2, 4, 4);
        ask_runs(16, 16, 4, 4);
    }
    turn_to(2, 2, ODD_EVEN, 2);
    run_until_empty(3, FLITS_MAX);
}

static void ask_all_damaged(void)
{
    static const uint8_t small[][2] = {{2, 2}, {2, 3}, {3, 2}, {3, 3}, {4, 4}, {5, 2}};
    for (unsigned i = 0; i < times; i++) {
        for (size_t j = 0; j < sizeof small / sizeof small[0]; j++)
            ask_damaged(small[j][0], small[j][1], 60);
        ask_damaged(2, 16, 10);
        ask_damaged(16, 2, 10);
        ask_damaged(16, 16, 4);
    }
}

static void ask_all_edges(void)
{
    static const uint8_t smallest[][3] = {{2, 2, 1}, {2, 3, 2}, {3, 2, 3}};
    static const uint8_t others[][3] = {{5, 2, 8}, {2, 16, 64}, {16, 2, 3}, {16, 16, 64}};
    for (size_t i = 0; i < sizeof smallest / sizeof smallest[0]; i++) {
        turn_to(smallest[i][0], smallest[i][1], below(RULES), smallest[i][2]);
        randomise_memory();
        ask_every_word_edge();
        ask_every_record_edge(0);
        ask_every_record_edge(here.count - 1);
    }
    for (size_t i = 0; i < sizeof others / sizeof others[0]; i++) {
        turn_to(others[i][0], others[i][1], below(RULES), others[i][2]);
        randomise_memory();
        ask_some_edges(100 * times);
    }
}

static void ask_all_refusals(void)
{
    static const uint8_t meshes[][3] = {{2, 2, 1}, {2, 16, 3}, {16, 2, 8}, {5, 7, 64}, {16, 16, 2}};
    for (unsigned i = 0; i < times; i++)
        for (size_t j = 0; j < sizeof meshes / sizeof meshes[0]; j++) {
            turn_to(meshes[j][0], meshes[j][1], below(RULES), meshes[j][2]);
            for (unsigned call = 0; call < CALLS; call++) {
                ask_refusal_orders((enum call)call);
                ask_wrong_sizes((enum call)call);
            }
            ask_stray_questions(300);
        }
}

static bool all_refusals_seen(void)
{
    static const char *const names[CALLS] = {"reset refusals", "offer refusals", "move refusals"};
    bool seen = true;
    for (unsigned call = 0; call < CALLS; call++) {
        uint8_t due_numbers[9] = {OK};
        memcpy(due_numbers + 1, orders[call].refusals, orders[call].count);
        seen = all_seen(names[call], refusals[call], due_numbers, orders[call].count + 1) && seen;
    }
    return seen;
}

static bool all_moves_seen(void)
{
    static const char *const kinds[KINDS] = {"lead", "follow", "feed", "eat"};
    bool seen = true;
    for (unsigned kind = 0; kind < KINDS; kind++) {
        printf("%s accepted: %lu, on damaged memory %lu\n", kinds[kind], accepted[LEFT][kind],
               accepted[DAMAGED][kind]);
        seen = seen && accepted[LEFT][kind] != 0 && accepted[DAMAGED][kind] != 0;
    }
    return seen;
}

int main(int argc, char **argv)
{
    if (argc == 2 && strcmp(argv[1], "--all") == 0)
        times = 12;
    ask_known_cases();
    ask_all_refusals();
    ask_all_edges();
    ask_all_runs();
    ask_all_damaged();
    bool seen = all_refusals_seen();
    seen = all_moves_seen() && seen;
    return verdict("machine", seen);
}
