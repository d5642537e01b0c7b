/* The step rules, each as the scope reads, on channels and packets; the check of the lent memory;
 * and the way from the one form to the other and back. */
#include "machine.h"

#include "route.h"
#include "rules.h"

enum { CHANNELS = WAYS * SIDE_MAX * SIDE_MAX, SECTIONS = 3 };
enum { LEAD, FOLLOW, FEED, EAT, KINDS };

/* In the place of a channel or of a packet: there is none. */
enum { NONE = -1 };

struct channel {
    int owner; /* a packet, or NONE */
    bool full; /* a flit is in it */
    int next;  /* the channel that the same packet took after this one, or NONE */
};

static const struct channel unused = {NONE, false, NONE};

struct packet {
    bool live;
    unsigned source, destination;
    unsigned flits, waiting, eaten;
    int rear, front; /* channels, or NONE */
};

/* The call at hand. Channels that do not exist have a place, too: their words are kept. */
static struct mesh mesh;
static struct channel channels[CHANNELS];
static struct packet packets[SECOND_RECORDS];

static unsigned node_count(void)
{
    return mesh.columns * mesh.rows;
}

static unsigned far_node(int channel)
{
    return node_at(&mesh, end_of(&mesh, (unsigned)channel));
}

/* In lent memory a channel or packet stands as 1 more than its number, and 0 is none. */
static int from_word(unsigned word)
{
    return (int)word - 1;
}

static uint16_t to_word(int number)
{
    return (uint16_t)(number + 1);
}

static bool none_or_channel(unsigned word)
{
    return word == 0 || channel_exists(&mesh, word - 1);
}

/* The words of a channel within the three sections. */
struct place_of_words {
    uint16_t *owner, *holds, *next;
};

static struct place_of_words words_of(const struct second_memory *lent, unsigned channel)
{
    size_t section = lent->length / SECTIONS;
    uint16_t *word = lent->words + channel;
    return (struct place_of_words){word, word + section, word + 2 * section};
}

static bool words_in_range(const struct second_memory *lent)
{
    for (unsigned channel = 0; channel < channel_count(&mesh); channel++) {
        struct place_of_words at = words_of(lent, channel);
        if (*at.owner > lent->count || *at.holds > 1 || !none_or_channel(*at.next))
            return false;
    }
    return true;
}

static bool all_zero(const struct second_record *record)
{
    return record->live == 0 && record->source == 0 && record->destination == 0 &&
           record->flits == 0 && record->waiting == 0 && record->eaten == 0 && record->rear == 0 &&
           record->front == 0;
}

static bool record_in_range(const struct second_record *record)
{
    if (record->live == 0)
        return all_zero(record);
    return record->live == 1 && record->source < node_count() &&
           record->destination < node_count() && record->source != record->destination &&
           record->flits >= 1 && record->flits <= FLITS_MAX && record->waiting <= record->flits &&
           record->eaten <= record->flits && none_or_channel(record->rear) &&
           none_or_channel(record->front);
}

static bool records_in_range(const struct second_memory *lent)
{
    for (size_t i = 0; i < lent->count; i++)
        if (!record_in_range(&lent->records[i]))
            return false;
    return true;
}

bool second_sizes_right(unsigned columns, unsigned rows, struct second_memory lent)
{
    return lent.length == SECTIONS * WAYS * columns * rows && lent.count >= 1 &&
           lent.count <= SECOND_RECORDS;
}

unsigned second_refusal_of_memory(unsigned columns, unsigned rows, unsigned rule,
                                  struct second_memory lent)
{
    mesh = (struct mesh){columns, rows, rule};
    unsigned refusal = refusal_of_mesh(&mesh);
    if (refusal != OK)
        return refusal;
    if (!second_sizes_right(columns, rows, lent))
        return BAD_SIZE;
    return words_in_range(&lent) && records_in_range(&lent) ? OK : BAD_MEMORY;
}

static struct packet packet_of(const struct second_record *record)
{
    return (struct packet){.live = record->live == 1,
                           .source = record->source,
                           .destination = record->destination,
                           .flits = record->flits,
                           .waiting = record->waiting,
                           .eaten = record->eaten,
                           .rear = from_word(record->rear),
                           .front = from_word(record->front)};
}

static struct second_record record_of(const struct packet *packet)
{
    return (struct second_record){.live = packet->live ? 1 : 0,
                                  .source = packet->source,
                                  .destination = packet->destination,
                                  .flits = packet->flits,
                                  .waiting = packet->waiting,
                                  .eaten = packet->eaten,
                                  .rear = to_word(packet->rear),
                                  .front = to_word(packet->front)};
}

static void read_memory(const struct second_memory *lent)
{
    for (unsigned channel = 0; channel < channel_count(&mesh); channel++) {
        struct place_of_words at = words_of(lent, channel);
        channels[channel] =
            (struct channel){from_word(*at.owner), *at.holds == 1, from_word(*at.next)};
    }
    for (size_t i = 0; i < lent->count; i++)
        packets[i] = packet_of(&lent->records[i]);
}

static void write_memory(const struct second_memory *lent)
{
    for (unsigned channel = 0; channel < channel_count(&mesh); channel++) {
        struct place_of_words at = words_of(lent, channel);
        *at.owner = to_word(channels[channel].owner);
        *at.holds = channels[channel].full ? 1 : 0;
        *at.next = to_word(channels[channel].next);
    }
    for (size_t i = 0; i < lent->count; i++)
        lent->records[i] = record_of(&packets[i]);
}

static void clear_packet(struct packet *packet)
{
    *packet = (struct packet){.rear = NONE, .front = NONE};
}

/* After a flit has left a channel, which may have been the front before it did: no other flit will
 * come to the rear once none is at the source, so the rear is given up. */
static void release(struct packet *packet, int left, bool was_front)
{
    int next = channels[left].next;
    if (left != packet->rear || packet->waiting != 0)
        return;
    channels[left] = unused;
    packet->rear = next;
    if (was_front && next == NONE)
        packet->front = NONE;
}

/* Where the header is and how it came there. */
struct header {
    bool there;    /* the header's flit is where it should be */
    unsigned node; /* the node that it goes on from */
    unsigned arrival;
};

static struct header header_of(const struct packet *packet)
{
    if (packet->front == NONE)
        return (struct header){packet->waiting >= 1, packet->source, LOCAL};
    return (struct header){channels[packet->front].full, far_node(packet->front),
                           (unsigned)packet->front % WAYS};
}

static bool in_answer(unsigned direction, const struct header *header, unsigned destination)
{
    struct second_answer answer = second_route(mesh.columns, mesh.rows, mesh.rule, header->node,
                                               header->arrival, destination);
    return answer.refusal == OK && (answer.outputs >> direction & 1) == 1;
}

/* The header's flit goes from the source or the old front into a channel. That is never the old
 * front itself, for it starts where the old front ends. */
static void lead_into(int channel, unsigned record)
{
    struct packet *packet = &packets[record];
    int old = packet->front;
    channels[channel] = (struct channel){(int)record, true, NONE};
    packet->front = channel;
    if (old == NONE) {
        packet->waiting--;
        packet->rear = channel;
    } else {
        channels[old].full = false;
        channels[old].next = channel;
        release(packet, old, true);
    }
}

/* The four moves; each is false, and changes nothing, if it is not allowed now. */

static bool lead(unsigned record, unsigned direction)
{
    struct header header = header_of(&packets[record]);
    unsigned destination = packets[record].destination;
    if (!header.there || header.node == destination || !in_answer(direction, &header, destination))
        return false;
    unsigned channel = WAYS * header.node + direction;
    if (channels[channel].owner != NONE)
        return false;
    lead_into((int)channel, record);
    return true;
}

/* A channel whose next is itself holds a flit or none, and either way nothing follows. */
static bool follow(unsigned record, unsigned channel)
{
    struct packet *packet = &packets[record];
    struct channel *from = &channels[channel];
    if (from->owner != (int)record || !from->full || from->next == NONE ||
        channels[from->next].full)
        return false;
    from->full = false;
    channels[from->next].full = true;
    release(packet, (int)channel, packet->front == (int)channel);
    return true;
}

static bool feed(unsigned record)
{
    struct packet *packet = &packets[record];
    if (packet->waiting < 1 || packet->rear == NONE || channels[packet->rear].full)
        return false;
    packet->waiting--;
    channels[packet->rear].full = true;
    return true;
}

static bool eat(unsigned record)
{
    struct packet *packet = &packets[record];
    int front = packet->front;
    if (front == NONE || far_node(front) != packet->destination || !channels[front].full ||
        packet->eaten >= packet->flits)
        return false;
    packet->eaten++;
    channels[front].full = false;
    release(packet, front, true);
    if (packet->eaten == packet->flits)
        clear_packet(packet);
    return true;
}

struct move {
    unsigned record, kind, channel, direction;
};

static bool move_exists(const struct move *move, size_t count)
{
    if (move->record >= count || move->kind >= KINDS)
        return false;
    if (move->kind == LEAD)
        return move->direction < WAYS;
    return move->kind != FOLLOW || channel_exists(&mesh, move->channel);
}

static bool make(const struct move *move)
{
    if (!packets[move->record].live)
        return false;
    switch (move->kind) {
    case LEAD:
        return lead(move->record, move->direction);
    case FOLLOW:
        return follow(move->record, move->channel);
    case FEED:
        return feed(move->record);
    default:
        return eat(move->record);
    }
}

unsigned second_move(unsigned columns, unsigned rows, unsigned rule, struct second_memory lent,
                     unsigned record, unsigned kind, unsigned channel, unsigned direction)
{
    struct move move = {record, kind, channel, direction};
    unsigned refusal = second_refusal_of_memory(columns, rows, rule, lent);
    if (refusal != OK)
        return refusal;
    if (!move_exists(&move, lent.count))
        return BAD_MOVE;
    read_memory(&lent);
    if (!make(&move))
        return NOT_NOW;
    write_memory(&lent);
    return OK;
}

/* Tries each move of a packet once, from its tail on; returns how many were made. */
static unsigned long move_packet(unsigned record)
{
    unsigned long made = make(&(struct move){.record = record, .kind = FEED});
    int next;
    for (int at = packets[record].rear; at != NONE; at = next) {
        next = channels[at].next; /* the channel may be given up */
        made += make(&(struct move){record, FOLLOW, (unsigned)at, 0});
    }
    for (unsigned direction = 0; direction < WAYS; direction++)
        made += make(&(struct move){record, LEAD, 0, direction});
    return made + make(&(struct move){.record = record, .kind = EAT});
}

void second_drain(unsigned columns, unsigned rows, unsigned rule, struct second_memory lent,
                  unsigned long moves[SECOND_RECORDS])
{
    unsigned long made;
    mesh = (struct mesh){columns, rows, rule};
    read_memory(&lent);
    do {
        made = 0;
        for (unsigned record = (unsigned)lent.count; record-- > 0;) {
            unsigned long by_record = move_packet(record);
            moves[record] += by_record;
            made += by_record;
        }
    } while (made != 0);
    write_memory(&lent);
}

static unsigned refusal_of_packet(unsigned source, unsigned destination, unsigned flits)
{
    if (source >= node_count() || destination >= node_count())
        return BAD_NODE;
    if (flits < 1 || flits > FLITS_MAX)
        return BAD_FLITS;
    return source == destination ? SAME_NODE : OK;
}

static struct second_offered offer_refused(unsigned refusal)
{
    return (struct second_offered){refusal, SECOND_NO_RECORD};
}

/* As many as there are if all are live. */
static unsigned lowest_empty(size_t count)
{
    unsigned record = 0;
    while (record < count && packets[record].live)
        record++;
    return record;
}

struct second_offered second_offer(unsigned columns, unsigned rows, unsigned rule,
                                   struct second_memory lent, unsigned source, unsigned destination,
                                   unsigned flits)
{
    unsigned refusal = second_refusal_of_memory(columns, rows, rule, lent);
    if (refusal == OK)
        refusal = refusal_of_packet(source, destination, flits);
    if (refusal != OK)
        return offer_refused(refusal);
    read_memory(&lent);
    unsigned record = lowest_empty(lent.count);
    if (record == lent.count)
        return offer_refused(FULL);
    packets[record] = (struct packet){.live = true,
                                      .source = source,
                                      .destination = destination,
                                      .flits = flits,
                                      .waiting = flits,
                                      .rear = NONE,
                                      .front = NONE};
    write_memory(&lent);
    return (struct second_offered){OK, record};
}

/* No rule is named, and any will do to look at the sides. */
unsigned second_reset(unsigned columns, unsigned rows, struct second_memory lent)
{
    mesh = (struct mesh){columns, rows, XY};
    if (refusal_of_mesh(&mesh) != OK)
        return BAD_SIDE;
    if (!second_sizes_right(columns, rows, lent))
        return BAD_SIZE;
    for (unsigned channel = 0; channel < channel_count(&mesh); channel++)
        channels[channel] = unused;
    for (size_t i = 0; i < lent.count; i++)
        clear_packet(&packets[i]);
    write_memory(&lent);
    return OK;
}
