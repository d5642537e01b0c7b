/* Traffic lists to ask about: good ones, and each way in which one goes wrong. */
#ifndef LISTS_H
#define LISTS_H

#include "../second/list.h"
#include "compare.h"

#include <stdlib.h>
#include <string.h>

enum { PACKETS_MAX = 64, LIST_ROOM = 1024, LEAD_BYTES = 2, HEADER_BYTES = 3 };

/* The bytes, and what they were made to say. */
struct list {
    size_t length;
    uint8_t bytes[LIST_ROOM];
    struct mesh mesh;
    unsigned packets;
};

/* A list with no packet yet. Sides are 1 to 16 and a rule is 0 to 7, so that all can be said. */
static inline struct list new_list(unsigned columns, unsigned rows, unsigned rule)
{
    struct list list = {.length = LEAD_BYTES, .mesh = {columns, rows, rule}};
    list.bytes[0] = (uint8_t)((columns - 1) * 16 + (rows - 1));
    list.bytes[1] = (uint8_t)(rule * 32);
    return list;
}

static inline void add_packet(struct list *list, struct place source, struct place destination,
                              unsigned flits)
{
    uint8_t *header = list->bytes + list->length;
    header[0] = (uint8_t)(source.column * 16 + source.row);
    header[1] = (uint8_t)(destination.column * 16 + destination.row);
    header[2] = (uint8_t)(flits - 1);
    list->length += HEADER_BYTES;
    list->packets++;
}

/* The example of the scope. */
static inline struct list example_list(void)
{
    struct list list = new_list(3, 2, WEST_FIRST);
    add_packet(&list, (struct place){2, 0}, (struct place){0, 1}, 2);
    add_packet(&list, (struct place){0, 0}, (struct place){2, 1}, 1);
    return list;
}

/* The list that takes the most moves. */
static inline struct list heaviest_list(void)
{
    struct list list = new_list(SIDE_MAX, SIDE_MAX, XY);
    for (unsigned i = 0; i < PACKETS_MAX; i++)
        add_packet(&list, (struct place){0, 0}, (struct place){15, 15}, FLITS_MAX);
    return list;
}

/* A list that is good if sides and rule are served and packets not too many. */
static inline struct list some_list(struct mesh mesh, unsigned packets, unsigned flits_max)
{
    struct list list = new_list(mesh.columns, mesh.rows, mesh.rule);
    unsigned nodes = mesh.columns * mesh.rows;
    for (unsigned i = 0; i < packets; i++) {
        unsigned source = below(nodes), destination = (source + 1 + below(nodes - 1)) % nodes;
        add_packet(&list, place_of(&mesh, source), place_of(&mesh, destination),
                   1 + below(flits_max));
    }
    return list;
}

/* A mesh that is served, a small one more often than not, and in such a list few flits or many. */
static inline struct list some_good_list(void)
{
    static const uint8_t counts[] = {0, 1, 1, 2, 3, 5, 8, 13, 63, 64};
    unsigned bound = below(4) ? 5 : SIDE_MAX;
    struct mesh mesh = {SIDE_MIN + below(bound - 1), SIDE_MIN + below(bound - 1), below(RULES)};
    unsigned packets = counts[below(sizeof counts)];
    return some_list(mesh, packets, packets < 8 && below(4) == 0 ? FLITS_MAX : 4);
}

/* What can be wrong when a list is read, in the order in which it is looked for. Sizes and records
 * are the memory's. */
enum fault { LENGTH, SIDE, RULE, SPARE, SIZES, NODE, FLITS, SAME, RECORDS, FAULTS };

static const uint8_t fault_refusals[FAULTS] = {
    [LENGTH] = BAD_LIST, [SIDE] = BAD_SIDE,  [RULE] = BAD_RULE,
    [SPARE] = BAD_LIST,  [SIZES] = BAD_SIZE, [NODE] = BAD_NODE,
    [FLITS] = BAD_FLITS, [SAME] = SAME_NODE, [RECORDS] = FULL};

/* Lengths that no list has, with as many bytes as LIST_ROOM has. */
static inline size_t wrong_list_length(void)
{
    static const size_t longer[] = {195, 196, 197, 200, 256 + 2, 256 + 5, 512 + 8, LIST_ROOM};
    size_t number = below(2 * PACKETS_MAX + 10);
    if (number < 2)
        return number;
    if (number < 10)
        return longer[number - 2];
    return LEAD_BYTES + HEADER_BYTES * ((number - 10) / 2) + 1 + number % 2;
}

/* One of the four coordinates of a packet becomes one that is off the mesh, where one can be. */
static inline void put_off_mesh(const struct list *list, uint8_t *header)
{
    unsigned which = below(4);
    unsigned sides[] = {list->mesh.columns, list->mesh.rows};
    if (sides[which % 2] == SIDE_MAX)
        which ^= 1;
    unsigned side = sides[which % 2], off = below(2) ? side : side + below(SIDE_MAX - side);
    unsigned shift = which % 2 == 0 ? 4 : 0;
    header[which / 2] = (uint8_t)((header[which / 2] & ~(15u << shift)) | off << shift);
}

/* Makes a list wrong; NODE, FLITS and SAME do so at a packet, which it has. NODE wants a mesh that
 * is not 16 x 16. Made from the last fault to the first, none undoes another that is due earlier.
 */
static inline void make_fault(struct list *list, enum fault fault, unsigned packet)
{
    uint8_t *header = list->bytes + LEAD_BYTES + HEADER_BYTES * packet;
    switch (fault) {
    case LENGTH:
        list->length = wrong_list_length();
        break;
    case SIDE:
        list->bytes[0] &= (uint8_t)(below(2) ? 0x0f : 0xf0);
        break;
    case RULE:
        list->bytes[1] = (uint8_t)((list->bytes[1] & 31) | (RULES + below(3)) << 5);
        break;
    case SPARE:
        list->bytes[1] |= (uint8_t)(1 + below(31));
        break;
    case NODE:
        put_off_mesh(list, header);
        break;
    case FLITS:
        header[2] = (uint8_t)(below(2) ? FLITS_MAX : FLITS_MAX + below(56));
        break;
    case SAME:
        header[1] = header[0];
        break;
    default:
        break;
    }
}

/* A good list but for one fault of its own. */
static inline struct list some_faulty_list(void)
{
    struct list list = some_good_list();
    enum fault fault = (enum fault)below(RECORDS);
    bool at_packet = fault == NODE || fault == FLITS || fault == SAME;
    bool greatest = list.mesh.columns == SIDE_MAX && list.mesh.rows == SIDE_MAX;
    if (!at_packet || (list.packets > 0 && !greatest))
        make_fault(&list, fault, at_packet ? below(list.packets) : 0);
    return list;
}

/* Any bytes, as many as some list has or any other number, and in every other one no spare bits. */
static inline struct list some_bytes(void)
{
    struct list list = {.length =
                            below(4) ? LEAD_BYTES + HEADER_BYTES * below(4) : below(LIST_ROOM + 1)};
    for (size_t i = 0; i < LIST_ROOM; i++)
        list.bytes[i] = (uint8_t)below(VALUES);
    if (below(2))
        list.bytes[1] &= 7 << 5;
    list.mesh = (struct mesh){1u + list.bytes[0] / 16, 1u + list.bytes[0] % 16, list.bytes[1] / 32};
    return list;
}

static inline struct list any_list(void)
{
    switch (below(4)) {
    case 0:
        return some_bytes();
    case 1:
        return some_faulty_list();
    default:
        return some_good_list();
    }
}

#endif
