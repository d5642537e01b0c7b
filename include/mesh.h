/* The proved calls of the mesh router, for C. docs/SCOPE.md says what each does;
 * the contracts in crates/ say it exactly. Of target/staticlib link libroute.a for routes and
 * numberings, libwormhole.a for the wormhole machine, libtraffic.a for lists, libreport.a for the
 * sheet, or several: each has its own calls alone and needs no other. */
#ifndef MESH_H
#define MESH_H

#include <stddef.h>
#include <stdint.h>

/* Directions. An arrival is the way the packet was travelling, MESH_LOCAL where it starts. */
enum { MESH_WEST = 0, MESH_EAST = 1, MESH_SOUTH = 2, MESH_NORTH = 3, MESH_LOCAL = 4 };

/* The five turn rules. */
enum {
    MESH_XY = 0,
    MESH_WEST_FIRST = 1,
    MESH_NORTH_LAST = 2,
    MESH_NEGATIVE_FIRST = 3,
    MESH_ODD_EVEN = 4
};

/* Values of a set of outputs: each direction's, added; or MESH_DELIVER alone. */
enum { MESH_TO_WEST = 1, MESH_TO_EAST = 2, MESH_TO_SOUTH = 4, MESH_TO_NORTH = 8, MESH_DELIVER = 16 };

/* Refusals that the calls below give; 0 is acceptance. */
enum {
    MESH_BAD_SIDE = 1,    /* a side outside 2 to 16 */
    MESH_BAD_RULE = 2,    /* a rule above 4 */
    MESH_BAD_NODE = 3,    /* a node outside the mesh */
    MESH_BAD_ARRIVAL = 4, /* an arrival above 4, or from off the mesh */
    MESH_SAME_NODE = 5,   /* source equals destination */
    MESH_BAD_FLITS = 6,   /* flits not 1 to 200 */
    MESH_BAD_SIZE = 7,    /* lent memory of a wrong size */
    MESH_NOT_NOW = 8,     /* the move is not allowed now */
    MESH_BAD_MEMORY = 9,  /* memory out of range */
    MESH_FULL = 10,       /* too few empty records */
    MESH_NO_PATH = 11,    /* no legal shortest path */
    MESH_BAD_LIST = 12,   /* a list of a wrong length, or with spare bits set */
    MESH_BAD_MOVE = 13,   /* no such record, kind, direction or channel */
    MESH_NOT_RISING = 14  /* a numbering does not rise */
};

typedef struct {
    uint8_t refusal;
    uint8_t outputs; /* 0 with a refusal */
} Routed;

/* The outputs at a node for a packet that arrived travelling `arrival` and goes to `destination`. */
Routed mesh_route(uint8_t columns, uint8_t rows, uint8_t rule, uint16_t node, uint8_t arrival,
                  uint16_t destination);

/* A numbering has 4 * columns * rows words, one for each channel: the channel that leaves a node by
 * a direction has the number 4 * node + direction. `length` counts words. */

/* Fills a list with the house numbers, 0 where no channel exists. Returns the refusal; with one the
 * list is as it was. */
uint8_t mesh_number(uint8_t columns, uint8_t rows, uint8_t rule, uint16_t *list, size_t length);

typedef struct {
    uint8_t refusal;
    uint16_t incoming; /* the pair is 0, 0 but with MESH_NOT_RISING */
    uint16_t outgoing;
} Checked;

/* Do a list's numbers rise at every turn by 90 degrees that the rule allows? If not, the refusal is
 * MESH_NOT_RISING, with the first pair of channels that fails, by incoming, then outgoing. */
Checked mesh_check(uint8_t columns, uint8_t rows, uint8_t rule, const uint16_t *list,
                   size_t length);

/* The wormhole machine works on memory that the caller lends: 12 * columns * rows words in three
 * sections, each with one word for a channel number, and 1 to 64 records, one for a packet. A mesh
 * whose words and records are all zero is empty. The sections, one after another:
 *   owner  0 for a free channel, else 1 + the record that holds it
 *   holds  how many flits are in the channel, 0 or 1
 *   next   0, or 1 + the channel that the same packet took after this one
 * An offer or a move looks at all of this memory first and refuses what is out of range by
 * MESH_BAD_MEMORY. With any refusal words and records stay as they were. `length` counts words,
 * `count` records. */
typedef struct {
    uint8_t live;         /* 1, or 0 for an empty record, which is all zero */
    uint16_t source;      /* the packet's nodes */
    uint16_t destination;
    uint8_t flits;        /* 1 to 200 */
    uint8_t waiting;      /* flits still at the source */
    uint8_t eaten;        /* flits that the destination has taken */
    uint16_t rear;        /* 0, or 1 + the oldest channel held */
    uint16_t front;       /* 0, or 1 + the newest */
} Record;

enum { MESH_RECORDS = 64, MESH_NO_RECORD = 255 };

/* Makes the mesh empty, whatever the memory has. Returns the refusal. */
uint8_t mesh_reset(uint8_t columns, uint8_t rows, uint16_t *words, size_t length, Record *records,
                   size_t count);

typedef struct {
    uint8_t refusal;
    uint8_t record; /* MESH_NO_RECORD with a refusal */
} Offered;

/* Puts a packet at its source, in the lowest empty record. */
Offered mesh_offer(uint8_t columns, uint8_t rows, uint8_t rule, uint16_t *words, size_t length,
                   Record *records, size_t count, uint16_t source, uint16_t destination,
                   uint8_t flits);

/* The kinds of moves: the header takes a further channel, a flit follows within the packet, a flit
 * enters at the source, the destination takes a flit. */
enum { MESH_LEAD = 0, MESH_FOLLOW = 1, MESH_FEED = 2, MESH_EAT = 3 };

/* Moves one flit of a record's packet by one channel. A lead names the direction, a follow the
 * channel that the flit leaves; the argument that is not named is ignored. Returns the refusal. */
uint8_t mesh_move(uint8_t columns, uint8_t rows, uint8_t rule, uint16_t *words, size_t length,
                  Record *records, size_t count, uint8_t record, uint8_t kind, uint16_t channel,
                  uint8_t direction);

/* A traffic list has 2 bytes, then 3 for each of 0 to 64 packets. In bits, most significant first:
 *   columns - 1 (4), rows - 1 (4), rule (3), zero (5)
 *   a packet: source column (4) and row (4), destination column (4) and row (4), flits - 1 (8)
 */
enum { MESH_LIST_BYTES = 194 }; /* of the longest */

typedef struct {
    uint8_t refusal;
    uint8_t columns; /* these are 0 with a refusal */
    uint8_t rows;
    uint8_t rule;
    uint8_t packets;
} ListRead;

/* Makes the mesh empty, whatever the memory has, and offers it the list's packets in order. With a
 * refusal words and records stay as they were. */
ListRead mesh_read(const uint8_t *list, size_t length, uint16_t *words, size_t word_count,
                   Record *records, size_t record_count);

typedef struct {
    uint8_t refusal;
    uint16_t length; /* how many bytes were written; 0 with a refusal */
} Written;

/* Writes the list of the live records, in their order, at the start of `out`, which has
 * MESH_LIST_BYTES or more; its later bytes stay, and with a refusal all do. */
Written mesh_write(uint8_t columns, uint8_t rows, uint8_t rule, const uint16_t *words,
                   size_t word_count, const Record *records, size_t record_count, uint8_t *out,
                   size_t size);

/* A sheet tells in lines of text what becomes of a list: the heading `packet hops moves`, for each
 * packet its place in the list, its distance and the accepted moves of its flits, then `total` and
 * their sum; or, of a list that is refused, one line `refused` and the number; or one line
 * `stalled`, which no list calls for. */
enum { MESH_REPORT_BYTES = 1024 };

/* Reads a list, moves its packets until the mesh is empty, and writes the sheet at the start of
 * `out`, which has MESH_REPORT_BYTES or more; its later bytes stay. It works on the first
 * 12 * columns * rows of the words, which are then 0; the others stay, and all do if the list is
 * refused. The call itself is refused by MESH_BAD_SIZE alone, if `out` is too short; nothing is then
 * written. */
Written mesh_report(const uint8_t *list, size_t length, uint16_t *words, size_t word_count,
                    uint8_t *out, size_t size);

#endif
