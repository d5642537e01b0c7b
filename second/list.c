/* A list is taken apart into bits and put together from bits; its packets are offered to the
 * machine, drained by it, and told of line by line. */
#include "list.h"

#include "rules.h"

#include <stdarg.h>
#include <stdio.h>
#include <stdlib.h>

enum { LEAD_BYTES = 2, HEADER_BYTES = 3, WORDS_OF_NODE = 12 };

/* A packet as a list has it. */
struct header {
    struct place source, destination;
    unsigned flits;
};

/* Bits of some bytes, most significant first, and how many have been passed. */
struct bits {
    uint8_t *bytes;
    size_t passed;
};

static unsigned take(struct bits *from, unsigned count)
{
    unsigned value = 0;
    for (; count > 0; count--, from->passed++)
        value = value << 1 | (from->bytes[from->passed / 8] >> (7 - from->passed % 8) & 1u);
    return value;
}

static void give(struct bits *to, unsigned count, unsigned value)
{
    for (; count > 0; count--, to->passed++) {
        unsigned bit = 1u << (7 - to->passed % 8), byte = to->bytes[to->passed / 8] & ~bit;
        to->bytes[to->passed / 8] = (uint8_t)(value >> (count - 1) & 1 ? byte | bit : byte);
    }
}

static struct place take_place(struct bits *from)
{
    int column = (int)take(from, 4);
    return (struct place){column, (int)take(from, 4)};
}

static void give_place(struct bits *to, struct place place)
{
    give(to, 4, (unsigned)place.column);
    give(to, 4, (unsigned)place.row);
}

/* What a list says, whether it may be read or not. */
static struct {
    struct mesh mesh;
    unsigned spare;
    unsigned count;
    struct header headers[SECOND_RECORDS];
} said;

static bool length_right(size_t length)
{
    return length >= LEAD_BYTES && length <= SECOND_LIST_BYTES &&
           (length - LEAD_BYTES) % HEADER_BYTES == 0;
}

/* Wants a length that is right. */
static void hear(const uint8_t *list, size_t length)
{
    uint8_t bytes[SECOND_LIST_BYTES];
    struct bits from = {bytes, 0};
    for (size_t i = 0; i < length; i++)
        bytes[i] = list[i];
    said.mesh.columns = 1 + take(&from, 4);
    said.mesh.rows = 1 + take(&from, 4);
    said.mesh.rule = take(&from, 3);
    said.spare = take(&from, 5);
    said.count = (unsigned)(length - LEAD_BYTES) / HEADER_BYTES;
    for (struct header *header = said.headers; header < said.headers + said.count; header++) {
        header->source = take_place(&from);
        header->destination = take_place(&from);
        header->flits = 1 + take(&from, 8);
    }
}

static unsigned refusal_of_header(const struct header *header)
{
    if (!on_mesh(&said.mesh, header->source) || !on_mesh(&said.mesh, header->destination))
        return BAD_NODE;
    if (header->flits > FLITS_MAX)
        return BAD_FLITS;
    return node_at(&said.mesh, header->source) == node_at(&said.mesh, header->destination)
               ? SAME_NODE
               : OK;
}

/* The refusals of reading, in order, once the length is right. */
static unsigned refusal_of_said(struct second_memory lent)
{
    unsigned refusal = refusal_of_mesh(&said.mesh);
    if (refusal != OK)
        return refusal;
    if (said.spare != 0)
        return BAD_LIST;
    if (!second_sizes_right(said.mesh.columns, said.mesh.rows, lent))
        return BAD_SIZE;
    for (unsigned i = 0; i < said.count; i++) {
        refusal = refusal_of_header(&said.headers[i]);
        if (refusal != OK)
            return refusal;
    }
    return said.count > lent.count ? FULL : OK;
}

static void offer_said(struct second_memory lent)
{
    const struct mesh *mesh = &said.mesh;
    second_reset(mesh->columns, mesh->rows, lent);
    for (unsigned i = 0; i < said.count; i++)
        second_offer(mesh->columns, mesh->rows, mesh->rule, lent,
                     node_at(mesh, said.headers[i].source),
                     node_at(mesh, said.headers[i].destination), said.headers[i].flits);
}

struct second_list_read second_read(const uint8_t *list, size_t length, struct second_memory lent)
{
    if (!length_right(length))
        return (struct second_list_read){.refusal = BAD_LIST};
    hear(list, length);
    unsigned refusal = refusal_of_said(lent);
    if (refusal != OK)
        return (struct second_list_read){.refusal = refusal};
    offer_said(lent);
    return (struct second_list_read){OK, said.mesh.columns, said.mesh.rows, said.mesh.rule,
                                     said.count};
}

struct second_written second_write(unsigned columns, unsigned rows, unsigned rule,
                                   struct second_memory lent, uint8_t *out, size_t size)
{
    struct mesh mesh = {columns, rows, rule};
    struct bits to = {out, 0};
    unsigned refusal = second_refusal_of_memory(columns, rows, rule, lent);
    if ((refusal == OK || refusal == BAD_MEMORY) && size < SECOND_LIST_BYTES)
        refusal = BAD_SIZE; /* looked for before what is out of range */
    if (refusal != OK)
        return (struct second_written){refusal, 0};
    give(&to, 4, columns - 1);
    give(&to, 4, rows - 1);
    give(&to, 3, rule);
    give(&to, 5, 0);
    for (const struct second_record *r = lent.records; r < lent.records + lent.count; r++)
        if (r->live == 1) {
            give_place(&to, place_of(&mesh, r->source));
            give_place(&to, place_of(&mesh, r->destination));
            give(&to, 8, r->flits - 1);
        }
    return (struct second_written){OK, to.passed / 8};
}

/* The sheet at hand. */
static struct {
    char text[SECOND_SHEET_BYTES];
    size_t length;
} sheet;

static void tell(const char *format, ...)
{
    va_list values;
    va_start(values, format);
    sheet.length += (size_t)vsnprintf(sheet.text + sheet.length, sizeof sheet.text - sheet.length,
                                      format, values);
    va_end(values);
}

static int hops(const struct header *header)
{
    return abs(header->source.column - header->destination.column) +
           abs(header->source.row - header->destination.row);
}

static bool any_live(const struct second_record *records)
{
    for (unsigned i = 0; i < SECOND_RECORDS; i++)
        if (records[i].live != 0)
            return true;
    return false;
}

static void tell_moves(const unsigned long *moves)
{
    unsigned long total = 0;
    tell("packet hops moves\n");
    for (unsigned i = 0; i < said.count; i++) {
        tell("%u %d %lu\n", i, hops(&said.headers[i]), moves[i]);
        total += moves[i];
    }
    tell("total %lu\n", total);
}

/* Reads, drains and tells. */
static void fill_sheet(const uint8_t *list, size_t length, struct second_memory lent)
{
    unsigned long moves[SECOND_RECORDS] = {0};
    struct second_list_read read = second_read(list, length, lent);
    sheet.length = 0;
    if (read.refusal != OK) {
        tell("refused %u\n", read.refusal);
        return;
    }
    second_drain(read.columns, read.rows, read.rule, lent, moves);
    if (any_live(lent.records))
        tell("stalled\n");
    else
        tell_moves(moves);
}

/* How many of the words are lent to a list: not more than its mesh takes. A list without a mesh is
 * refused before the words are counted. */
static size_t words_for(const uint8_t *list, size_t length, size_t word_count)
{
    if (!length_right(length))
        return 0;
    hear(list, length);
    size_t taken = (size_t)WORDS_OF_NODE * said.mesh.columns * said.mesh.rows;
    return taken < word_count ? taken : word_count;
}

struct second_written second_report(const uint8_t *list, size_t length, uint16_t *words,
                                    size_t word_count, uint8_t *out, size_t size)
{
    struct second_record records[SECOND_RECORDS];
    if (size < SECOND_SHEET_BYTES)
        return (struct second_written){BAD_SIZE, 0};
    fill_sheet(list, length,
               (struct second_memory){words, words_for(list, length, word_count), records,
                                      SECOND_RECORDS});
    for (size_t i = 0; i < sheet.length; i++)
        out[i] = (uint8_t)sheet.text[i];
    return (struct second_written){OK, sheet.length};
}
