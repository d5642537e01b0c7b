/* Puts the same routing questions to the proved archive and to the second program: every question
 * of every mesh that is served, the cases with a known answer, and arguments out of range. Says
 * how many were asked and how many differ; the exit status is 0 if none does, every known answer
 * was given, and every refusal and set that can occur did. */
#include "../include/mesh.h"
#include "../second/route.h"
#include "compare.h"

#include <string.h>

enum { STRAY_QUESTIONS = 300000 };

struct question {
    uint8_t columns, rows, rule;
    uint16_t node;
    uint8_t arrival;
    uint16_t destination;
};

/* How often the archive gave each refusal, and with acceptance each set. */
static unsigned long refusals[VALUES], sets[VALUES];

static void show(const char *what, const struct question *q, struct second_answer archive,
                 struct second_answer second)
{
    printf("%s: %u x %u, rule %u, node %u, arrival %u, destination %u:"
           " archive %u set %u, second %u set %u\n",
           what, q->columns, q->rows, q->rule, q->node, q->arrival, q->destination,
           archive.refusal, archive.outputs, second.refusal, second.outputs);
}

static bool same(struct second_answer a, struct second_answer b)
{
    return a.refusal == b.refusal && a.outputs == b.outputs;
}

/* Asks both; `wanted` is the answer known beforehand, or null. */
static void ask(const struct question *q, const char *what, const struct second_answer *wanted)
{
    Routed routed = mesh_route(q->columns, q->rows, q->rule, q->node, q->arrival, q->destination);
    struct second_answer archive = {routed.refusal, routed.outputs};
    struct second_answer second =
        second_route(q->columns, q->rows, q->rule, q->node, q->arrival, q->destination);
    tally.asked++;
    refusals[routed.refusal]++;
    if (routed.refusal == 0)
        sets[routed.outputs]++;
    if (!same(archive, second) && tally.differ++ < SHOWN)
        show("differ", q, archive, second);
    if (wanted != NULL && (!same(archive, *wanted) || !same(second, *wanted)) &&
        tally.unexpected++ < SHOWN) {
        show(what, q, archive, second);
        printf("    wanted %u set %u\n", wanted->refusal, wanted->outputs);
    }
}

/* The marked cases of the scope, all on the 4 x 4 mesh; a place is (column, row). */
static const struct marked {
    const char *name;
    uint8_t rule, at[2], arrival, to[2];
    struct second_answer wanted;
} marked[] = {
    {"M1", MESH_WEST_FIRST, {2, 1}, MESH_LOCAL, {0, 3}, {0, 1}},
    {"M2", MESH_WEST_FIRST, {0, 1}, MESH_LOCAL, {2, 3}, {0, 10}},
    {"M3", MESH_WEST_FIRST, {2, 1}, MESH_NORTH, {0, 3}, {11, 0}},
    {"M4", MESH_NORTH_LAST, {1, 1}, MESH_LOCAL, {3, 3}, {0, 2}},
    {"M5", MESH_NORTH_LAST, {1, 2}, MESH_LOCAL, {3, 0}, {0, 6}},
    {"M6", MESH_NEGATIVE_FIRST, {2, 0}, MESH_LOCAL, {0, 3}, {0, 1}},
    {"M7", MESH_NEGATIVE_FIRST, {2, 2}, MESH_LOCAL, {0, 0}, {0, 5}},
    {"M8", MESH_ODD_EVEN, {0, 0}, MESH_LOCAL, {2, 2}, {0, 10}},
    {"M9", MESH_ODD_EVEN, {1, 0}, MESH_EAST, {2, 2}, {0, 8}},
    {"M10", MESH_ODD_EVEN, {2, 0}, MESH_EAST, {3, 2}, {0, 2}},
    {"M11", MESH_ODD_EVEN, {2, 0}, MESH_LOCAL, {3, 2}, {0, 10}},
    {"M12", MESH_ODD_EVEN, {3, 0}, MESH_LOCAL, {0, 2}, {0, 1}},
    {"M13", MESH_XY, {1, 1}, MESH_EAST, {1, 1}, {0, 16}},
    {"M14", MESH_XY, {0, 1}, MESH_EAST, {2, 2}, {4, 0}},
};

static void ask_marked_cases(void)
{
    for (size_t i = 0; i < sizeof marked / sizeof marked[0]; i++) {
        const struct marked *m = &marked[i];
        struct question q = {4, 4, m->rule, (uint16_t)(4 * m->at[1] + m->at[0]), m->arrival,
                             (uint16_t)(4 * m->to[1] + m->to[0])};
        ask(&q, m->name, &m->wanted);
    }
}

/* By rule and by the column's parity, the turns that must be refused, as letters of `initials`. */
static const char initials[] = "WESN";
static const char *const refused_turns[RULES][2] = {
    {"NE NW SE SW", "NE NW SE SW"}, {"NW SW", "NW SW"}, {"NE NW", "NE NW"}, {"NW ES", "NW ES"},
    {"EN ES", "NW SW"},
};

static bool turn_refused(unsigned rule, unsigned column, unsigned before, unsigned after)
{
    if (before == MESH_LOCAL || before == after)
        return false;
    char turn[] = {initials[before], initials[after], 0};
    bool back = strstr("WE EW SN NS", turn) != NULL;
    return back || strstr(refused_turns[rule][column % 2], turn) != NULL;
}

/* With the destination one hop away, one turn decides: each turn of each rule, in the middle of
 * the 4 x 4 mesh, in an even and in an odd column. */
static void ask_single_turns(void)
{
    static const int to_neighbour[] = {-1, 1, -4, 4};
    for (unsigned rule = 0; rule < RULES; rule++)
        for (unsigned column = 1; column <= 2; column++)
            for (unsigned before = 0; before < ARRIVALS; before++)
                for (unsigned after = 0; after < MESH_LOCAL; after++) {
                    int node = (int)(4 + column);
                    struct question q = {4, 4, (uint8_t)rule, (uint16_t)node, (uint8_t)before,
                                         (uint16_t)(node + to_neighbour[after])};
                    struct second_answer wanted = {0, 1u << after};
                    if (turn_refused(rule, column, before, after))
                        wanted = (struct second_answer){MESH_NO_PATH, 0};
                    ask(&q, "turn", &wanted);
                }
}

/* The questions of one mesh, numbered; arrivals change fastest, rules slowest. */
static void ask_mesh(unsigned columns, unsigned rows)
{
    unsigned nodes = columns * rows;
    for (unsigned number = 0; number < RULES * nodes * nodes * ARRIVALS; number++) {
        struct question q = {(uint8_t)columns,
                             (uint8_t)rows,
                             (uint8_t)(number / ARRIVALS / nodes / nodes),
                             (uint16_t)(number / ARRIVALS % nodes),
                             (uint8_t)(number % ARRIVALS),
                             (uint16_t)(number / ARRIVALS / nodes % nodes)};
        ask(&q, NULL, NULL);
    }
}

enum { ARGUMENTS = 6 };

static void ask_combinations(const struct choices choices[ARGUMENTS])
{
    for (unsigned combination = 0; combination < combinations(ARGUMENTS); combination++) {
        unsigned value[ARGUMENTS];
        struct second_answer wanted = {choose(choices, ARGUMENTS, combination, value), 0};
        struct question q = {(uint8_t)value[0],  (uint8_t)value[1], (uint8_t)value[2],
                             (uint16_t)value[3], (uint8_t)value[4], (uint16_t)value[5]};
        ask(&q, "refusal order", combination == 0 ? NULL : &wanted);
    }
}

/* From a corner of the mesh, where two arrivals come from off the mesh, to the same corner or to
 * the one across. 256 more than a node is what a byte would take for that node. */
static void ask_wrong_arguments(unsigned columns, unsigned rows, unsigned rule, bool north_east,
                                bool across)
{
    unsigned nodes = columns * rows;
    unsigned node = north_east ? nodes - 1 : 0;
    unsigned destination = across ? nodes - 1 - node : node;
    unsigned off_row = north_east ? MESH_WEST : MESH_EAST;
    unsigned off_column = north_east ? MESH_SOUTH : MESH_NORTH;
    const struct choices choices[ARGUMENTS] = {
        side_choices(columns),
        side_choices(rows),
        rule_choices(rule),
        {{node, nodes, nodes + 1, 256 + node, 65535}, MESH_BAD_NODE},
        {{MESH_LOCAL, 5, 255, off_row, off_column}, MESH_BAD_ARRIVAL},
        {{destination, nodes, nodes + 1, 256 + destination, 65535}, MESH_BAD_NODE},
    };
    ask_combinations(choices);
}

static void ask_refusal_orders(void)
{
    static const uint8_t meshes[][2] = {{2, 2}, {2, 16}, {16, 2}, {5, 7}, {16, 16}};
    for (size_t i = 0; i < sizeof meshes / sizeof meshes[0]; i++)
        for (unsigned rule = 0; rule < RULES; rule++)
            for (unsigned corners = 0; corners < 4; corners++)
                ask_wrong_arguments(meshes[i][0], meshes[i][1], rule, corners & 1, corners & 2);
}

static uint16_t stray_node(unsigned nodes)
{
    switch (below(4)) {
    case 0:
        return (uint16_t)below(65536);
    case 1:
        return (uint16_t)(nodes + below(5) - 2); /* may wrap */
    default:
        return (uint16_t)below(nodes == 0 ? 1 : nodes);
    }
}

static void ask_stray_questions(void)
{
    for (unsigned i = 0; i < STRAY_QUESTIONS; i++) {
        struct question q;
        q.columns = stray_side();
        q.rows = stray_side();
        q.rule = stray_of_five();
        q.node = stray_node((unsigned)q.columns * q.rows);
        q.arrival = stray_of_five();
        q.destination = stray_node((unsigned)q.columns * q.rows);
        ask(&q, NULL, NULL);
    }
}

int main(void)
{
    static const uint8_t refusals_due[] = {0, 1, 2, 3, 4, 11};
    static const uint8_t sets_due[] = {1, 2, 4, 5, 6, 8, 9, 10, 16};
    ask_marked_cases();
    ask_single_turns();
    ask_refusal_orders();
    ask_stray_questions();
    for_every_mesh(ask_mesh);
    bool seen = all_seen("refusals", refusals, refusals_due, sizeof refusals_due);
    seen = all_seen("sets", sets, sets_due, sizeof sets_due) && seen;
    return verdict("route", seen);
}
