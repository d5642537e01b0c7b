/* How long the archives take, as ratios to C that proves nothing, in one process: routing against
 * the closed form of plain.h; a move, which looks at all lent memory, against that of plain.h and
 * the second program's, which do too; the report of the heaviest list against a drain of plain.h by
 * the same sweeps. A ratio is the median of repetitions that take turns. Prints a line for each;
 * the exit status is 0 if the answers agree. Run by ./test --bench. */
#include "compare_memory.h"
#include "lists.h"
#include "plain.h"

#include <time.h>

enum { REPETITIONS = 9, CALLS = 20000 };

/* Something to do once; returns what came of it, so that the two sides can be held together. What
 * has to be ready for it is made so first, and takes no time. */
typedef unsigned long work(void);
typedef void preparation(void);

static bool agree = true;

static double seconds(preparation *prepare, work *do_it, unsigned long *result)
{
    prepare();
    clock_t began = clock();
    *result = do_it();
    return (double)(clock() - began) / CLOCKS_PER_SEC;
}

static void prepare_nothing(void)
{
}

static int by_value(const void *a, const void *b)
{
    double x = *(const double *)a, y = *(const double *)b;
    return (x > y) - (x < y);
}

static void measure(const char *what, preparation *prepare, work *archive, work *other,
                    const char *units)
{
    double ratios[REPETITIONS];
    for (unsigned i = 0; i < REPETITIONS; i++) {
        unsigned long by_one, by_other;
        double time = seconds(prepare, archive, &by_one);
        ratios[i] = time / seconds(prepare, other, &by_other);
        agree = agree && by_one == by_other;
    }
    qsort(ratios, REPETITIONS, sizeof ratios[0], by_value);
    printf("%s: %.2f (%.2f to %.2f) for %s\n", what, ratios[REPETITIONS / 2], ratios[0],
           ratios[REPETITIONS - 1], units);
}

typedef Routed router(uint8_t columns, uint8_t rows, uint8_t rule, uint16_t node, uint8_t arrival,
                      uint16_t destination);

/* Every question of the 16 x 16 mesh. */
static unsigned long route_all(router *route)
{
    unsigned long sum = 0;
    for (unsigned rule = 0; rule < RULES; rule++)
        for (unsigned destination = 0; destination < 256; destination++)
            for (unsigned node = 0; node < 256; node++)
                for (unsigned arrival = 0; arrival < ARRIVALS; arrival++) {
                    Routed routed = route(SIDE_MAX, SIDE_MAX, (uint8_t)rule, (uint16_t)node,
                                          (uint8_t)arrival, (uint16_t)destination);
                    sum = sum * 31 + routed.refusal * 32u + routed.outputs;
                }
    return sum;
}

/* Called through a pointer that may change, so that neither side is made part of the loop. */
static router *volatile by_archives = mesh_route, *volatile by_plain = plain_route;

static unsigned long route_by_archive(void)
{
    return route_all(by_archives);
}

static unsigned long route_by_plain(void)
{
    return route_all(by_plain);
}

/* A run of moves, accepted or not, from a mesh of 64 packets. */
static struct move moves[CALLS];
static struct list packets;

static void begin_run(void)
{
    struct second_memory lent = {by_second.words + GUARD, used.length, by_second.records + GUARD,
                                 used.count};
    second_read(packets.bytes, packets.length, lent);
    for (size_t i = 0; i < used.length; i++)
        put_word(i, words[i]);
    for (size_t i = 0; i < used.count; i++)
        put_record(i, records[i]);
}

static void choose_run(void)
{
    mesh = (struct mesh){SIDE_MAX, SIDE_MAX, ODD_EVEN};
    used.length = SECTIONS * channels();
    used.count = MESH_RECORDS;
    packets = some_list(mesh, PACKETS_MAX, 8);
    begin_run();
    for (unsigned i = 0; i < CALLS; i++) {
        moves[i] = some_move(PACKETS_MAX);
        move_by_second(&moves[i]);
    }
}

static unsigned long accepted_in_run(unsigned (*make)(const struct move *move))
{
    unsigned long accepted = 0;
    for (unsigned i = 0; i < CALLS; i++)
        accepted += make(&moves[i]) == OK;
    return accepted;
}

static unsigned long run_by_archive(void)
{
    return accepted_in_run(move_by_archive);
}

/* In the archive's memory, which has the same form. */
static unsigned move_by_plain(const struct move *move)
{
    return plain_move((uint8_t)mesh.columns, (uint8_t)mesh.rows, (uint8_t)mesh.rule,
                      by_archive.words + GUARD, used.length, by_archive.records + GUARD, used.count,
                      move->record, move->kind, move->channel, move->direction);
}

static unsigned long run_by_plain(void)
{
    return accepted_in_run(move_by_plain);
}

static unsigned long run_by_second(void)
{
    return accepted_in_run(move_by_second);
}

static unsigned long hash(const char *text, size_t length)
{
    unsigned long sum = length;
    for (size_t i = 0; i < length; i++)
        sum = sum * 31 + (unsigned char)text[i];
    return sum;
}

static unsigned long report_by_archive(void)
{
    static uint8_t text[MESH_REPORT_BYTES];
    Written written = mesh_report(packets.bytes, packets.length, by_archive.words + GUARD,
                                  used.length, text, sizeof text);
    return hash((const char *)text, written.length);
}

static unsigned long report_by_plain(void)
{
    static char text[MESH_REPORT_BYTES];
    return hash(text, plain_report(packets.bytes, packets.length, by_second.words + GUARD, text));
}

int main(void)
{
    static const char calls[] = "20,000 calls on a 16 x 16 mesh with 64 records";
    measure("route, against plain C", prepare_nothing, route_by_archive, route_by_plain,
            "1,638,400 questions: all of a 16 x 16 mesh, five rules");
    choose_run();
    measure("move, against plain C", begin_run, run_by_archive, run_by_plain, calls);
    measure("move, against the second program", begin_run, run_by_archive, run_by_second, calls);
    packets = heaviest_list();
    measure("report, against plain C", prepare_nothing, report_by_archive, report_by_plain,
            "396,800 moves: 64 packets of 200 flits, corner to corner of a 16 x 16 mesh");
    if (!agree)
        printf("the answers differ\n");
    return agree ? 0 : 1;
}
