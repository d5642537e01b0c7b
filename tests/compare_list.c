/* Puts the same traffic lists to the proved archives and to the second program, each with memory of
 * its own and the same contents, and compares the answers, all memory and all bytes written after
 * every call: lists are read, run on with, written again, and reported on. The lists are the ones
 * worked out by hand, those at the edges of what is served, every set of faults that a reading or a
 * writing can have at once, lists cut at every length, and thousands at random, good and bad. Says
 * how many calls were made and how many differ; the exit status is 0 if none does, every known
 * answer was given, and every refusal that can occur did. With --all it makes about ten times as
 * many calls. */
#include "compare_memory.h"
#include "lists.h"

enum { OUT_ROOM = 2 * MESH_REPORT_BYTES };
enum call { READ, WRITE, REPORT, CALLS };

struct question {
    enum call call;
    const uint8_t *list;
    size_t list_length;
    uint8_t columns, rows, rule; /* of a writing */
    size_t length, count, size;  /* words, records and bytes that are lent */
};

/* Numbers that a call does not answer are 0 here. */
struct answer {
    unsigned refusal, columns, rows, rule, packets;
    size_t length;
};

/* 1, or with --all more: how many times over the long parts are run. */
static unsigned times = 1;

/* How often the archives gave each refusal, and how often a sheet told of each, 0 being none. */
static unsigned long refusals[CALLS][VALUES], sheets[VALUES];

/* The bytes lent to each, between guards. */
static uint8_t out_by_archive[GUARD + OUT_ROOM + GUARD], out_by_second[GUARD + OUT_ROOM + GUARD];
static const uint8_t *const out = out_by_second + GUARD;

static void fill_out_with_garbage(void)
{
    for (size_t i = 0; i < sizeof out_by_archive; i++)
        out_by_archive[i] = out_by_second[i] = (uint8_t)below(VALUES);
}

static struct answer ask_archive(const struct question *q)
{
    uint16_t *lent = by_archive.words + GUARD;
    Record *lent_records = by_archive.records + GUARD;
    uint8_t *lent_out = out_by_archive + GUARD;
    if (q->call == READ) {
        ListRead read = mesh_read(q->list, q->list_length, lent, q->length, lent_records, q->count);
        return (struct answer){read.refusal, read.columns, read.rows, read.rule, read.packets, 0};
    }
    Written written =
        q->call == WRITE ? mesh_write(q->columns, q->rows, q->rule, lent, q->length, lent_records,
                                      q->count, lent_out, q->size)
                         : mesh_report(q->list, q->list_length, lent, q->length, lent_out, q->size);
    return (struct answer){.refusal = written.refusal, .length = written.length};
}

static struct answer ask_second(const struct question *q)
{
    struct second_memory lent = {by_second.words + GUARD, q->length, by_second.records + GUARD,
                                 q->count};
    uint8_t *lent_out = out_by_second + GUARD;
    if (q->call == READ) {
        struct second_list_read read = second_read(q->list, q->list_length, lent);
        return (struct answer){read.refusal, read.columns, read.rows, read.rule, read.packets, 0};
    }
    struct second_written written =
        q->call == WRITE
            ? second_write(q->columns, q->rows, q->rule, lent, lent_out, q->size)
            : second_report(q->list, q->list_length, lent.words, q->length, lent_out, q->size);
    return (struct answer){.refusal = written.refusal, .length = written.length};
}

static bool same(struct answer a, struct answer b)
{
    return a.refusal == b.refusal && a.columns == b.columns && a.rows == b.rows &&
           a.rule == b.rule && a.packets == b.packets && a.length == b.length;
}

/* As many as there are if none differs. */
static size_t first_wrong_byte(void)
{
    size_t i = 0;
    while (i < sizeof out_by_archive && out_by_archive[i] == out_by_second[i])
        i++;
    return i;
}

static void show_answer(const char *who, struct answer a)
{
    printf(", %s %u: %u x %u, rule %u, packets %u, length %zu", who, a.refusal, a.columns, a.rows,
           a.rule, a.packets, a.length);
}

static void show(const char *what, const struct question *q, struct answer archive,
                 struct answer second)
{
    static const char *const names[CALLS] = {"read", "write", "report"};
    printf("%s: %s, words %zu, records %zu, bytes %zu, ", what, names[q->call], q->length, q->count,
           q->size);
    if (q->call == WRITE)
        printf("%u x %u, rule %u", q->columns, q->rows, q->rule);
    else
        printf("list of %zu:", q->list_length);
    for (size_t i = 0; q->call != WRITE && i < q->list_length && i < 32; i++)
        printf(" %02x", q->list[i]);
    show_answer("archive", archive);
    show_answer("second", second);
}

static void compare_both(const struct question *q, struct answer archive, struct answer second)
{
    struct compared memory = compare_memory(q->length, q->count);
    size_t byte = first_wrong_byte();
    if (same(archive, second) && all_same(memory) && byte == sizeof out_by_archive)
        return;
    if (tally.differ++ < SHOWN) {
        show("differ", q, archive, second);
        show_wrong(memory);
        if (byte < sizeof out_by_archive)
            printf(", byte %td archive %u second %u", (ptrdiff_t)byte - GUARD, out_by_archive[byte],
                   out_by_second[byte]);
        printf("\n");
    }
    mend(memory);
}

/* The number in a sheet's `refused` line, 0 for another sheet. */
static unsigned told(struct answer answer)
{
    char text[MESH_REPORT_BYTES + 1] = {0};
    memcpy(text, out_by_archive + GUARD, answer.length % sizeof text);
    return strncmp(text, "refused ", 8) == 0 ? (unsigned)atoi(text + 8) % VALUES : 0;
}

static void expect(bool as_known, const char *what, const struct question *q, struct answer archive,
                   struct answer second)
{
    if (as_known || tally.unexpected++ >= SHOWN)
        return;
    show(what, q, archive, second);
    printf(", not as known\n");
}

/* Asks both and returns the second program's answer; `wanted` is the answer known beforehand, or
 * null. */
static struct answer ask(const struct question *q, const char *what, const struct answer *wanted)
{
    fill_out_with_garbage();
    struct answer archive = ask_archive(q), second = ask_second(q);
    tally.asked++;
    refusals[q->call][archive.refusal]++;
    if (q->call == REPORT && archive.refusal == OK)
        sheets[told(archive)]++;
    compare_both(q, archive, second);
    if (wanted != NULL)
        expect(same(archive, *wanted) && same(second, *wanted), what, q, archive, second);
    return second;
}

/* Asks both for bytes that are known beforehand. */
static void ask_bytes(const struct question *q, const char *what, const void *bytes, size_t length)
{
    struct answer wanted = {.length = length};
    struct answer answer = ask(q, what, &wanted);
    expect(memcmp(out, bytes, length) == 0, what, q, answer, answer);
}

/* The list at hand, and how a reading of it has nothing wrong with its memory. */
static struct list list;
static struct question here;

/* Turns to a list. The memory in use is that of the mesh that its lead names, and is full of
 * garbage. */
static void turn_to(struct list next)
{
    list = next;
    mesh = list.mesh;
    used.length = SECTIONS * channels();
    used.count = MESH_RECORDS;
    here = (struct question){.list = list.bytes,
                             .list_length = list.length,
                             .columns = (uint8_t)mesh.columns,
                             .rows = (uint8_t)mesh.rows,
                             .rule = (uint8_t)mesh.rule,
                             .length = used.length,
                             .count = used.count,
                             .size = MESH_REPORT_BYTES};
    fill_with_garbage(used.length, used.count);
}

static struct question question(enum call call)
{
    struct question q = here;
    q.call = call;
    return q;
}

static void ask_any(enum call call)
{
    struct question q = question(call);
    ask(&q, NULL, NULL);
}

static void ask_due(const struct question *q, const char *what, unsigned refusal)
{
    struct answer wanted = {.refusal = refusal};
    ask(q, what, &wanted);
}

/* What a refused list is told by. */
static void ask_refused_sheet(const struct question *q, const char *what, unsigned refusal)
{
    char line[16];
    int length = snprintf(line, sizeof line, "refused %u\n", refusal);
    ask_bytes(q, what, line, (size_t)length);
}

/* Both calls that read, on a list that they refuse. */
static void ask_refused(const char *what, unsigned refusal)
{
    struct question read = question(READ), report = question(REPORT);
    ask_due(&read, what, refusal);
    ask_refused_sheet(&report, what, refusal);
}

static const uint8_t *header_of(unsigned packet)
{
    return list.bytes + LEAD_BYTES + HEADER_BYTES * packet;
}

static unsigned node_of(uint8_t place)
{
    return node_at(&mesh, (struct place){place / 16, place % 16});
}

/* Whether memory has the list's packets at their sources, in order, and nothing else. */
static bool only_offered(void)
{
    bool right = true;
    for (size_t i = 0; i < used.length; i++)
        right = right && words[i] == 0;
    for (unsigned i = 0; i < here.count; i++) {
        struct second_record wanted = {0};
        if (i < list.packets) {
            const uint8_t *header = header_of(i);
            unsigned flits = 1u + header[2];
            wanted = (struct second_record){
                1, node_of(header[0]), node_of(header[1]), flits, flits, 0, 0, 0};
        }
        right = right && memcmp(&records[i], &wanted, sizeof wanted) == 0;
    }
    return right;
}

/* Looks at one memory: the two have been compared. */
static void ask_read(const char *what)
{
    struct question q = question(READ);
    struct answer wanted = {OK, mesh.columns, mesh.rows, mesh.rule, list.packets, 0};
    struct answer answer = ask(&q, what, &wanted);
    expect(only_offered(), what, &q, answer, answer);
}

/* Writing what was read. Sizes are the least and greater ones in turn. */
static void ask_written_again(const char *what)
{
    static const size_t sizes[] = {MESH_LIST_BYTES, MESH_LIST_BYTES + 1, MESH_REPORT_BYTES,
                                   OUT_ROOM};
    struct question q = question(WRITE);
    q.size = sizes[below(4)];
    ask_bytes(&q, what, list.bytes, list.length);
}

static unsigned apart(unsigned a, unsigned b)
{
    return a > b ? a - b : b - a;
}

/* The sheet of a good list by what is promised: flits * (distance + 1) moves a packet. Words that
 * are lent besides those of the mesh stay. */
static void ask_sheet(const char *what)
{
    char text[MESH_REPORT_BYTES];
    struct question q = question(REPORT);
    unsigned total = 0;
    int length = snprintf(text, sizeof text, "packet hops moves\n");
    for (unsigned i = 0; i < list.packets; i++) {
        const uint8_t *header = header_of(i);
        unsigned hops =
            apart(header[0] / 16, header[1] / 16) + apart(header[0] % 16, header[1] % 16);
        unsigned moves = (header[2] + 1u) * (hops + 1);
        length +=
            snprintf(text + length, sizeof text - (size_t)length, "%u %u %u\n", i, hops, moves);
        total += moves;
    }
    length += snprintf(text + length, sizeof text - (size_t)length, "total %u\n", total);
    q.length += below(2) ? 0 : below(WORD_VALUES);
    q.size += below(2) ? 0 : below(OUT_ROOM - MESH_REPORT_BYTES);
    fill_with_garbage(q.length, q.count);
    ask_bytes(&q, what, text, (size_t)length);
}

/* A list that is served. It is read twice, the second time over what the first left. */
static void ask_good(const char *what, struct list good)
{
    turn_to(good);
    ask_read(what);
    ask_written_again(what);
    ask_read(what);
    ask_sheet(what);
}

static void ask_bad(const char *what, struct list bad, unsigned refusal)
{
    turn_to(bad);
    ask_refused(what, refusal);
}

/* A list with one packet, whose bytes are given. */
static struct list one_packet(unsigned columns, unsigned rows, unsigned rule, unsigned source,
                              unsigned destination, unsigned flits)
{
    struct list one = new_list(columns, rows, rule);
    const uint8_t header[] = {(uint8_t)source, (uint8_t)destination, (uint8_t)flits};
    memcpy(one.bytes + one.length, header, sizeof header);
    one.length += sizeof header;
    one.packets = 1;
    return one;
}

static void ask_text(const char *what, const char *text)
{
    struct question q = question(REPORT);
    ask_bytes(&q, what, text, strlen(text));
}

/* What the scope says whole: its example and its edges. */
static void ask_known_lists(void)
{
    static const uint8_t example[] = {0x21, 0x20, 0x20, 0x01, 0x01, 0x00, 0x21, 0x00};
    ask_good("the scope's example", example_list());
    expect(list.length == sizeof example && memcmp(list.bytes, example, sizeof example) == 0,
           "the example's bytes", &here, (struct answer){0}, (struct answer){0});
    ask_text("the scope's example", "packet hops moves\n0 3 8\n1 3 4\ntotal 12\n");
    ask_good("no packet", new_list(3, 2, WEST_FIRST));
    ask_text("no packet", "packet hops moves\ntotal 0\n");
    ask_good("flits byte 199", one_packet(2, 2, XY, 0x00, 0x11, 199));
    ask_text("flits byte 199", "packet hops moves\n0 2 600\ntotal 600\n");
    ask_bad("flits byte 200", one_packet(2, 2, XY, 0x00, 0x11, 200), BAD_FLITS);
    ask_bad("flits byte 255", one_packet(2, 2, XY, 0x00, 0x11, 255), BAD_FLITS);
    ask_bad("source column off", one_packet(3, 4, XY, 0x30, 0x11, 0), BAD_NODE);
    ask_bad("source row off", one_packet(3, 4, XY, 0x04, 0x11, 0), BAD_NODE);
    ask_bad("destination column off", one_packet(3, 4, XY, 0x11, 0x30, 0), BAD_NODE);
    ask_bad("destination row off", one_packet(3, 4, XY, 0x11, 0x04, 0), BAD_NODE);
    ask_bad("off by far", one_packet(3, 4, XY, 0x11, 0xff, 0), BAD_NODE);
    ask_bad("source is destination", one_packet(3, 4, XY, 0x12, 0x12, 0), SAME_NODE);
    ask_good("source mirrors destination", one_packet(3, 4, XY, 0x12, 0x21, 0));
}

/* Every mesh that can be said, with every rule that can be said. */
static void ask_every_lead(void)
{
    for (unsigned columns = 1; columns <= SIDE_MAX; columns++)
        for (unsigned rows = 1; rows <= SIDE_MAX; rows++)
            for (unsigned rule = 0; rule < 8; rule++)
                if (columns == 1 || rows == 1)
                    ask_bad("side 1", new_list(columns, rows, rule), BAD_SIDE);
                else if (rule >= RULES)
                    ask_bad("rule", new_list(columns, rows, rule), BAD_RULE);
                else
                    ask_good("mesh", some_list((struct mesh){columns, rows, rule}, below(4), 4));
}

static void ask_spare_bits(void)
{
    for (unsigned spare = 1; spare < 32; spare++) {
        struct list bad = some_good_list();
        bad.bytes[1] |= (uint8_t)spare;
        ask_bad("spare bits", bad, BAD_LIST);
    }
}

/* Every number of packets, and some that are too many; every byte of flits. */
static void ask_every_count(void)
{
    for (unsigned packets = 0; packets <= PACKETS_MAX; packets++)
        ask_good("packets", some_list((struct mesh){4, 5, below(RULES)}, packets, 3));
    for (unsigned packets = PACKETS_MAX + 1; packets < PACKETS_MAX + 40; packets++)
        ask_bad("too many packets", some_list((struct mesh){4, 5, below(RULES)}, packets, 3),
                BAD_LIST);
    for (unsigned flits = 0; flits < VALUES; flits++) {
        struct list one = one_packet(3, 3, below(RULES), 0x01, 0x21, flits);
        if (flits < FLITS_MAX)
            ask_good("flits", one);
        else
            ask_bad("flits", one, BAD_FLITS);
    }
}

/* Each source with itself and with some destinations, on the mesh or off it. */
static void ask_every_place(unsigned columns, unsigned rows)
{
    for (unsigned source = 0; source < VALUES; source++)
        for (unsigned i = 0; i < VALUES; i += 1 + below(16)) {
            unsigned destination = i == 0 ? source : i;
            bool off = source / 16 >= columns || source % 16 >= rows ||
                       destination / 16 >= columns || destination % 16 >= rows;
            struct list one = one_packet(columns, rows, below(RULES), source, destination, 0);
            if (off || source == destination)
                ask_bad("places", one, off ? BAD_NODE : SAME_NODE);
            else
                ask_good("places", one);
        }
}

/* A list cut at every length; one cut between packets is a good one with fewer. */
static void ask_cut(struct list whole)
{
    for (size_t length = 0; length <= whole.length; length++) {
        struct list cut = whole;
        cut.length = length;
        cut.packets = length < LEAD_BYTES ? 0 : (unsigned)(length - LEAD_BYTES) / HEADER_BYTES;
        if (length % HEADER_BYTES == LEAD_BYTES)
            ask_good("cut", cut);
        else
            ask_bad("cut", cut, BAD_LIST);
    }
}

/* Good bytes, and so many that a count of one byte or two would take them for a list. */
static void ask_long(void)
{
    static uint8_t bytes[2 * WORD_VALUES];
    static const size_t lengths[] = {195, 196,  197,  200,   258,   450,
                                     520, 1000, 4096, 65538, 65544, 131072};
    for (size_t i = 0; i < sizeof lengths / sizeof lengths[0]; i++) {
        turn_to(example_list());
        memcpy(bytes, list.bytes, list.length);
        here.list = bytes;
        here.list_length = lengths[i];
        ask_refused("long", BAD_LIST);
    }
}

/* Memory of wrong sizes, with a good list; more words than it takes are no fault of a report's. */
static void ask_wrong_sizes(struct list good)
{
    turn_to(good);
    for (unsigned i = 0; i < WRONG_LENGTHS; i++) {
        struct question read = question(READ), report = question(REPORT);
        read.length = report.length = wrong_length(i);
        ask_due(&read, "wrong words", BAD_SIZE);
        if (report.length < used.length)
            ask_refused_sheet(&report, "too few words", BAD_SIZE);
    }
    for (unsigned i = 0; i < WRONG_COUNTS; i++) {
        struct question read = question(READ);
        read.count = wrong_counts[i];
        ask_due(&read, "wrong records", BAD_SIZE);
    }
}

/* Every number of records: enough for the packets or not. Those that are lent besides are emptied.
 */
static void ask_every_record_count(struct list good)
{
    for (unsigned count = 1; count <= MESH_RECORDS; count++) {
        turn_to(good);
        here.count = count;
        if (count >= list.packets) {
            ask_read("records");
            ask_written_again("records");
        } else {
            struct question q = question(READ);
            ask_due(&q, "too few records", FULL);
        }
    }
}

static void ask_report_sizes(struct list any)
{
    static const size_t sizes[] = {0, 1, 194, 255, 1000, MESH_REPORT_BYTES - 1};
    turn_to(any);
    for (size_t i = 0; i < sizeof sizes / sizeof sizes[0]; i++) {
        struct question q = question(REPORT);
        q.size = sizes[i];
        ask_due(&q, "a short sheet", BAD_SIZE);
    }
    ask_any(REPORT);
}

/* A good list with a packet and more, on a mesh that a place can be off. */
static struct list some_list_to_spoil(void)
{
    struct mesh small = {SIDE_MIN + below(6), SIDE_MIN + below(SIDE_MAX - 1), below(RULES)};
    return some_list(small, 2 + below(below(4) ? 4 : PACKETS_MAX - 1), FLITS_MAX);
}

static void make_memory_wrong(struct question *q)
{
    if (below(2))
        q->length = wrong_length(below(WRONG_LENGTHS));
    else
        q->count = wrong_counts[below(WRONG_COUNTS)];
}

/* Every set of faults, a bit for each. The first is due: it is made last, so that nothing undoes
 * it. A report has records enough of its own, and wants words enough. */
static void ask_reading_faults(void)
{
    for (unsigned faults = 1; faults < 1u << FAULTS; faults++) {
        struct list bad = some_list_to_spoil();
        unsigned packet = below(bad.packets), refusal = OK;
        for (unsigned fault = FAULTS; fault-- > 0;)
            if (faults >> fault & 1) {
                make_fault(&bad, (enum fault)fault, packet);
                refusal = fault_refusals[fault];
            }
        turn_to(bad);
        struct question read = question(READ), report = question(REPORT);
        if (faults >> RECORDS & 1)
            read.count = 1 + below(list.packets - 1);
        if (faults >> SIZES & 1) {
            make_memory_wrong(&read);
            report.length = below((unsigned)used.length);
        }
        ask_due(&read, "faults", refusal);
        if (faults != 1u << RECORDS)
            ask_refused_sheet(&report, "faults", refusal);
    }
}

/* Faults in two packets: that of the earlier one is due, whatever its number. */
static void ask_faults_of_two(void)
{
    static const enum fault faults[] = {NODE, FLITS, SAME};
    for (unsigned i = 0; i < 9; i++) {
        struct list bad = some_list_to_spoil();
        unsigned later = 1 + below(bad.packets - 1), earlier = below(later);
        make_fault(&bad, faults[i % 3], later);
        make_fault(&bad, faults[i / 3], earlier);
        ask_bad("two packets", bad, fault_refusals[faults[i / 3]]);
    }
}

/* Tries so many moves of the packets that were read, by both. */
static void move_on(unsigned tries)
{
    for (; tries > 0; tries--) {
        struct move move = some_move(list.packets);
        if (move_by_archive(&move) != move_by_second(&move))
            tally.differ++;
    }
}

/* Reads a list and writes what is live in between moves. Reading begins anew, whatever was left. */
static void ask_run(struct list good)
{
    turn_to(good);
    ask_read("run");
    for (unsigned i = 0; i < 6; i++) {
        move_on(list.packets == 0 ? 0 : 40 + below(40 * list.packets));
        ask_any(WRITE);
    }
    ask_read("after a run");
}

/* What can be wrong when a list is written. */
static const uint8_t write_refusals[] = {BAD_SIDE, BAD_RULE, BAD_SIZE, BAD_MEMORY};
enum { WRITE_FAULTS = sizeof write_refusals };

static void make_write_wrong(struct question *q, unsigned refusal)
{
    static const size_t sizes[] = {0, 1, 2, 192, MESH_LIST_BYTES - 1};
    if (refusal == BAD_SIDE)
        *(below(2) ? &q->columns : &q->rows) = (uint8_t)wrong_of(side_choices(0));
    else if (refusal == BAD_RULE)
        q->rule = (uint8_t)wrong_of(rule_choices(0));
    else if (refusal == BAD_SIZE && below(2))
        q->size = sizes[below(5)];
    else if (refusal == BAD_SIZE)
        make_memory_wrong(q);
    else if (below(2))
        spoil_word();
    else
        spoil_record();
}

/* On memory at random, in range: what is live is written, with no fault; and every set of faults.
 */
static void ask_writing_faults(void)
{
    for (unsigned faults = 0; faults < 1u << WRITE_FAULTS; faults++) {
        turn_to(some_good_list());
        used.count = here.count = 1 + below(MESH_RECORDS);
        fill_in_range();
        struct question q = question(WRITE);
        unsigned refusal = OK;
        for (unsigned i = WRITE_FAULTS; i-- > 0;)
            if (faults >> i & 1) {
                refusal = write_refusals[i];
                make_write_wrong(&q, refusal);
            }
        if (faults == 0)
            ask(&q, NULL, NULL);
        else
            ask_due(&q, "writing", refusal);
    }
}

/* Any list, with memory that is right for what its lead says or, now and then, is not. */
static void ask_at_random(void)
{
    turn_to(any_list());
    if (below(4) == 0)
        here.count = below(MESH_RECORDS + 2);
    if (below(8) == 0)
        here.length = wrong_length(below(WRONG_LENGTHS));
    ask_any(READ);
    ask_any(WRITE);
    ask_any(REPORT);
}

static void ask_all(void)
{
    for (unsigned i = 0; i < 4; i++)
        ask_reading_faults();
    for (unsigned i = 0; i < 60; i++) {
        ask_faults_of_two();
        ask_writing_faults();
        ask_run(some_good_list());
        ask_wrong_sizes(some_good_list());
        ask_report_sizes(any_list());
    }
    for (unsigned i = 0; i < 3000; i++)
        ask_at_random();
}

static bool all_refusals_seen(void)
{
    static const uint8_t read_due[] = {0, 12, 1, 2, 7, 3, 6, 5, 10};
    static const uint8_t write_due[] = {0, 1, 2, 7, 9};
    static const uint8_t report_due[] = {0, 7};
    bool seen = all_seen("read refusals", refusals[READ], read_due, sizeof read_due);
    seen = all_seen("write refusals", refusals[WRITE], write_due, sizeof write_due) && seen;
    seen = all_seen("report refusals", refusals[REPORT], report_due, sizeof report_due) && seen;
    return all_seen("sheets", sheets, read_due, sizeof read_due - 1) && seen;
}

int main(int argc, char **argv)
{
    if (argc == 2 && strcmp(argv[1], "--all") == 0)
        times = 10;
    ask_known_lists();
    ask_every_lead();
    ask_spare_bits();
    ask_every_count();
    ask_every_place(3, 5);
    ask_long();
    ask_cut(example_list());
    ask_cut(some_list((struct mesh){2, 16, ODD_EVEN}, PACKETS_MAX, 3));
    ask_every_record_count(some_list((struct mesh){5, 4, NORTH_LAST}, 7, 3));
    ask_every_record_count(some_list((struct mesh){2, 2, XY}, PACKETS_MAX, 3));
    ask_good("heaviest", heaviest_list());
    for (unsigned i = 0; i < times; i++)
        ask_all();
    return verdict("list", all_refusals_seen());
}
