/* Puts the same questions about numberings to the proved archive and to the second program: the
 * house list of every mesh and rule that is served; lists to check, for many of which the answer is
 * known by the way they are made; wrong lengths and arguments out of range. Says how many were
 * asked and how many differ; the exit status is 0 if none does, every known answer was given, and
 * every refusal that can occur did. */
#include "../include/mesh.h"
#include "../second/number.h"
#include "compare.h"

#include <string.h>

enum { CHANNELS = WAYS * SIDE_MAX * SIDE_MAX, WORD_VALUES = 65536 };
enum { LONGEST = WAYS * 255 * 255 + 2, GUARD = 32, LENT = GUARD + LONGEST + GUARD }; /* in words */
enum { STRAY_QUESTIONS = 5000 };

/* The time of a question goes with the nodes. So a mesh of more than SMALL nodes is spared all but
 * one of SHARE questions of some kinds, and random lists come in so many rounds that their nodes
 * make up ROUND_NODES. SHARE is odd, or the channels that leave some way might all be spared; and
 * below DAMAGES, or some places would never be damaged. */
enum { SMALL = 64, SHARE = 5, DAMAGES = 10, ROUND_NODES = 20000 };

struct question {
    uint8_t columns, rows, rule;
    size_t length;
};

/* How often the archive gave each refusal. */
static unsigned long number_refusals[VALUES], check_refusals[VALUES];

static void show(const char *what, const struct question *q)
{
    printf("%s: %u x %u, rule %u, length %zu: ", what, q->columns, q->rows, q->rule, q->length);
}

/* The lists that are lent to the archive and to the second program to be numbered, each between
 * guard words; and what the archive is due to leave. */
static uint16_t by_archive[LENT], by_second[LENT], due[LENT];

/* The two lists get different garbage: a word that both leave unwritten shows, too. */
static void fill_with_garbage(size_t words)
{
    for (size_t i = 0; i < words; i++) {
        by_archive[i] = due[i] = (uint16_t)below(WORD_VALUES);
        by_second[i] = (uint16_t)~due[i];
    }
}

static size_t first_wrong_word(size_t words)
{
    size_t i = 0;
    while (i < words && by_archive[i] == due[i])
        i++;
    return i;
}

/* Asks both for a house list; `wanted` is the refusal known beforehand, or null. With a refusal all
 * words must be as they were, else those outside the list. */
static void ask_number(const struct question *q, const char *what, const unsigned *wanted)
{
    size_t words = GUARD + q->length + GUARD;
    fill_with_garbage(words);
    unsigned archive = mesh_number(q->columns, q->rows, q->rule, by_archive + GUARD, q->length);
    unsigned second = second_number(q->columns, q->rows, q->rule, by_second + GUARD, q->length);
    if (second == OK)
        memcpy(due + GUARD, by_second + GUARD, q->length * sizeof due[0]);
    size_t wrong = first_wrong_word(words);
    tally.asked++;
    number_refusals[archive]++;
    if ((archive != second || wrong < words) && tally.differ++ < SHOWN) {
        show("differ", q);
        printf("numbering, archive %u, second %u", archive, second);
        if (wrong < words)
            printf(", word %td is %u, due %u", (ptrdiff_t)wrong - GUARD, by_archive[wrong],
                   due[wrong]);
        printf("\n");
    }
    if (wanted != NULL && (archive != *wanted || second != *wanted) && tally.unexpected++ < SHOWN) {
        show(what, q);
        printf("numbering, archive %u, second %u, wanted %u\n", archive, second, *wanted);
    }
}

/* The list that both are asked to check, and a copy that the archive does not get. */
static uint16_t list[LONGEST], copy[LONGEST];

static bool same(struct second_checked a, struct second_checked b)
{
    return a.refusal == b.refusal && a.incoming == b.incoming && a.outgoing == b.outgoing;
}

static void show_checks(const char *what, const struct question *q, struct second_checked archive,
                        struct second_checked second)
{
    show(what, q);
    printf("check, archive %u pair %u %u, second %u pair %u %u\n", archive.refusal,
           archive.incoming, archive.outgoing, second.refusal, second.incoming, second.outgoing);
}

/* Asks both to check the list; `wanted` is the answer known beforehand, or null. */
static void ask_check(const struct question *q, const char *what,
                      const struct second_checked *wanted)
{
    memcpy(copy, list, q->length * sizeof list[0]);
    Checked checked = mesh_check(q->columns, q->rows, q->rule, list, q->length);
    struct second_checked archive = {checked.refusal, checked.incoming, checked.outgoing};
    struct second_checked second = second_check(q->columns, q->rows, q->rule, copy, q->length);
    bool written = memcmp(copy, list, q->length * sizeof list[0]) != 0;
    tally.asked++;
    check_refusals[checked.refusal]++;
    if ((written || !same(archive, second)) && tally.differ++ < SHOWN)
        show_checks(written ? "list written" : "differ", q, archive, second);
    if (wanted != NULL && (!same(archive, *wanted) || !same(second, *wanted)) &&
        tally.unexpected++ < SHOWN) {
        show_checks(what, q, archive, second);
        printf("    wanted %u pair %u %u\n", wanted->refusal, wanted->incoming, wanted->outgoing);
    }
}

/* Asks both calls where the same refusal, or acceptance, is wanted of both. */
static void ask_both(const struct question *q, const char *what, unsigned refusal)
{
    struct second_checked wanted = {refusal, 0, 0};
    ask_number(q, what, &refusal);
    ask_check(q, what, &wanted);
}

/* The numbers of the four channels that leave a node: west, east, south, north. The first row is
 * the scope's own example; on 7 x 9 the places are such that c, r, u, d, C and R all differ. */
static const struct known_numbers {
    const char *name;
    uint8_t columns, rows, rule, at[2];
    uint16_t wanted[WAYS];
} known_numbers[] = {
    {"4 x 4 negative-first", 4, 4, NEGATIVE_FIRST, {1, 2}, {3, 9, 3, 9}},
    {"xy, odd column", 7, 9, XY, {1, 2}, {5, 1, 13, 9}},
    {"xy, even column", 7, 9, XY, {2, 3}, {4, 2, 12, 10}},
    {"west-first, odd column", 7, 9, WEST_FIRST, {1, 2}, {5, 26, 23, 19}},
    {"west-first, even column", 7, 9, WEST_FIRST, {2, 3}, {4, 36, 32, 30}},
    {"north-last, odd column", 7, 9, NORTH_LAST, {1, 2}, {53, 49, 55, 74}},
    {"north-last, even column", 7, 9, NORTH_LAST, {2, 3}, {44, 42, 47, 75}},
    {"negative-first, odd column", 7, 9, NEGATIVE_FIRST, {1, 2}, {11, 17, 11, 17}},
    {"negative-first, even column", 7, 9, NEGATIVE_FIRST, {2, 3}, {9, 19, 9, 19}},
    {"odd-even, odd column", 7, 9, ODD_EVEN, {1, 2}, {59, 89, 86, 82}},
    {"odd-even, even column", 7, 9, ODD_EVEN, {2, 3}, {49, 99, 45, 43}},
};

static void ask_known_numbers(void)
{
    for (size_t i = 0; i < sizeof known_numbers / sizeof known_numbers[0]; i++) {
        const struct known_numbers *k = &known_numbers[i];
        struct question q = {k->columns, k->rows, k->rule, (size_t)WAYS * k->columns * k->rows};
        const uint16_t *numbers = &by_archive[GUARD + WAYS * (k->at[1] * k->columns + k->at[0])];
        ask_number(&q, k->name, &(unsigned){OK});
        if (memcmp(numbers, k->wanted, sizeof k->wanted) != 0 && tally.unexpected++ < SHOWN) {
            show(k->name, &q);
            printf("numbers %u %u %u %u\n", numbers[WEST], numbers[EAST], numbers[SOUTH],
                   numbers[NORTH]);
        }
    }
}

/* Lists for checks worked out by hand: the channels with a number of their own. There never is a
 * channel 0, so a 0 ends them. The turns by 90 degrees, with incoming and outgoing channel:
 * 2 x 2: EN 1 7, NE 3 9, WN 4 3, NW 7 12, ES 9 14, SE 10 1, WS 12 10, SW 14 4
 * 2 x 3: EN 1 7, NE 3 9, WN 4 3, NW 7 12, ES 9 14, EN 9 15, SE 10 1, NE 11 17, WS 12 10, WN 12 11,
 *        SW 14 4, NW 15 20, ES 17 22, SE 18 9, WS 20 18, SW 22 12
 * 3 x 2: EN 1 7, NE 3 13, WN 4 3, EN 5 11, NW 7 16, NE 7 17, WN 8 7, NW 11 20, ES 13 18, SE 14 1,
 *        WS 16 14, ES 17 22, SW 18 4, SE 18 5, WS 20 18, SW 22 8; column 2 has EN 5 11, NW 11 20,
 *        ES 17 22, SW 22 8, and column 0 has NE 3 13, WN 4 3, SE 14 1, WS 16 14 */
struct numbered {
    uint16_t channel, number;
};

/* For 2 x 2. */
static const struct numbered nothing[] = {{0, 0}};
static const struct numbered north_at_1_0[] = {{7, 1}, {0, 0}};
static const struct numbered three_of_four[] = {{7, 1}, {3, 1}, {14, 1}, {0, 0}};
static const struct numbered north_and_south[] = {{3, 1}, {7, 1}, {10, 1}, {14, 1}, {0, 0}};
/* Two runs of turns without NW and ES, W S E N and S W N E. */
static const struct numbered two_runs[] = {{12, 0}, {10, 1}, {1, 2}, {7, 3}, {14, 0},
                                           {4, 1},  {3, 2},  {9, 3}, {0, 0}};
static const struct numbered second_run_level[] = {{12, 0}, {10, 1}, {1, 2}, {7, 3}, {14, 1},
                                                   {4, 1},  {3, 2},  {9, 3}, {0, 0}};
/* W N E S falls at its end; W S E N has S and E equal. */
static const struct numbered two_faults[] = {{4, 1},  {3, 2}, {9, 5}, {14, 4}, {12, 1},
                                             {10, 3}, {1, 3}, {7, 4}, {0, 0}};

/* For 2 x 3. */
static const struct numbered falling_columns[] = {{3, 2},  {11, 1}, {7, 2},  {15, 1}, {18, 2},
                                                  {10, 1}, {22, 2}, {14, 1}, {0, 0}};
static const struct numbered north_at_1_1_low[] = {{3, 2},  {11, 1}, {7, 2},  {18, 2},
                                                   {10, 1}, {22, 2}, {14, 1}, {0, 0}};
static const struct numbered south_too[] = {{3, 2},  {11, 1}, {7, 2}, {18, 2},
                                            {10, 1}, {22, 2}, {0, 0}};
static const struct numbered norths[] = {{3, 7}, {7, 7}, {11, 7}, {15, 7}, {0, 0}};

/* For 3 x 2: the runs 22 8 7 17, 16 14 1 7, 4 3 13 18 5 and 11 20 18. */
static const struct numbered four_runs[] = {{22, 1}, {8, 2}, {7, 4},  {17, 5}, {16, 1},
                                            {14, 2}, {1, 3}, {4, 1},  {3, 2},  {13, 3},
                                            {18, 4}, {5, 5}, {11, 1}, {20, 2}, {0, 0}};
static const struct numbered last_run_level[] = {{22, 1}, {8, 2}, {7, 4},  {17, 5}, {16, 1},
                                                 {14, 2}, {1, 3}, {4, 1},  {3, 2},  {13, 3},
                                                 {18, 4}, {5, 5}, {11, 2}, {20, 2}, {0, 0}};

static const struct known_check {
    const char *name;
    uint8_t columns, rows, rule;
    uint16_t others; /* the number of all other channels, and of those that do not exist */
    const struct numbered *numbered;
    struct second_checked wanted;
} known_checks[] = {
    {"all equal: first is EN", 2, 2, XY, 0, nothing, {14, 1, 7}},
    {"EN rises: next is WN", 2, 2, XY, 0, north_at_1_0, {14, 4, 3}},
    {"EN, WN, ES rise: next is WS", 2, 2, XY, 0, three_of_four, {14, 12, 10}},
    {"all four rise", 2, 2, XY, 0, north_and_south, {0, 0, 0}},
    {"but NE falls", 2, 2, WEST_FIRST, 0, north_and_south, {14, 3, 9}},
    {"but SE falls", 2, 2, NORTH_LAST, 0, north_and_south, {14, 10, 1}},
    {"all but NW and ES rise by 1", 2, 2, NEGATIVE_FIRST, 65535, two_runs, {0, 0, 0}},
    {"but ES falls", 2, 2, ODD_EVEN, 65535, two_runs, {14, 9, 14}},
    {"the last is equal, SW", 2, 2, NEGATIVE_FIRST, 0, second_run_level, {14, 14, 4}},
    {"ES before SE, by incoming", 2, 2, WEST_FIRST, 0, two_faults, {14, 9, 14}},
    {"straight on falls", 2, 3, XY, 0, falling_columns, {0, 0, 0}},
    {"EN fails, not ES before it", 2, 3, XY, 0, north_at_1_1_low, {14, 9, 15}},
    {"ES before EN, by outgoing", 2, 3, XY, 0, south_too, {14, 9, 14}},
    {"ES is equal, not EN, WN", 2, 3, NORTH_LAST, 6, norths, {14, 9, 14}},
    {"what is forbidden falls", 3, 2, ODD_EVEN, 0, four_runs, {0, 0, 0}},
    {"but EN falls in column 2", 3, 2, WEST_FIRST, 0, four_runs, {14, 5, 11}},
    {"NW is equal in column 2", 3, 2, ODD_EVEN, 0, last_run_level, {14, 11, 20}},
};

static void fill_list(uint16_t number, size_t length)
{
    for (size_t i = 0; i < length; i++)
        list[i] = number;
}

static void ask_known_checks(void)
{
    for (size_t i = 0; i < sizeof known_checks / sizeof known_checks[0]; i++) {
        const struct known_check *k = &known_checks[i];
        struct question q = {k->columns, k->rows, k->rule, (size_t)WAYS * k->columns * k->rows};
        fill_list(k->others, q.length);
        for (const struct numbered *n = k->numbered; n->channel != 0; n++)
            list[n->channel] = n->number;
        ask_check(&q, k->name, &k->wanted);
    }
}

/* The mesh and rule at hand, their house list, its greatest number, and their pairs: those in which
 * a channel is the incoming one start at its `first` and end before the next channel's. */
static struct mesh mesh;
static struct question here;
static uint16_t house[CHANNELS], top;
static const struct second_pair *pairs;
static size_t first[CHANNELS + 1];

static const struct second_checked accepted = {OK, 0, 0};

static struct second_checked failing_at(const struct second_pair *pair)
{
    return (struct second_checked){NOT_RISING, pair->incoming, pair->outgoing};
}

static void turn_to(unsigned columns, unsigned rows, unsigned rule)
{
    mesh = (struct mesh){columns, rows, rule};
    here = (struct question){(uint8_t)columns, (uint8_t)rows, (uint8_t)rule,
                             (size_t)WAYS * columns * rows};
    second_number(columns, rows, rule, house, here.length);
    size_t count = second_pairs(columns, rows, rule, &pairs);
    size_t next = 0;
    top = 0;
    for (size_t channel = 0; channel < here.length; channel++) {
        first[channel] = next;
        while (next < count && pairs[next].incoming == channel)
            next++;
        if (house[channel] > top)
            top = house[channel];
    }
    first[here.length] = count;
}

/* Other meshes and rules are spared other numbers. */
static bool spared(size_t number)
{
    return here.length > (size_t)WAYS * SMALL && (number + mesh.columns + mesh.rule) % SHARE != 0;
}

static unsigned rounds(void)
{
    return ROUND_NODES / (mesh.columns * mesh.rows);
}

static void take_house_list(void)
{
    memcpy(list, house, here.length * sizeof list[0]);
}

static void ask_wrong_lengths(void)
{
    size_t right = here.length;
    const size_t lengths[] = {0,         1,         right / 2, right - 4,   right - 1,
                              right + 1, right + 4, right * 2, right + 256, right + WORD_VALUES};
    for (size_t i = 0; i < sizeof lengths / sizeof lengths[0]; i++) {
        struct question q = here;
        q.length = lengths[i];
        ask_both(&q, "wrong length", BAD_SIZE);
    }
}

/* All numbers moved up alike: none, to both sides of a word's middle, and to its end. */
static void ask_moved_up(void)
{
    const unsigned by[] = {0, 1, WORD_VALUES / 2 - top / 2u, WORD_VALUES - 1u - top};
    for (size_t i = 0; i < sizeof by / sizeof by[0]; i++) {
        for (size_t channel = 0; channel < here.length; channel++)
            list[channel] = (uint16_t)(house[channel] + by[i]);
        ask_check(&here, "moved up", &accepted);
    }
}

/* Nothing rises: all numbers equal, or the house list upside down. */
static void ask_never_rising(void)
{
    static const uint16_t numbers[] = {0, 1, 32767, 32768, 65535};
    struct second_checked wanted = failing_at(&pairs[0]);
    for (size_t i = 0; i < sizeof numbers / sizeof numbers[0]; i++) {
        fill_list(numbers[i], here.length);
        ask_check(&here, "all equal", &wanted);
    }
    for (size_t channel = 0; channel < here.length; channel++)
        list[channel] = (uint16_t)(top - house[channel]);
    ask_check(&here, "upside down", &wanted);
}

static bool exists(unsigned channel)
{
    return on_mesh(&mesh, end_of(&mesh, channel));
}

/* What stands in the place of a channel that does not exist must not count. */
static void ask_absent_channels(void)
{
    take_house_list();
    for (unsigned round = 0; round < 3; round++) {
        for (unsigned channel = 0; channel < here.length; channel++)
            if (!exists(channel))
                list[channel] = (uint16_t)(round < 2 ? round * 65535 : below(WORD_VALUES));
        ask_check(&here, "absent channels", &accepted);
    }
}

/* Lifts a channel and all that follow it, near or far, but not by way of the pair `except`. Then
 * every other pair still rises, for if its incoming channel is lifted, so is its outgoing one. */
static void lift(unsigned channel, unsigned by, const struct second_pair *except)
{
    if (list[channel] != house[channel])
        return;
    list[channel] = (uint16_t)(house[channel] + by);
    for (size_t i = first[channel]; i < first[channel + 1]; i++)
        if (&pairs[i] != except)
            lift(pairs[i].outgoing, by, except);
}

/* Lifted above all others, a channel falls straight on, back, and at turns that are not allowed. */
static void ask_lifted_channels(void)
{
    for (unsigned channel = 0; channel < here.length; channel++) {
        if (spared(channel))
            continue;
        take_house_list();
        lift(channel, top + 1u, NULL);
        ask_check(&here, "lifted channel", &accepted);
    }
}

/* A list in which one pair alone does not rise, its numbers being equal. Under negative-first some
 * pairs are joined by other turns as well, in a loop to the south-west, and cannot fail alone. */
static void ask_equal_at(const struct second_pair *pair, unsigned gap)
{
    take_house_list();
    lift(pair->incoming, gap, pair);
    bool joined = mesh.rule == NEGATIVE_FIRST && list[pair->outgoing] != house[pair->outgoing];
    struct second_checked wanted = joined ? accepted : failing_at(pair);
    ask_check(&here, "equal at one turn", &wanted);
}

static void ask_rising_by_one(const struct second_pair *pair, unsigned gap)
{
    take_house_list();
    if (gap > 1)
        lift(pair->incoming, gap - 1, pair);
    ask_check(&here, "rising by one", &accepted);
}

static void ask_each_pair(void)
{
    for (size_t i = 0; i < first[here.length]; i++) {
        unsigned gap = (unsigned)house[pairs[i].outgoing] - house[pairs[i].incoming];
        ask_equal_at(&pairs[i], gap);
        if (!spared(i))
            ask_rising_by_one(&pairs[i], gap);
    }
}

/* One number changed: to the extremes, by little, and to the number of each channel that leaves the
 * node where the changed one ends, or starts if it does not exist. */
static void ask_damaged_at(unsigned channel)
{
    unsigned node = exists(channel) ? node_at(&mesh, end_of(&mesh, channel)) : channel / WAYS;
    const uint16_t *leaving = &house[WAYS * node];
    unsigned number = house[channel];
    const unsigned damages[DAMAGES] = {
        0,          65535,      number - 1, number + 1, number + 256, below(top + 2u),
        leaving[0], leaving[1], leaving[2], leaving[3]};
    for (unsigned i = 0; i < DAMAGES; i++)
        if (!spared(channel + i)) {
            list[channel] = (uint16_t)damages[i];
            ask_check(&here, NULL, NULL);
        }
    list[channel] = house[channel];
}

static void ask_damaged_once(void)
{
    take_house_list();
    for (unsigned channel = 0; channel < here.length; channel++)
        ask_damaged_at(channel);
}

/* Two numbers changed or more; to numbers of other channels or to any others. */
static void ask_damaged_often(void)
{
    for (unsigned round = 0; round < rounds(); round++) {
        take_house_list();
        for (unsigned i = 0; i < 2 + round % 16; i++) {
            unsigned channel = below((unsigned)here.length);
            unsigned other = below((unsigned)here.length);
            list[channel] = below(2) ? house[other] : (uint16_t)below(WORD_VALUES);
        }
        ask_check(&here, NULL, NULL);
    }
}

/* The house lists of all rules on all meshes with as many nodes. */
static void ask_borrowed_lists(void)
{
    unsigned nodes = mesh.columns * mesh.rows;
    for (unsigned columns = SIDE_MIN; columns <= SIDE_MAX; columns++)
        for (unsigned rule = 0; rule < RULES; rule++)
            if (nodes % columns == 0 &&
                second_number(columns, nodes / columns, rule, list, here.length) == OK)
                ask_check(&here, NULL, NULL);
}

/* Words at random, in some rounds so few different ones that many are equal. */
static void ask_random_lists(void)
{
    static const unsigned bounds[] = {2, 3, 10, 100, WORD_VALUES};
    for (unsigned round = 0; round < rounds(); round++) {
        unsigned bound = bounds[round % (sizeof bounds / sizeof bounds[0])];
        for (size_t channel = 0; channel < here.length; channel++)
            list[channel] = (uint16_t)below(bound);
        ask_check(&here, NULL, NULL);
    }
}

static void ask_mesh(unsigned columns, unsigned rows)
{
    for (unsigned rule = 0; rule < RULES; rule++) {
        turn_to(columns, rows, rule);
        take_house_list();
        ask_wrong_lengths();
        ask_both(&here, "house list", OK);
        ask_both(&here, "house list", OK);
        ask_moved_up();
        ask_never_rising();
        ask_absent_channels();
        ask_lifted_channels();
        ask_each_pair();
        ask_damaged_once();
        ask_damaged_often();
        ask_borrowed_lists();
        ask_random_lists();
    }
}

/* Counts on by one, the channels that exist being the digits; false after the last list. */
static bool next_list(unsigned base)
{
    for (unsigned channel = 0; channel < here.length; channel++)
        if (exists(channel)) {
            if (++list[channel] < base)
                return true;
            list[channel] = 0;
        }
    return false;
}

static void ask_every_list(unsigned columns, unsigned rows, unsigned base)
{
    for (unsigned rule = 0; rule < RULES; rule++) {
        turn_to(columns, rows, rule);
        fill_list(0, here.length);
        do
            ask_check(&here, NULL, NULL);
        while (next_list(base));
    }
}

enum { ARGUMENTS = 4 };

static void ask_wrong_arguments(void)
{
    unsigned right = (unsigned)here.length;
    const struct choices choices[ARGUMENTS] = {
        side_choices(mesh.columns),
        side_choices(mesh.rows),
        rule_choices(mesh.rule),
        {{right, 0, right - 1, right + 1, right * 2}, BAD_SIZE},
    };
    for (unsigned combination = 0; combination < combinations(ARGUMENTS); combination++) {
        unsigned value[ARGUMENTS];
        unsigned refusal = choose(choices, ARGUMENTS, combination, value);
        struct question q = {(uint8_t)value[0], (uint8_t)value[1], (uint8_t)value[2], value[3]};
        ask_both(&q, "refusal order", refusal);
    }
}

static void ask_refusal_orders(void)
{
    static const uint8_t meshes[][2] = {{2, 2}, {2, 16}, {16, 2}, {5, 7}, {16, 16}};
    for (size_t i = 0; i < sizeof meshes / sizeof meshes[0]; i++)
        for (unsigned rule = 0; rule < RULES; rule++) {
            turn_to(meshes[i][0], meshes[i][1], rule);
            take_house_list();
            ask_wrong_arguments();
        }
}

/* Lengths are right, or nearly, for the sides that go with them, be those served or not. */
static void ask_stray_questions(void)
{
    fill_list(0, LONGEST);
    for (unsigned i = 0; i < STRAY_QUESTIONS; i++) {
        struct question q;
        q.columns = stray_side();
        q.rows = stray_side();
        q.rule = stray_of_five();
        size_t right = (size_t)WAYS * q.columns * q.rows;
        q.length = right >= 2 && below(2) ? right - 2 + below(5) : right;
        ask_number(&q, NULL, NULL);
        ask_check(&q, NULL, NULL);
    }
}

int main(void)
{
    static const uint8_t number_due[] = {0, 1, 2, 7};
    static const uint8_t check_due[] = {0, 1, 2, 7, 14};
    ask_known_numbers();
    ask_known_checks();
    ask_refusal_orders();
    ask_stray_questions();
    ask_every_list(2, 2, 5);
    ask_every_list(2, 3, 2);
    ask_every_list(3, 2, 2);
    for_every_mesh(ask_mesh);
    bool seen = all_seen("numbering refusals", number_refusals, number_due, sizeof number_due);
    seen = all_seen("check refusals", check_refusals, check_due, sizeof check_due) && seen;
    return verdict("number", seen);
}
