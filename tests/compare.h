/* What the programs that set an archive and a second program side by side have in common: the
 * counts, the ways of choosing questions, and the verdict. */
#ifndef COMPARE_H
#define COMPARE_H

#include "../second/rules.h"

#include <stdbool.h>
#include <stddef.h>
#include <stdint.h>
#include <stdio.h>

enum { VALUES = 256 }; /* of a byte */

/* How many differences, and how many missed answers, are printed. */
enum { SHOWN = 8 };

static struct {
    unsigned long asked, differ;
    unsigned long unexpected; /* answers that are not the one known beforehand */
} tally;

static inline void for_every_mesh(void (*ask_mesh)(unsigned columns, unsigned rows))
{
    for (unsigned columns = SIDE_MIN; columns <= SIDE_MAX; columns++)
        for (unsigned rows = SIDE_MIN; rows <= SIDE_MAX; rows++)
            ask_mesh(columns, rows);
}

/* Xorshift from a fixed seed: the same questions in every run. */
static inline unsigned below(unsigned bound)
{
    static uint32_t state = 20031121;
    state ^= state << 13;
    state ^= state >> 17;
    state ^= state << 5;
    return (state >> 4) % bound;
}

/* One of the given values, or as often one below `bound`. */
static inline uint8_t edge_or_below(const uint8_t *edges, size_t count, unsigned bound)
{
    return (uint8_t)(below(2) ? edges[below((unsigned)count)] : below(bound));
}

static inline uint8_t stray_side(void)
{
    static const uint8_t sides[] = {0, 1, 2, 2, 2, 3, 4, 5, 8, 11, 15, 16, 16, 16, 17, 255};
    return edge_or_below(sides, sizeof sides, below(4) ? 17 : VALUES);
}

/* A rule or an arrival: there are five of each. */
static inline uint8_t stray_of_five(void)
{
    static const uint8_t edges[] = {0, 0, 1, 1, 2, 2, 3, 3, 4, 4, 5, 255};
    return edge_or_below(edges, sizeof edges, below(4) ? 5 : VALUES);
}

/* For an argument a value in range, then four out of range with the refusal they call for. */
enum { CHOICES = 5 };

struct choices {
    unsigned values[CHOICES];
    unsigned refusal;
};

static inline struct choices side_choices(unsigned side)
{
    return (struct choices){{side, 0, 1, 17, 255}, BAD_SIDE};
}

static inline struct choices rule_choices(unsigned rule)
{
    return (struct choices){{rule, 5, 6, 128, 255}, BAD_RULE};
}

static inline unsigned wrong_of(struct choices choices)
{
    return choices.values[1 + below(CHOICES - 1)];
}

/* How many ways there are to choose: each argument wrong alone, each two, and so on. */
static inline unsigned combinations(unsigned arguments)
{
    return arguments == 0 ? 1 : CHOICES * combinations(arguments - 1);
}

/* Puts the values of a combination in place and returns the refusal due, OK for combination 0. With
 * several arguments wrong it is the least number: for calls whose order of refusals ascends. */
static inline unsigned choose(const struct choices *choices, unsigned arguments,
                              unsigned combination, unsigned *values)
{
    unsigned due = VALUES;
    for (unsigned i = 0; i < arguments; i++, combination /= CHOICES) {
        values[i] = choices[i].values[combination % CHOICES];
        if (combination % CHOICES != 0 && choices[i].refusal < due)
            due = choices[i].refusal;
    }
    return due == VALUES ? OK : due;
}

/* Prints how often each number was answered; false if one of those due never was. */
static inline bool all_seen(const char *what, const unsigned long *counts, const uint8_t *due,
                            size_t n)
{
    bool all = true;
    printf("%s:", what);
    for (unsigned value = 0; value < VALUES; value++)
        if (counts[value] != 0)
            printf(" %u (%lu)", value, counts[value]);
    printf("\n");
    for (size_t i = 0; i < n; i++)
        if (counts[due[i]] == 0) {
            printf("%s: %u never occurred\n", what, due[i]);
            all = false;
        }
    return all;
}

/* Prints the counts, the line that names the comparison last; returns the exit status. */
static inline int verdict(const char *name, bool seen)
{
    if (tally.unexpected != 0)
        printf("known answers missed: %lu\n", tally.unexpected);
    printf("%s: %lu questions asked, %lu differ\n", name, tally.asked, tally.differ);
    return seen && tally.unexpected == 0 && tally.differ == 0 ? 0 : 1;
}

#endif
