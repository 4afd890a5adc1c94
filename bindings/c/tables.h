/* Tables made by additions, compared and damaged, for the tests in C. */
#ifndef TABLES_H
#define TABLES_H

#include "yeqontur.h"

#include "expect.h"

#include <string.h>

/* The table with a rule more; the addition is expected to be accepted. */
static inline yeqontur_table added(yeqontur_table table, uint32_t head, const uint32_t *positives,
                                   size_t positive_count, const uint32_t *negatives, size_t negative_count) {
    const yeqontur_change change = yeqontur_add(table, head, positives, positive_count, negatives, negative_count);
    expect(change.refused == 0, "an accepted addition");
    return change.table;
}

static inline yeqontur_table fact(yeqontur_table table, uint32_t atom) {
    return added(table, atom, NULL, 0, NULL, 0);
}

/* Which of a slot's numbers is meant, for tests that damage a table: programs ask the calls. */
enum { STATE = 0, HEAD = 1, POSITIVES = 2, NEGATIVES = 3, ENTRIES = 4, DEPTH = 12, SPOILER = 13 };

static inline uint16_t *word(yeqontur_table *table, uint32_t slot, int place) {
    return &table->words[YEQONTUR_SLOT_WORDS * slot + (uint32_t)place];
}

/* Are all bytes of the two tables equal? */
static inline int same(const yeqontur_table *one, const yeqontur_table *other) {
    return memcmp(one, other, sizeof *one) == 0;
}

#endif
