/* The bytes of a table from C: sizes and offsets, the numbers of each slot, the empty table, and equal bytes for equal
 * rules. */
#include "yeqontur.h"

#include "expect.h"

#include <string.h>

/* A struct's size, and where a field of it stands. */
#define SIZE(type, bytes) _Static_assert(sizeof(type) == (bytes), #type)
#define AT(type, field, offset) _Static_assert(offsetof(type, field) == (offset), #type " " #field)

SIZE(yeqontur_table, 7168);
AT(yeqontur_table, words, 0);
_Static_assert(YEQONTUR_WORDS == YEQONTUR_SLOTS * YEQONTUR_SLOT_WORDS, "a table is its slots");

SIZE(yeqontur_change, 7176);
AT(yeqontur_change, refused, 0);
AT(yeqontur_change, slot, 4);
AT(yeqontur_change, table, 8);

SIZE(yeqontur_label_answer, 16);
AT(yeqontur_label_answer, refused, 0);
AT(yeqontur_label_answer, state, 4);
AT(yeqontur_label_answer, depth, 8);
AT(yeqontur_label_answer, slot, 12);

SIZE(yeqontur_rule_answer, 52);
AT(yeqontur_rule_answer, refused, 0);
AT(yeqontur_rule_answer, head, 4);
AT(yeqontur_rule_answer, muted, 8);
AT(yeqontur_rule_answer, positives, 12);
AT(yeqontur_rule_answer, negatives, 16);
AT(yeqontur_rule_answer, entries, 20);

SIZE(yeqontur_spoiler_answer, 16);
AT(yeqontur_spoiler_answer, refused, 0);
AT(yeqontur_spoiler_answer, spoiled, 4);
AT(yeqontur_spoiler_answer, atom, 8);
AT(yeqontur_spoiler_answer, place, 12);

SIZE(yeqontur_list_answer, 16);
AT(yeqontur_list_answer, refused, 0);
AT(yeqontur_list_answer, count, 8);

SIZE(yeqontur_accepted, 7172);
AT(yeqontur_accepted, refused, 0);
AT(yeqontur_accepted, table, 4);

SIZE(yeqontur_complete_answer, 8);
AT(yeqontur_complete_answer, refused, 0);
AT(yeqontur_complete_answer, complete, 4);

/* A rule of the tables below: at most one entry in each list, -1 for none. */
typedef struct {
    uint32_t head;
    int positive, negative;
} rule;

#define RULES 6
static const rule rules[RULES] = {{1, 2, -1}, {2, -1, 3}, {4, 1, 3}, {3, -1, -1}, {5, 4, 4}, {255, 254, 1}};

/* Leaves bytes of this kind on the stack, where the next call has its frames. */
static __attribute__((noinline)) void litter(int byte) {
    volatile unsigned char stack[120000];
    for (size_t i = 0; i < sizeof stack; i++) {
        stack[i] = (unsigned char)byte;
    }
}

static yeqontur_table added(yeqontur_table table, const rule *r, uint32_t slot) {
    const uint32_t positive = (uint32_t)r->positive, negative = (uint32_t)r->negative;
    litter((int)slot + 1);
    yeqontur_change change =
        yeqontur_add(table, r->head, &positive, r->positive >= 0 ? 1 : 0, &negative, r->negative >= 0 ? 1 : 0);
    expect(change.refused == 0 && change.slot == slot, "an accepted addition answers the lowest free slot");
    return change.table;
}

static yeqontur_table removed(yeqontur_table table, uint32_t slot) {
    litter(0xA5);
    yeqontur_change change = yeqontur_remove(table, slot);
    expect(change.refused == 0, "an accepted removal");
    return change.table;
}

/* The rules in the slots 0, 1, .. in their order. */
static yeqontur_table ascending(void) {
    yeqontur_table table = yeqontur_empty();
    for (uint32_t slot = 0; slot < RULES; slot++) {
        table = added(table, &rules[slot], slot);
    }
    return table;
}

/* The same in the other order: facts fill the slots first, then each slot is freed and takes its rule, the highest
 * first, and a slot past them is used and freed again. */
static yeqontur_table descending(void) {
    yeqontur_table table = yeqontur_empty();
    for (uint32_t slot = 0; slot <= RULES; slot++) {
        const rule fact = {100 + slot, -1, -1};
        table = added(table, &fact, slot);
    }
    for (uint32_t slot = RULES; slot-- > 0;) {
        table = added(removed(table, slot), &rules[slot], slot);
    }
    return removed(table, RULES);
}

static void empty_table(void) {
    yeqontur_table zero, empty;
    memset(&zero, 0, sizeof zero);
    litter(0xA5);
    empty = yeqontur_empty();
    expect(memcmp(&zero, &empty, sizeof zero) == 0, "the empty table is all zero");
    expect(yeqontur_label(zero, 0).refused == 0, "an all-zero table is sound");
    const rule fact = {255, -1, -1};
    empty = removed(added(empty, &fact, 0), 0);
    expect(memcmp(&zero, &empty, sizeof zero) == 0, "a table whose only rule was removed is all zero");
}

static void equal_rules(void) {
    yeqontur_table one = ascending(), other = descending();
    expect(memcmp(&one, &other, sizeof one) == 0, "the same rules in the same slots are the same bytes");
    other = removed(other, 3);
    expect(memcmp(&one, &other, sizeof one) != 0, "other rules are other bytes");
    other = added(other, &rules[3], 3);
    expect(memcmp(&one, &other, sizeof one) == 0, "the same bytes again after a removal and an addition");
}

/* The numbers that the header says each slot has: of a rule that supports its head, of one that an entry spoils, of a
 * muted one, and of a free slot. */
static void slot_numbers(void) {
    static const uint16_t right[][YEQONTUR_SLOT_WORDS] = {
        {1, 7, 0, 1, 3, 0, 0, 0, 0, 0, 0, 0, 1, 0}, /* 7 < not 3: in at depth 1 */
        {1, 200, 2, 2, 7, 9, 3, 7, 0, 0, 0, 0, 0, 2}, /* 200 < 7, 9, not 3, not 7: needs 9 */
        {1, 9, 1, 2, 7, 3, 7, 0, 0, 0, 0, 0, 0, 3}, /* 9 < 7, not 3, not 7: blocked by 7 */
        {2, 5, 1, 0, 9, 0, 0, 0, 0, 0, 0, 0, 0, 0}, /* 5 < 9, muted */
        {1, 255, 1, 0, 7, 0, 0, 0, 0, 0, 0, 0, 2, 0}, /* 255 < 7: in at depth 2 */
        {0, 0, 0, 0, 0, 0, 0, 0, 0, 0, 0, 0, 0, 0},
    };
    static const uint32_t three = 3, seven = 7, nine = 9, both[] = {9, 7}, neither[] = {7, 3};
    yeqontur_table table = yeqontur_add(yeqontur_empty(), 7, NULL, 0, &three, 1).table;
    table = yeqontur_add(table, 200, both, 2, neither, 2).table;
    table = yeqontur_add(table, 9, &seven, 1, neither, 2).table;
    table = yeqontur_mute(yeqontur_add(table, 5, &nine, 1, NULL, 0).table, 3, 1).table;
    table = yeqontur_add(table, 255, &seven, 1, NULL, 0).table;
    expect(memcmp(table.words, right, sizeof right) == 0, "fourteen numbers to a slot, in the order of the header");
}

int main(void) {
    empty_table();
    slot_numbers();
    equal_rules();
    return counted("a table's bytes from C");
}
