/* The library from C: the worked sheet of the specification, refusals, buffers and tables of any bytes. */
#include "yeqontur.h"

#include "expect.h"

#include <string.h>

static yeqontur_table added(yeqontur_table table, uint32_t head, const uint32_t *p, size_t np, const uint32_t *n,
                            size_t nn, uint32_t slot) {
    yeqontur_change change = yeqontur_add(table, head, p, np, n, nn);
    expect(change.refused == 0 && change.slot == slot, "an accepted addition answers the lowest free slot");
    return change.table;
}

static void is(yeqontur_table table, uint32_t atom, uint32_t state, uint32_t depth, uint32_t slot) {
    yeqontur_label_answer label = yeqontur_label(table, atom);
    expect(label.refused == 0 && label.state == state && label.depth == depth && label.slot == slot, "a label");
}

static void spoils(yeqontur_table table, uint32_t slot, uint32_t refused, uint32_t spoiled, uint32_t atom,
                   uint32_t place) {
    yeqontur_spoiler_answer answer = yeqontur_spoiler(table, slot);
    expect(answer.refused == refused && answer.spoiled == spoiled && answer.atom == atom && answer.place == place,
           "the entry that spoils a rule, its list and its place");
}

/* A rule that holds 7 in both lists: needed while it is out, and what blocks once it is in. 3 is in. The lists come in
 * another order than they are kept in, and the places are those of the kept ones. */
static void sides(yeqontur_table table) {
    const uint32_t positives[] = {7, 3}, negatives[] = {7, 5, 6};
    table = added(table, 9, positives, 2, negatives, 3, 4);
    spoils(table, 4, 0, 1, 7, 1);
    table = added(table, 7, NULL, 0, NULL, 0, 5);
    spoils(table, 4, 0, 2, 7, 2);
}

static size_t held(const yeqontur_table *table) {
    size_t count = 0;
    for (uint32_t slot = 0; slot < YEQONTUR_SLOTS; slot++) {
        count += yeqontur_rule(*table, slot).refused == 0;
    }
    return count;
}

/* The same atoms in another order are the same rule, and the slot keeps them ascending. */
static void orders(void) {
    const uint32_t given[] = {3, 1, 2}, other[] = {2, 3, 1}, kept[] = {1, 2, 3}, twice[] = {3, 1, 3};
    const yeqontur_table table = added(yeqontur_empty(), 5, given, 3, NULL, 0, 0);
    const yeqontur_rule_answer rule = yeqontur_rule(table, 0);
    expect(rule.positives == 3 && rule.entries[0] == 1 && rule.entries[1] == 2 && rule.entries[2] == 3,
           "5 < 3, 1, 2 is kept as 1, 2, 3");
    yeqontur_change change = yeqontur_add(table, 5, other, 3, NULL, 0);
    expect(change.refused == 5 && held(&change.table) == 1, "the same rule in another order is refused 5");
    expect(memcmp(&change.table, &table, sizeof table) == 0, "and the table comes back as it was");
    expect(yeqontur_add(table, 5, twice, 3, NULL, 0).refused == 4, "repeats are asked of the list given");
    expect(yeqontur_add(table, 5, NULL, 0, kept, 3).refused == 0, "atoms of the other list make another rule");
    change = yeqontur_add(yeqontur_empty(), 5, kept, 3, NULL, 0);
    expect(memcmp(&change.table, &table, sizeof table) == 0, "any order of a list makes the same bytes");
    yeqontur_table swapped = table;
    swapped.words[5] = 3; /* of slot 0, the second entry and the third */
    swapped.words[6] = 2;
    expect(yeqontur_label(swapped, 5).refused == 15, "a list that does not ascend is not sound");
}

/* Of the sheet after its removal: 1 < 2, 2 < not 3 and 4 < 1, of which 1, 2 and 4 are in. */
static void reasons(yeqontur_table table) {
    uint32_t buffer[4] = {91, 92, 93, 94};
    yeqontur_list_answer list = yeqontur_reason(table, 1, buffer, 4);
    expect(list.refused == 0 && list.count == 2 && buffer[0] == 1 && buffer[1] == 0, "the reason's slots");
    expect(buffer[2] == 93 && buffer[3] == 94, "later entries of the buffer stay");
    list = yeqontur_reason(table, 4, buffer, 2);
    expect(list.refused == 11 && list.count == 3 && buffer[0] == 1 && buffer[2] == 93,
           "a short buffer stays as it was");
    expect(yeqontur_reason(table, 3, buffer, 4).refused == 12, "no reason of an atom that is out");
}

/* In the same table 4 < 1 is to give way: to 3 < not 1, which would close a loop, and to 4 < not 1. */
static void replacements(yeqontur_table table) {
    const uint32_t one = 1;
    yeqontur_accepted replaced = yeqontur_replace(table, 2, 3, NULL, 0, &one, 1);
    expect(replaced.refused == 7 && memcmp(&replaced.table, &table, sizeof table) == 0,
           "a replacement that is refused leaves the old rule");
    replaced = yeqontur_replace(table, 2, 4, NULL, 0, &one, 1);
    expect(replaced.refused == 0, "an accepted replacement");
    is(replaced.table, 4, 1, 0, 0);
    spoils(replaced.table, 2, 0, 2, 1, 0);
}

int main(void) {
    const uint32_t one = 1, two = 2, three = 3;
    yeqontur_table table = yeqontur_empty();
    table = added(table, 1, &two, 1, NULL, 0, 0);
    table = added(table, 2, NULL, 0, &three, 1, 1);
    table = added(table, 4, &one, 1, NULL, 0, 2);
    table = added(table, 3, NULL, 0, NULL, 0, 3);
    is(table, 1, 1, 0, 0);
    is(table, 3, 2, 1, 3);
    is(table, 200, 0, 0, 0);
    spoils(table, 0, 0, 1, 2, 0);
    spoils(table, 1, 0, 2, 3, 0);
    spoils(table, 3, 0, 0, 0, 0);
    spoils(table, 4, 9, 0, 0, 0);
    spoils(table, 256, 8, 0, 0, 0);
    sides(table);
    orders();

    yeqontur_change change = yeqontur_remove(table, 3);
    expect(change.refused == 0, "an accepted removal");
    table = change.table;
    is(table, 1, 2, 2, 0);
    is(table, 2, 2, 1, 1);
    is(table, 4, 2, 3, 2);

    reasons(table);
    replacements(table);
    expect(yeqontur_label(table, 256).refused == 10, "an atom number past the limit");

    change = yeqontur_add(table, 3, NULL, 0, &one, 1);
    expect(change.refused == 7 && memcmp(&change.table, &table, sizeof table) == 0,
           "a loop through a negation is refused, and the table handed back as it came");

    memset(&table, 0xA5, sizeof table);
    expect(yeqontur_label(table, 1).refused == 15, "any bytes are a table, and this one is not sound");
    spoils(table, 1, 15, 0, 0, 0);

    return counted("C caller");
}
