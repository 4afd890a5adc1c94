/* Replacing a rule from C: judged without the old one, in its slot, and refused, the old rule still stands. */
#include "yeqontur.h"

#include "expect.h"
#include "tables.h"

#include <string.h>

static yeqontur_table replaced(yeqontur_table table, uint32_t slot, uint32_t head, const uint32_t *p, size_t np,
                               const uint32_t *n, size_t nn) {
    const yeqontur_accepted answer = yeqontur_replace(table, slot, head, p, np, n, nn);
    expect(answer.refused == 0, "an accepted replacement");
    return answer.table;
}

/* The call is refused so, and rules and labels come back as they were. */
static void refused(yeqontur_table table, uint32_t number, uint32_t slot, uint32_t head, const uint32_t *p, size_t np,
                    const uint32_t *n, size_t nn) {
    const yeqontur_accepted answer = yeqontur_replace(table, slot, head, p, np, n, nn);
    expect(answer.refused == number, "the first question that is answered no");
    expect(same(&answer.table, &table), "a refused call hands the table back as it came, old rule included");
}

static void is(const yeqontur_table *table, uint32_t atom, uint32_t state, uint32_t depth, uint32_t slot) {
    const yeqontur_label_answer label = yeqontur_label(*table, atom);
    expect(label.refused == 0 && label.state == state && label.depth == depth && label.slot == slot, "a label");
}

/* Slot 0 is free, and stays so: 1 is a fact in slot 1, and in slot 2 the rule 2 < 1 gives way to 3 < 1, not 5. */
static void same_slot(void) {
    const uint32_t one = 1, five = 5;
    yeqontur_table table = added(fact(fact(yeqontur_empty(), 9), 1), 2, &one, 1, NULL, 0);
    table = yeqontur_remove(table, 0).table;
    table = replaced(table, 2, 3, &one, 1, &five, 1);
    const yeqontur_rule_answer rule = yeqontur_rule(table, 2);
    expect(rule.refused == 0 && rule.muted == 0 && rule.head == 3, "the new rule");
    expect(rule.positives == 1 && rule.negatives == 1 && rule.entries[0] == 1 && rule.entries[1] == 5, "its entries");
    expect(yeqontur_rule(table, 0).refused == 9 && yeqontur_rule(table, 1).head == 1, "every other slot is as it was");
    is(&table, 1, 2, 1, 1);
    is(&table, 2, 0, 0, 0);
    is(&table, 3, 2, 2, 2);
    is(&table, 5, 1, 0, 0);
}

/* By itself, in any order, a rule is accepted, and the table stays; by one that another slot has it is refused. */
static void by_itself(void) {
    const uint32_t up[] = {1, 2}, down[] = {2, 1}, other[] = {3, 4}, back[] = {4, 3};
    const yeqontur_table table = added(fact(yeqontur_empty(), 1), 5, up, 2, other, 2);
    yeqontur_table after = replaced(table, 1, 5, up, 2, other, 2);
    expect(same(&after, &table), "by itself");
    after = replaced(table, 1, 5, down, 2, back, 2);
    expect(same(&after, &table), "by itself in another order");
    after = replaced(table, 0, 1, NULL, 0, NULL, 0);
    expect(same(&after, &table), "a fact by itself");
    refused(table, 5, 0, 5, up, 2, other, 2);
    refused(table, 5, 0, 5, down, 2, back, 2);
    refused(table, 5, 1, 1, NULL, 0, NULL, 0);
}

/* Slot 0 has the fact 9, slot 1 the rule 2 < 1. Each refusal is met where later questions would be answered no as well;
 * but for 5 and 7, of which no rule fails both: one that is held closes no new loop. */
static void in_order(void) {
    const uint32_t one = 1, two = 2, ones[] = {1, 1}, twos[] = {2, 2};
    const uint32_t large[] = {256, 256, 256, 256, 256, 256, 256, 256, 256};
    const yeqontur_table table = added(fact(yeqontur_empty(), 9), 2, &one, 1, NULL, 0);
    yeqontur_table unsound = table;
    *word(&unsound, 0, DEPTH) = 2;
    refused(unsound, 15, 256, 256, large, 9, NULL, 0);
    refused(unsound, 15, 0, 9, NULL, 0, NULL, 0);
    refused(table, 8, 256, 256, large, 9, NULL, 0);
    refused(table, 8, 256, 256, NULL, 0, NULL, 0);
    refused(table, 9, 2, 256, large, 9, NULL, 0);
    refused(table, 9, 255, 256, NULL, 0, NULL, 0);
    refused(table, 1, 0, 256, large, 9, NULL, 0);
    refused(table, 2, 0, 1, large, 9, NULL, 0);
    refused(table, 2, 0, 1, large, 5, large, 4);
    refused(table, 3, 0, 1, NULL, 0, large, 2);
    refused(table, 4, 0, 2, ones, 2, NULL, 0);
    refused(table, 4, 0, 1, NULL, 0, twos, 2);
    refused(table, 5, 0, 2, &one, 1, NULL, 0);
    refused(table, 7, 0, 1, NULL, 0, &two, 1);
    const yeqontur_table after = replaced(table, 0, 1, &two, 1, NULL, 0);
    is(&after, 1, 1, 0, 0);
    is(&after, 2, 1, 0, 0);
    is(&after, 9, 0, 0, 0);
}

/* 256 facts: an addition finds no slot (6), and a replacement needs none. */
static void full(void) {
    const uint32_t zero = 0, one = 1;
    yeqontur_table table = yeqontur_empty();
    for (uint32_t atom = 0; atom < YEQONTUR_ATOMS; atom++) {
        table = fact(table, atom);
    }
    expect(yeqontur_add(table, 0, &one, 1, NULL, 0).refused == 6, "no slot is free");
    refused(table, 5, 255, 0, NULL, 0, NULL, 0);
    refused(table, 7, 255, 0, NULL, 0, &zero, 1);
    const yeqontur_table after = replaced(table, 255, 0, &one, 1, NULL, 0);
    for (uint32_t slot = 0; slot < 255; slot++) {
        const yeqontur_rule_answer one = yeqontur_rule(table, slot), other = yeqontur_rule(after, slot);
        expect(memcmp(&one, &other, sizeof one) == 0, "every other slot keeps its rule");
    }
    const yeqontur_rule_answer last = yeqontur_rule(after, 255);
    expect(last.head == 0 && last.positives == 1 && last.entries[0] == 1, "the new rule is in its slot");
    is(&after, 0, 2, 1, 0);
    is(&after, 255, 0, 0, 0);
}

/* 1 < not 2 closes a loop with 2 < 1, whichever of them is the old one. */
static void loops(void) {
    const uint32_t one = 1, two = 2, three = 3;
    const yeqontur_table table = added(added(yeqontur_empty(), 1, &three, 1, NULL, 0), 2, &one, 1, NULL, 0);
    refused(table, 7, 0, 1, NULL, 0, &two, 1);
    yeqontur_table after = replaced(table, 1, 1, NULL, 0, &two, 1);
    is(&after, 1, 2, 1, 1);
    expect(yeqontur_add(after, 2, &one, 1, NULL, 0).refused == 7, "beside it the old rule would close the loop");
    after = replaced(after, 1, 2, &one, 1, NULL, 0);
    expect(same(&after, &table), "and in its place it does not");
}

/* Where the old rule's slot is the lowest free one without it, removing and adding give the same table. */
static void in_two_steps(void) {
    const uint32_t lists[] = {4, 1, 3}, two = 2;
    yeqontur_table table = fact(fact(yeqontur_empty(), 1), 3);
    table = added(table, 5, lists, 3, NULL, 0);
    for (uint32_t slot = 0; slot < 3; slot++) {
        const yeqontur_change two_steps = yeqontur_add(yeqontur_remove(table, slot).table, 7, lists, 3, &two, 1);
        const yeqontur_table one_step = replaced(table, slot, 7, lists, 3, &two, 1);
        expect(two_steps.refused == 0 && two_steps.slot == slot, "the slot is the lowest free one");
        expect(same(&two_steps.table, &one_step), "the same table in one step");
    }
}

int main(void) {
    same_slot();
    by_itself();
    in_order();
    full();
    loops();
    in_two_steps();
    return counted("replacing from C");
}
