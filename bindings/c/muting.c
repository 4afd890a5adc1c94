/* Muting a rule from C: it keeps its slot, gives nothing, and counts where it matters what is held. */
#include "yeqontur.h"

#include "expect.h"
#include "tables.h"

#include <string.h>

/* Where the first block of a file has a record's positive count, whose top bit says that the rule is muted. */
#define POSITIVE_COUNT(place) (6 + 22 * (size_t)(place) + 4)

static yeqontur_table set(yeqontur_table table, uint32_t slot, uint32_t muted) {
    const yeqontur_accepted answer = yeqontur_mute(table, slot, muted);
    expect(answer.refused == 0, "an accepted muting");
    expect(yeqontur_rule(answer.table, slot).muted == (muted != 0), "0 unmutes, and any other number mutes");
    return answer.table;
}

/* The call is refused so, whatever the number that mutes, and the table comes back as it was. */
static void refused(yeqontur_table table, uint32_t number, uint32_t slot) {
    const uint32_t numbers[] = {0, 1, 2, UINT32_MAX};
    for (int i = 0; i < 4; i++) {
        const yeqontur_accepted answer = yeqontur_mute(table, slot, numbers[i]);
        expect(answer.refused == number, "the first question that is answered no");
        expect(same(&answer.table, &table), "a refused call hands the table back as it came");
    }
}

static void is(const yeqontur_table *table, uint32_t atom, uint32_t state, uint32_t depth, uint32_t slot) {
    const yeqontur_label_answer label = yeqontur_label(*table, atom);
    expect(label.refused == 0 && label.state == state && label.depth == depth && label.slot == slot, "a label");
}

static void spoils(const yeqontur_table *table, uint32_t slot, uint32_t spoiled, uint32_t atom, uint32_t place) {
    const yeqontur_spoiler_answer answer = yeqontur_spoiler(*table, slot);
    expect(answer.refused == 0 && answer.spoiled == spoiled && answer.atom == atom && answer.place == place,
           "valid, the entry that spoils, or muted");
}

typedef yeqontur_list_answer list_call(yeqontur_table, uint32_t, uint32_t *, size_t);

/* The list has this many numbers, and this one first; of none, the buffer stays. */
static void lists(const yeqontur_table *table, list_call *call, uint32_t atom, size_t count, uint32_t first) {
    uint32_t buffer[4] = {91, 92, 93, 94};
    const yeqontur_list_answer answer = call(*table, atom, buffer, 4);
    expect(answer.refused == 0 && answer.count == count && buffer[0] == (count == 0 ? 91 : first), "a list");
}

/* Slot 0 has 1, slot 1 2 < 1, slot 2 3 < 2, not 9, and slot 3 4 < not 2. */
static yeqontur_table four_rules(void) {
    const uint32_t one = 1, two = 2, nine = 9;
    const yeqontur_table table = added(fact(yeqontur_empty(), 1), 2, &one, 1, NULL, 0);
    return added(added(table, 3, &two, 1, &nine, 1), 4, NULL, 0, &two, 1);
}

/* The labels before, while 2 < 1 is muted, and after; every other slot keeps its rule. */
static void there_and_back(void) {
    const yeqontur_table table = four_rules();
    is(&table, 2, 2, 2, 1);
    is(&table, 3, 2, 3, 2);
    is(&table, 4, 1, 0, 0);
    const yeqontur_table muted = set(table, 1, 1);
    is(&muted, 1, 2, 1, 0);
    is(&muted, 2, 1, 0, 0);
    is(&muted, 3, 1, 0, 0);
    is(&muted, 4, 2, 1, 3);
    is(&muted, 9, 1, 0, 0);
    is(&muted, 8, 0, 0, 0);
    for (uint32_t slot = 0; slot < 4; slot++) {
        yeqontur_rule_answer one = yeqontur_rule(table, slot), other = yeqontur_rule(muted, slot);
        expect(one.muted == 0 && other.muted == (slot == 1), "one rule alone is muted");
        one.muted = other.muted;
        expect(memcmp(&one, &other, sizeof one) == 0, "and of it nothing else is changed");
    }
    const yeqontur_table after = set(muted, 1, 0);
    expect(same(&after, &table), "muted and unmuted, the same table byte for byte");
}

/* Slot 4 has 2 as a fact: depth and supporting slot are those of 2 < 1 where it is muted. */
static void nearest(void) {
    const yeqontur_table table = fact(four_rules(), 2), muted = set(table, 4, 1);
    is(&table, 2, 2, 1, 4);
    is(&table, 3, 2, 2, 2);
    is(&muted, 2, 2, 2, 1);
    is(&muted, 3, 2, 3, 2);
}

/* Every number but 0 mutes alike, and setting what is set changes nothing. */
static void numbers(void) {
    const uint32_t most[] = {1, 2, 3, 256, 65536, 0x80000000, UINT32_MAX};
    const yeqontur_table table = four_rules(), muted = set(table, 0, 1);
    yeqontur_table after = set(table, 0, 0);
    expect(same(&after, &table), "unmuting what is not muted changes nothing");
    for (int i = 0; i < 7; i++) {
        after = set(table, 0, most[i]);
        expect(same(&after, &muted), "any number but 0 mutes alike");
        after = set(muted, 0, most[i]);
        expect(same(&after, &muted), "muting what is muted changes nothing");
    }
}

static void in_order(void) {
    const yeqontur_table table = set(four_rules(), 1, 1);
    yeqontur_table unsound = table;
    *word(&unsound, 0, DEPTH) = 2;
    refused(unsound, 15, 256);
    refused(unsound, 15, 4);
    refused(unsound, 15, 1);
    unsound = table;
    *word(&unsound, 1, STATE) = 3;
    refused(unsound, 15, 1);
    unsound = table;
    *word(&unsound, 1, STATE) = 1; /* it keeps what a muted rule does */
    refused(unsound, 15, 1);
    memset(&unsound, 0xA5, sizeof unsound);
    refused(unsound, 15, 0);
    refused(table, 8, 256);
    refused(table, 8, 65536);
    refused(table, 8, UINT32_MAX);
    refused(table, 9, 4);
    refused(table, 9, 255);
}

/* Each rule is told as muted: those in slots 0, 1 and 2 would be valid, that in slot 3 would be blocked by 2. Behind a
 * muted 2 < 1 the one in slot 2 needs 2, and is told as muted then too. */
static void spoilers(void) {
    const yeqontur_table table = four_rules();
    spoils(&table, 0, 0, 0, 0);
    spoils(&table, 3, 2, 2, 0);
    for (uint32_t slot = 0; slot < 4; slot++) {
        const yeqontur_table one = set(table, slot, 1);
        spoils(&one, slot, 3, 0, 0);
    }
    const yeqontur_table muted = set(table, 1, 1);
    spoils(&muted, 0, 0, 0, 0);
    spoils(&muted, 2, 1, 2, 0);
    spoils(&muted, 3, 0, 0, 0);
    const yeqontur_table spoiled = set(muted, 2, 1);
    spoils(&spoiled, 2, 3, 0, 0);
}

/* What is held: atoms occur, justifications and consequences have the rule. What it gives: reason, repercussions. */
static void held(void) {
    const yeqontur_table table = four_rules(), muted = set(set(table, 1, 1), 3, 1);
    uint32_t buffer[4];
    lists(&muted, yeqontur_justifications, 2, 1, 1);
    lists(&muted, yeqontur_consequences, 1, 1, 2);
    lists(&muted, yeqontur_consequences, 2, 2, 3);
    lists(&table, yeqontur_repercussions, 1, 3, 2);
    lists(&muted, yeqontur_repercussions, 1, 0, 0);
    lists(&muted, yeqontur_repercussions, 2, 1, 3);
    const yeqontur_table none = set(table, 0, 1), needed = set(none, 1, 1); /* 2 < 1 would need 1, which is out */
    lists(&none, yeqontur_repercussions, 1, 3, 2);
    lists(&needed, yeqontur_repercussions, 1, 0, 0);
    expect(yeqontur_reason(muted, 2, buffer, 4).refused == 12, "an atom whose rules are all muted is not in");
    is(&muted, 4, 1, 0, 0);
    const yeqontur_table removed = yeqontur_remove(muted, 3).table;
    is(&removed, 4, 0, 0, 0);
}

/* 5 and 7 count muted rules, and the unmuting that follows never meets 7. */
static void sameness_and_loops(void) {
    const uint32_t one = 1, four = 4, both[] = {2, 9}, back[] = {9, 2};
    const yeqontur_table table = set(set(four_rules(), 1, 1), 3, 1);
    yeqontur_change change = yeqontur_add(table, 2, &one, 1, NULL, 0);
    expect(change.refused == 5 && same(&change.table, &table), "a muted rule cannot be added again");
    expect(yeqontur_replace(table, 0, 2, &one, 1, NULL, 0).refused == 5, "nor be put into another slot");
    change = yeqontur_add(table, 2, &four, 1, NULL, 0);
    expect(change.refused == 7 && same(&change.table, &table), "2 < 4 would close a loop with 4 < not 2");
    expect(yeqontur_replace(table, 0, 1, &four, 1, NULL, 0).refused == 7, "and 1 < 4 one with two muted rules");
    yeqontur_table after = set(added(table, 7, both, 2, NULL, 0), 4, 1);
    expect(yeqontur_add(after, 7, back, 2, NULL, 0).refused == 5, "the same rule in another order");
    after = set(set(set(after, 3, 0), 1, 0), 4, 0);
    is(&after, 2, 2, 2, 1);
    is(&after, 4, 1, 0, 0);
}

/* A new rule is not muted, in whatever slot, and leaves the other slots muted or not. */
static void new_rules(void) {
    const uint32_t one = 1;
    const yeqontur_table table = four_rules(), muted = set(set(table, 1, 1), 2, 1);
    yeqontur_accepted replaced = yeqontur_replace(muted, 1, 2, &one, 1, NULL, 0);
    expect(replaced.refused == 0 && yeqontur_rule(replaced.table, 1).muted == 0, "replaced by itself, it is unmuted");
    expect(yeqontur_rule(replaced.table, 2).muted == 1, "another slot stays muted");
    replaced = yeqontur_replace(muted, 4, 2, NULL, 0, NULL, 0);
    expect(replaced.refused == 9 && yeqontur_rule(replaced.table, 1).muted == 1, "refused, it stays muted");
    const yeqontur_change removed = yeqontur_remove(muted, 1);
    expect(removed.refused == 0 && yeqontur_rule(removed.table, 1).refused == 9, "a muted rule's slot is freed");
    const yeqontur_change again = yeqontur_add(removed.table, 2, &one, 1, NULL, 0);
    expect(again.refused == 0 && again.slot == 1, "an added rule takes its slot");
    const yeqontur_rule_answer rule = yeqontur_rule(again.table, 1);
    expect(rule.refused == 0 && rule.muted == 0, "and is not muted");
    const yeqontur_table after = set(again.table, 2, 0);
    expect(same(&after, &table), "the table that was never muted");
}

static uint32_t sum_a(const uint8_t *block) {
    return block[508] + 256u * block[509];
}

/* The first byte of the file that changes is the positive count of the rule's record, by its top bit; every other one
 * is of the checksums. */
static void files(void) {
    uint8_t file[512], other[512];
    const yeqontur_table table = four_rules(), muted = set(table, 2, 1);
    expect(yeqontur_save(table, file, 512).count == 512, "a file of one block");
    expect(yeqontur_save(muted, other, 512).count == 512, "and so where a rule is muted");
    size_t first = 0, last = 507;
    while (first < 512 && file[first] == other[first]) {
        first++;
    }
    while (last > first && file[last] == other[last]) {
        last--;
    }
    expect(first == POSITIVE_COUNT(2) && last == first, "one byte before the checksums says it");
    expect(file[first] == 1 && other[first] == 0x81, "its top bit");
    expect(sum_a(file) + 0x80 == sum_a(other), "by which the checksum grows");
    const yeqontur_loaded loaded = yeqontur_load(other, 512);
    expect(loaded.refused == 0 && same(&loaded.table, &muted), "a muted rule comes back muted");
    other[first] = 1;
    expect(yeqontur_load(other, 512).refused == 17, "the bit alone is one changed byte");
}

int main(void) {
    there_and_back();
    nearest();
    numbers();
    in_order();
    spoilers();
    held();
    sameness_and_loops();
    new_rules();
    files();
    return counted("muting from C");
}
