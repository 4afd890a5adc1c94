/* The worst arguments from C: lengths that wrap, NULL, numbers of 2^32 - 1. No call reads or writes what it must not:
 * run under valgrind, a wrong read or write is an error. */
#include "yeqontur.h"

#include "expect.h"

#include <string.h>

#define WRAPS ((size_t)-1)

typedef yeqontur_list_answer list_call(yeqontur_table, uint32_t, uint32_t *, size_t);

static list_call *const lists[] = {yeqontur_justifications, yeqontur_consequences, yeqontur_repercussions,
                                   yeqontur_reason};

/* An addition of such lists is refused 2, with the table as it came, and so is a replacement. */
static void too_many(const uint32_t *positives, size_t positive_count, const uint32_t *negatives,
                     size_t negative_count) {
    const yeqontur_table table = yeqontur_add(yeqontur_empty(), 1, NULL, 0, NULL, 0).table;
    yeqontur_change change = yeqontur_add(table, 9, positives, positive_count, negatives, negative_count);
    expect(change.refused == 2 && change.slot == 0, "lists that are too long are refused 2");
    expect(memcmp(&change.table, &table, sizeof table) == 0, "and the table comes back as it was");
    yeqontur_accepted replaced = yeqontur_replace(table, 0, 9, positives, positive_count, negatives, negative_count);
    expect(replaced.refused == 2, "and so for a rule that is held");
    expect(memcmp(&replaced.table, &table, sizeof table) == 0, "which the table still has");
}

/* Behind each pointer stands one number, or nothing: a list that is too long is not read. */
static void lengths(void) {
    const uint32_t one = 1, two = 2;
    too_many(&one, WRAPS, &two, 1);
    too_many(&one, 1, &two, WRAPS);
    too_many(&one, WRAPS, &two, WRAPS);
    too_many(&one, WRAPS / 2 + 1, &two, WRAPS / 2 + 1);
    too_many(&one, WRAPS - 7, &two, 8);
    too_many(&one, 8, &two, 1);
    too_many(NULL, WRAPS, NULL, 0);
    too_many(NULL, WRAPS, NULL, 1);
    too_many(NULL, WRAPS, NULL, WRAPS);
    too_many(NULL, 9, NULL, 0);
    too_many(NULL, 0, NULL, 9);
    too_many(NULL, 9, NULL, 9);
}

/* Questions 15, 8, 9 and 1 come first, and read no list either. */
static void asked_before(void) {
    const uint32_t one = 1;
    yeqontur_table table = yeqontur_empty();
    expect(yeqontur_add(table, 256, &one, WRAPS, NULL, WRAPS).refused == 1, "a head past the limit");
    expect(yeqontur_replace(table, 256, 256, &one, WRAPS, NULL, WRAPS).refused == 8, "a slot past the limit");
    expect(yeqontur_replace(table, 0, 256, &one, WRAPS, NULL, WRAPS).refused == 9, "a slot without a rule");
    const yeqontur_table held = yeqontur_add(table, 1, NULL, 0, NULL, 0).table;
    expect(yeqontur_replace(held, 0, 256, &one, WRAPS, NULL, WRAPS).refused == 1, "a head past the limit");
    memset(&table, 0xA5, sizeof table);
    expect(yeqontur_add(table, 1, &one, WRAPS, NULL, WRAPS).refused == 15, "a table that is not sound");
    expect(yeqontur_replace(table, 0, 1, &one, WRAPS, NULL, WRAPS).refused == 15, "a table that is not sound");
}

/* A list or buffer of length 0 may be NULL. 2 is a fact and 1 rests on it; no rule has the head 3. */
static void no_buffer(void) {
    const uint32_t two = 2, three = 3;
    yeqontur_table table = yeqontur_add(yeqontur_empty(), 2, NULL, 0, NULL, 0).table;
    table = yeqontur_add(table, 1, &two, 1, NULL, 0).table;
    table = yeqontur_add(table, 4, NULL, 0, &three, 1).table;
    for (int i = 0; i < 4; i++) {
        yeqontur_list_answer answer = lists[i](table, 2, NULL, 0);
        expect(answer.refused == 11 && answer.count == 1, "a NULL buffer of length 0 is too short, by its count");
        answer = lists[i](table, 200, NULL, 0);
        expect(answer.refused == (i == 3 ? 12 : 0) && answer.count == 0, "a count of 0 needs no buffer");
        expect(lists[i](table, 256, NULL, 0).refused == 10, "an atom number past the limit");
    }
    yeqontur_list_answer none = yeqontur_justifications(table, 3, NULL, 0);
    expect(none.refused == 0 && none.count == 0, "an atom that occurs and has no rule");
}

/* A file of such a length is refused 16 with the empty table. Behind the pointer stands one byte, or nothing: it is not
 * read. */
static void wrong_length(const uint8_t *bytes, size_t length) {
    const yeqontur_table empty = yeqontur_empty();
    const yeqontur_loaded loaded = yeqontur_load(bytes, length);
    expect(loaded.refused == 16, "a file of a wrong length is refused 16");
    expect(memcmp(&loaded.table, &empty, sizeof empty) == 0, "and the empty table is handed back");
}

/* Lengths that are no number of blocks, and numbers of blocks that wrap or are too many. */
static void file_lengths(void) {
    const size_t lengths[] = {1, 511, 513, 6143, 6145, 13 * 512, 512 * 65536, WRAPS, WRAPS - 511, WRAPS / 2 + 1};
    const uint8_t one = 1;
    wrong_length(NULL, 0);
    wrong_length(&one, 0);
    for (size_t i = 0; i < sizeof lengths / sizeof lengths[0]; i++) {
        wrong_length(&one, lengths[i]);
        wrong_length(NULL, lengths[i]);
    }
}

/* Saving asks 15 before it looks at the buffer, and a buffer of length 0 may be NULL. */
static void no_room_to_save(void) {
    yeqontur_table table = yeqontur_empty();
    yeqontur_list_answer answer = yeqontur_save(table, NULL, 0);
    expect(answer.refused == 11 && answer.count == 512, "a NULL buffer of length 0 is too short, by its count");
    memset(&table, 0xA5, sizeof table);
    answer = yeqontur_save(table, NULL, 0);
    expect(answer.refused == 15 && answer.count == 0, "a table that is not sound");
}

/* The labels of a full table fill the most numbers, and one entry less is too short. */
static void no_room_for_labels(void) {
    static uint32_t buffer[YEQONTUR_LABEL_NUMBERS + 1];
    yeqontur_table table = yeqontur_empty();
    expect(yeqontur_labels(table, NULL, 0).refused == 0, "the labels of the empty table need no buffer");
    for (uint32_t atom = 0; atom < YEQONTUR_ATOMS; atom++) {
        expect(yeqontur_add_to(&table, atom, NULL, 0, NULL, 0, NULL) == 0, "a fact");
    }
    buffer[0] = 91;
    yeqontur_list_answer answer = yeqontur_labels(table, buffer, YEQONTUR_LABEL_NUMBERS - 1);
    expect(answer.refused == 11 && answer.count == YEQONTUR_LABEL_NUMBERS && buffer[0] == 91, "one entry too short");
    buffer[YEQONTUR_LABEL_NUMBERS] = 92;
    answer = yeqontur_labels(table, buffer, YEQONTUR_LABEL_NUMBERS + 1);
    expect(answer.refused == 0 && answer.count == YEQONTUR_LABEL_NUMBERS, "the most numbers");
    expect(buffer[YEQONTUR_LABEL_NUMBERS - 4] == 255 && buffer[YEQONTUR_LABEL_NUMBERS] == 92, "and no more");
    memset(&table, 0xA5, sizeof table);
    answer = yeqontur_labels(table, NULL, 0);
    expect(answer.refused == 15 && answer.count == 0, "a table that is not sound");
    expect(yeqontur_rule(table, 256).refused == 15, "which is asked before the slot");
}

/* Numbers of 2^32 - 1, and of 2^16 and 2^8 more than a good one, wrap nowhere. */
static void numbers(void) {
    const uint32_t most[] = {256, 257, 65536, 65537, 0xFFFFFFFF};
    const yeqontur_table table = yeqontur_add(yeqontur_empty(), 1, NULL, 0, NULL, 0).table;
    uint32_t buffer[4] = {91, 92, 93, 94};
    for (int i = 0; i < 5; i++) {
        const uint32_t n = most[i];
        expect(yeqontur_add(table, n, NULL, 0, NULL, 0).refused == 1, "a head past the limit");
        expect(yeqontur_add(table, 2, &n, 1, NULL, 0).refused == 3, "a positive entry past the limit");
        expect(yeqontur_add(table, 2, NULL, 0, &n, 1).refused == 3, "a negative entry past the limit");
        expect(yeqontur_remove(table, n).refused == 8, "a slot number past the limit");
        expect(yeqontur_replace(table, n, 2, NULL, 0, NULL, 0).refused == 8, "a slot number past the limit");
        expect(yeqontur_replace(table, 0, n, NULL, 0, NULL, 0).refused == 1, "a head past the limit");
        expect(yeqontur_replace(table, 0, 2, &n, 1, NULL, 0).refused == 3, "a positive entry past the limit");
        expect(yeqontur_replace(table, 0, 2, NULL, 0, &n, 1).refused == 3, "a negative entry past the limit");
        expect(yeqontur_mute(table, n, n).refused == 8, "a slot number past the limit");
        expect(yeqontur_mute(table, 0, n).refused == 0, "any number mutes");
        expect(yeqontur_rule(table, n).refused == 8, "a slot number past the limit");
        expect(yeqontur_spoiler(table, n).refused == 8, "a slot number past the limit");
        expect(yeqontur_label(table, n).refused == 10, "an atom number past the limit");
        for (int j = 0; j < 4; j++) {
            expect(lists[j](table, n, buffer, 4).refused == 10, "an atom number past the limit");
        }
    }
    expect(buffer[0] == 91 && buffer[3] == 94, "a refused call writes no buffer entry");
}

/* An answer says nothing beside its refusal, and of an atom that is not in no depth and no slot. */
static void nothing_else(void) {
    const uint32_t two = 2;
    const yeqontur_table table = yeqontur_add(yeqontur_empty(), 1, &two, 1, NULL, 0).table; /* 1 < 2, both out */
    const yeqontur_label_answer refused = yeqontur_label(table, 256);
    expect(refused.refused == 10 && refused.state == 0 && refused.depth == 0 && refused.slot == 0, "a refused label");
    const yeqontur_label_answer out = yeqontur_label(table, 1), absent = yeqontur_label(table, 3);
    expect(out.state == YEQONTUR_LABEL_OUT && out.depth == 0 && out.slot == 0, "an atom that is out");
    expect(absent.state == YEQONTUR_LABEL_ABSENT && absent.depth == 0 && absent.slot == 0, "an absent atom");
    const yeqontur_rule_answer free = yeqontur_rule(table, 1), none = {.refused = 9};
    expect(memcmp(&free, &none, sizeof none) == 0, "a refused rule");
    const yeqontur_spoiler_answer spoiler = yeqontur_spoiler(table, 1);
    expect(spoiler.refused == 9 && spoiler.spoiled == 0 && spoiler.atom == 0 && spoiler.place == 0,
           "a refused spoiler");
    expect(yeqontur_add(table, 256, NULL, 0, NULL, 0).slot == 0, "a refused addition");
    expect(yeqontur_remove(table, 7).slot == 0, "a refused removal");
    const yeqontur_list_answer missing = yeqontur_checklist_missing(table, NULL, 0);
    expect(missing.refused == 15 && missing.count == 0, "a refused list of files");
    const yeqontur_complete_answer complete = yeqontur_checklist_complete(table);
    expect(complete.refused == 15 && complete.complete == 0, "no checklist");
    for (int i = 0; i < 4; i++) {
        expect(lists[i](table, 256, NULL, 0).count == 0, "a refused list");
    }
    expect(yeqontur_reason(table, 1, NULL, 0).count == 0, "no reason");
}

int main(void) {
    lengths();
    asked_before();
    no_buffer();
    numbers();
    file_lengths();
    no_room_to_save();
    no_room_for_labels();
    nothing_else();
    return counted("the worst arguments from C");
}
