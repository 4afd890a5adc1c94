/* The checklist from C: each call accepted, and refused with each of its numbers in their order. */
#include "yeqontur.h"

#include "expect.h"
#include "tables.h"

#include <string.h>

typedef yeqontur_accepted file_call(yeqontur_table, uint32_t);

static file_call *const calls[] = {yeqontur_checklist_sent, yeqontur_checklist_skipped, yeqontur_checklist_withdraw};

#define CALLS 3
#define WITHDRAW 2

static yeqontur_table opened(uint32_t files) {
    const yeqontur_accepted answer = yeqontur_checklist_open(files);
    expect(answer.refused == 0, "a checklist is opened for 1 to 60 files");
    return answer.table;
}

static yeqontur_table accepted(file_call *call, yeqontur_table table, uint32_t file) {
    const yeqontur_accepted answer = call(table, file);
    expect(answer.refused == 0 && !same(&answer.table, &table), "an accepted call changes a mark");
    return answer.table;
}

/* The call is refused so, and the table comes back as it was. */
static void refused(file_call *call, yeqontur_table table, uint32_t file, uint32_t number, const char *what) {
    const yeqontur_accepted answer = call(table, file);
    expect(answer.refused == number, what);
    expect(same(&answer.table, &table), "a refused call hands the table back as it came");
}

/* The rule of a file is added; it comes to the lowest free slot. */
static yeqontur_table file_rule(yeqontur_table table, uint32_t i) {
    const uint32_t positives[] = {YEQONTUR_GOOD(i - 1), YEQONTUR_SENT(i)}, negative = YEQONTUR_SKIPPED(i);
    return added(table, YEQONTUR_GOOD(i), positives, 2, &negative, 1);
}

/* A buffer of this length: too short, none of it is written; else the files stand at its start and the rest stays. */
static void lent(const yeqontur_table *table, const uint32_t *files, size_t count, size_t length) {
    uint32_t buffer[YEQONTUR_MOST_FILES + 2], right[YEQONTUR_MOST_FILES + 2];
    memset(buffer, 0xA5, sizeof buffer);
    memset(right, 0xA5, sizeof right);
    for (size_t i = 0; length >= count && i < count; i++) {
        right[i] = files[i];
    }
    const yeqontur_list_answer answer = yeqontur_checklist_missing(*table, buffer, length);
    expect(answer.refused == (length < count ? 11 : 0) && answer.count == count, "a short buffer is refused 11");
    expect(memcmp(buffer, right, sizeof right) == 0, "the missing files are written, and the rest of the buffer stays");
}

/* These files are missing, and it is complete exactly if there are none. */
static void lacks(yeqontur_table table, const uint32_t *files, size_t count) {
    if (count > 0) {
        lent(&table, files, count, 0);
        lent(&table, files, count, count - 1);
    }
    lent(&table, files, count, count);
    lent(&table, files, count, count + 2);
    const yeqontur_list_answer none = yeqontur_checklist_missing(table, NULL, 0);
    expect(none.refused == (count == 0 ? 0 : 11) && none.count == count, "a buffer of length 0 may be NULL");
    const yeqontur_complete_answer answer = yeqontur_checklist_complete(table);
    expect(answer.refused == 0 && answer.complete == (count == 0), "complete exactly if no file is missing");
}

/* Every call refuses the table with 15, whatever the file and the buffer. */
static void no_checklist(yeqontur_table table) {
    const uint32_t numbers[] = {0, 1, 2, 60, 61, UINT32_MAX};
    for (int i = 0; i < 6; i++) {
        for (int j = 0; j < CALLS; j++) {
            refused(calls[j], table, numbers[i], 15, "what is no checklist is refused 15 before 20 and 22");
        }
    }
    uint32_t buffer[2] = {91, 92};
    for (size_t length = 0; length <= 2; length++) {
        const yeqontur_list_answer list = yeqontur_checklist_missing(table, buffer, length);
        expect(list.refused == 15 && list.count == 0, "no files are listed of what is no checklist");
    }
    expect(yeqontur_checklist_missing(table, NULL, 0).refused == 15, "15 before 11");
    expect(buffer[0] == 91 && buffer[1] == 92, "a refused call writes no buffer entry");
    const yeqontur_complete_answer answer = yeqontur_checklist_complete(table);
    expect(answer.refused == 15 && answer.complete == 0, "nor is it complete");
}

/* The rules of a new checklist are those that the header tells. */
static void frame(uint32_t files) {
    yeqontur_table built = fact(yeqontur_empty(), 0);
    for (uint32_t i = 1; i <= files; i++) {
        built = file_rule(built, i);
    }
    const yeqontur_table table = opened(files);
    expect(same(&table, &built), "an opened checklist has atom 0 in slot 0 and each file's rule in its slot");
    uint32_t every[YEQONTUR_MOST_FILES];
    for (uint32_t i = 0; i < files; i++) {
        every[i] = i + 1;
    }
    lacks(table, every, files);
}

static void openings(void) {
    const uint32_t wrong[] = {0, 61, 62, 256, 257, 65537, UINT32_MAX};
    const yeqontur_table empty = yeqontur_empty();
    for (int i = 0; i < 7; i++) {
        const yeqontur_accepted answer = yeqontur_checklist_open(wrong[i]);
        expect(answer.refused == 21, "0 or more than 60 files are refused 21");
        expect(same(&answer.table, &empty), "and the empty table is handed back");
    }
    expect(YEQONTUR_MOST_FILES == 60, "a checklist has up to 60 files");
    frame(1);
    frame(2);
    frame(YEQONTUR_MOST_FILES);
}

/* File numbers that are on no list of so many files, and 20 before 22. */
static void file_numbers(uint32_t files) {
    const uint32_t wrong[] = {0, files + 1, 61, 256 + 1, 65536 + 1, 0x55555556, UINT32_MAX};
    const yeqontur_table table = opened(files);
    for (int i = 0; i < 7; i++) {
        for (int j = 0; j < CALLS; j++) {
            refused(calls[j], table, wrong[i], 20, "a file number that is not on the list is refused 20");
        }
    }
    for (int j = 0; j < WITHDRAW; j++) {
        accepted(calls[j], table, 1);
        accepted(calls[j], table, files);
    }
}

/* Each mark of each file: put, put again, withdrawn, withdrawn again; sent and skipped in both orders. */
static void marks(void) {
    const uint32_t first = 1, second = 2, both[] = {1, 2};
    yeqontur_table table = opened(2);
    refused(yeqontur_checklist_withdraw, table, 1, 22, "no skip to withdraw");
    table = accepted(yeqontur_checklist_sent, table, 1);
    lacks(table, &second, 1);
    refused(yeqontur_checklist_sent, table, 1, 22, "sent already");
    refused(yeqontur_checklist_withdraw, table, 1, 22, "sending makes no skip");
    table = accepted(yeqontur_checklist_skipped, table, 2);
    lacks(table, &second, 1);
    refused(yeqontur_checklist_skipped, table, 2, 22, "skipped already");
    table = accepted(yeqontur_checklist_sent, table, 2);
    lacks(table, &second, 1);
    table = accepted(yeqontur_checklist_skipped, table, 1);
    lacks(table, both, 2);
    table = accepted(yeqontur_checklist_withdraw, table, 2);
    lacks(table, &first, 1);
    table = accepted(yeqontur_checklist_withdraw, table, 1);
    lacks(table, NULL, 0);
    refused(yeqontur_checklist_withdraw, table, 1, 22, "withdrawn already");
    refused(yeqontur_checklist_sent, table, 2, 22, "still sent");
}

/* All 60 files are sent, the last one first; all are skipped; the skips are withdrawn, the last one first. */
static void sixty(void) {
    uint32_t every[60];
    yeqontur_table table = opened(60);
    for (uint32_t i = 60; i >= 1; i--) {
        every[i - 1] = i;
        expect(yeqontur_checklist_complete(table).complete == 0, "not complete before the last file is sent");
        table = accepted(yeqontur_checklist_sent, table, i);
    }
    lacks(table, NULL, 0);
    for (uint32_t i = 1; i <= 60; i++) {
        table = accepted(yeqontur_checklist_skipped, table, i);
        expect(yeqontur_checklist_complete(table).complete == 0, "not complete while a skip stands");
    }
    for (uint32_t i = 60; i >= 1; i--) {
        lacks(table, every, i);
        table = accepted(yeqontur_checklist_withdraw, table, i);
    }
    lacks(table, NULL, 0);
}

/* Facts that an addition puts are marks; one may stand in the last slot, and is withdrawn from there. */
static void marks_by_hand(void) {
    const uint32_t first = 1;
    yeqontur_table table = fact(fact(opened(2), YEQONTUR_SENT(1)), YEQONTUR_SENT(2));
    lacks(table, NULL, 0);
    refused(yeqontur_checklist_sent, table, 2, 22, "a mark put by an addition stands");
    for (uint32_t atom = 5; atom < 255; atom++) {
        table = fact(table, atom == 5 ? YEQONTUR_SKIPPED(2) : atom);
    }
    no_checklist(table);
    table = fact(table, YEQONTUR_SKIPPED(1));
    expect(yeqontur_rule(table, 255).refused == 0, "every slot is taken");
    for (uint32_t slot = 5; slot < 255; slot++) {
        table = yeqontur_remove(table, slot).table;
    }
    lacks(table, &first, 1);
    table = accepted(yeqontur_checklist_withdraw, table, 1);
    expect(yeqontur_rule(table, 255).refused == 9, "the skip is withdrawn from the slot that has it");
    lacks(table, NULL, 0);
}

/* Any other rule, or one of the frame's missing, and it is no checklist until mended. The last file has a mark. */
static void other_rules(void) {
    const uint32_t one = 1;
    const yeqontur_table table = accepted(yeqontur_checklist_sent, opened(3), 3);
    for (uint32_t slot = 0; slot <= 3; slot++) {
        no_checklist(yeqontur_remove(table, slot).table);
    }
    no_checklist(fact(table, 200));
    no_checklist(fact(table, YEQONTUR_SENT(4)));
    no_checklist(fact(table, YEQONTUR_GOOD(2)));
    no_checklist(added(table, YEQONTUR_SENT(2), &one, 1, NULL, 0));
    no_checklist(added(table, YEQONTUR_SKIPPED(2), NULL, 0, &one, 1));
    const yeqontur_table mended = file_rule(yeqontur_remove(table, 3).table, 3);
    expect(same(&mended, &table), "a rule of the frame that is added again mends it");
}

/* The last file's rule removed, where that file has no mark, leaves a checklist of one file less; the next file's rule
 * added in its slot makes one of one file more. */
static void other_lengths(void) {
    const uint32_t last = 3;
    const yeqontur_table shorter = yeqontur_remove(opened(3), 3).table, two = opened(2), three = opened(3);
    expect(same(&shorter, &two), "without marks of the last file, its rule removed leaves a shorter checklist");
    const yeqontur_table longer = file_rule(two, 3);
    expect(same(&longer, &three), "the next file's rule in its slot makes a longer checklist");
    no_checklist(file_rule(accepted(yeqontur_checklist_sent, two, 1), 3)); /* in slot 4: slot 3 has the mark */
    yeqontur_table table = accepted(yeqontur_checklist_sent, opened(3), 1);
    table = accepted(yeqontur_checklist_sent, table, 2);
    lacks(table, &last, 1);
    lacks(yeqontur_remove(table, 3).table, NULL, 0);
    no_checklist(yeqontur_remove(opened(1), 1).table);
    no_checklist(yeqontur_empty());
    no_checklist(file_rule(opened(60), 61));
}

/* A mark in the slot of the last file's rule, and the next file's rule in that of a mark, change the length too. */
static void replaced_lengths(void) {
    const uint32_t positives[] = {YEQONTUR_GOOD(2), YEQONTUR_SENT(3)}, negative = YEQONTUR_SKIPPED(3);
    const yeqontur_table three = opened(3), one_sent = accepted(yeqontur_checklist_sent, opened(2), 1);
    yeqontur_accepted answer = yeqontur_replace(three, 3, YEQONTUR_SENT(1), NULL, 0, NULL, 0);
    expect(answer.refused == 0 && same(&answer.table, &one_sent), "a mark for the last rule: a shorter checklist");
    answer = yeqontur_replace(one_sent, 3, YEQONTUR_GOOD(3), positives, 2, &negative, 1);
    expect(answer.refused == 0 && same(&answer.table, &three), "the next rule for a mark: a longer checklist");
    no_checklist(yeqontur_replace(three, 2, YEQONTUR_SENT(1), NULL, 0, NULL, 0).table);
}

/* A muted rule, of the frame or a mark, and it is no checklist until that is unmuted. File 3 is not sent, so that its
 * rule gives nothing, muted or not; muted, it does not leave a shorter list either. */
static void muted_rules(void) {
    const yeqontur_table sent = accepted(yeqontur_checklist_sent, opened(3), 1);
    const yeqontur_table table = accepted(yeqontur_checklist_skipped, sent, 2);
    for (uint32_t slot = 0; slot < 6; slot++) {
        const yeqontur_accepted muted = yeqontur_mute(table, slot, 1);
        expect(muted.refused == 0, "the table below a checklist is a table");
        no_checklist(muted.table);
        const yeqontur_accepted mended = yeqontur_mute(muted.table, slot, 0);
        expect(mended.refused == 0 && same(&mended.table, &table), "unmuted, it is the checklist that it was");
    }
    yeqontur_table by_hand = table;
    *word(&by_hand, 3, STATE) = 2;
    *word(&by_hand, 3, SPOILER) = 0;
    expect(yeqontur_label(by_hand, 0).refused == 0, "a rule that gives nothing is muted by its own numbers alone");
    no_checklist(by_hand);
}

/* Any bytes are a table: 15, and the bytes come back. */
static void any_bytes(void) {
    yeqontur_table table;
    memset(&table, 0xA5, sizeof table);
    no_checklist(table);
    memset(&table, 0xFF, sizeof table);
    no_checklist(table);
    table = opened(2);
    *word(&table, 2, DEPTH) = 1; /* which says "complete" and is not right */
    no_checklist(table);
    table = opened(2);
    *word(&table, 255, HEAD) = YEQONTUR_SENT(1); /* a number in a free slot */
    no_checklist(table);
}

/* The table's own calls say why: what stops the last file's rule, and the rules that it rests on. */
static void reasons(void) {
    yeqontur_table table = accepted(yeqontur_checklist_sent, opened(2), 1);
    table = accepted(yeqontur_checklist_skipped, accepted(yeqontur_checklist_sent, table, 2), 2);
    const yeqontur_spoiler_answer stop = yeqontur_spoiler(table, 2);
    expect(stop.spoiled == 2 && stop.atom == YEQONTUR_SKIPPED(2), "the last file's rule is blocked by its skip");
    table = accepted(yeqontur_checklist_withdraw, table, 2);
    const uint32_t expected[] = {0, 3, 4, 1, 2};
    uint32_t slots[8];
    const yeqontur_list_answer reason = yeqontur_reason(table, YEQONTUR_GOOD(2), slots, 8);
    expect(reason.refused == 0 && reason.count == 5 && memcmp(slots, expected, sizeof expected) == 0,
           "complete rests on the frame and on both sendings");
}

int main(void) {
    openings();
    file_numbers(1);
    file_numbers(5);
    file_numbers(60);
    marks();
    sixty();
    marks_by_hand();
    other_rules();
    other_lengths();
    replaced_lengths();
    muted_rules();
    any_bytes();
    reasons();
    return counted("checklists from C");
}
