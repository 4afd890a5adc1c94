/* What the header has beside the calls: names, words and advice of refusals, version and layout, and the calls on a
 * table in place, each beside the call that it stands for. */
#include "tables.h"

/* Words and advice are there for each refusal of the list, and differ from those of no refusal. */
static void refusals(void) {
    static const uint32_t none[] = {23, 24, 255, UINT32_MAX};
    const char *const unknown = yeqontur_words(none[0]);
    int count = 0;
#define KNOWN(number, name, words, advice)                                                        \
    expect(YEQONTUR_REFUSED_##name == number && number == ++count, "numbers ascend from 1");     \
    expect(strcmp(yeqontur_words(number), words) == 0 && strlen(words) > 0, "words of a refusal"); \
    expect(strcmp(yeqontur_advice(number), advice) == 0 && strlen(advice) > 0, "advice of a refusal");
    YEQONTUR_REFUSALS(KNOWN)
#undef KNOWN
    expect(count == 22, "22 refusals");
    expect(strcmp(yeqontur_words(0), "accepted") == 0 && strlen(yeqontur_advice(0)) > 0, "words of 0");
    for (size_t i = 0; i < sizeof none / sizeof *none; i++) {
        expect(strcmp(yeqontur_words(none[i]), unknown) == 0 && strlen(yeqontur_advice(none[i])) > 0, "no refusal");
    }
}

/* The library that the program runs with is the header's. Whoever changes a size or an offset in bytes.c, where they
 * are held, gives the layout a new number here, in the header and in the library. */
static void versions(void) {
    expect(yeqontur_version() == YEQONTUR_VERSION, "the version is the library's");
    expect(yeqontur_layout() == YEQONTUR_LAYOUT, "the layout is the library's");
    char text[32];
    snprintf(text, sizeof text, "%d.%d.%d", YEQONTUR_VERSION / 10000, YEQONTUR_VERSION / 100 % 100,
             YEQONTUR_VERSION % 100);
    expect(strcmp(text, YEQONTUR_VERSION_TEXT) == 0, "the version in words");
}

/* Each named state is the one that the calls leave or tell: of labels, and of what is said of a rule. */
static void states(void) {
    const uint32_t two = 2, three = 3, four = 4;
    yeqontur_table table = added(yeqontur_empty(), 1, &two, 1, &three, 1);
    expect(yeqontur_rule(table, 0).refused == YEQONTUR_ACCEPTED, "a held rule");
    expect(yeqontur_rule(table, 1).refused == YEQONTUR_REFUSED_SLOT_FREE, "a free slot");
    expect(yeqontur_spoiler(table, 0).spoiled == YEQONTUR_SPOILER_NEEDS, "a rule that needs an atom");
    table = fact(table, 2);
    expect(yeqontur_spoiler(table, 0).spoiled == YEQONTUR_SPOILER_NONE, "a valid rule");
    expect(yeqontur_label(table, 1).state == YEQONTUR_LABEL_IN, "an atom that is in");
    expect(yeqontur_label(table, 3).state == YEQONTUR_LABEL_OUT, "an atom that is out");
    expect(yeqontur_label(table, four).state == YEQONTUR_LABEL_ABSENT, "an atom of no rule");
    uint32_t labels[YEQONTUR_LABEL_NUMBERS];
    const yeqontur_list_answer all = yeqontur_labels(table, labels, YEQONTUR_LABEL_NUMBERS);
    expect(all.refused == YEQONTUR_ACCEPTED && all.count == 12, "three labels");
    expect(labels[0] == 1 && labels[1] == YEQONTUR_LABEL_IN && labels[2] == 2 && labels[3] == 0, "the label of 1");
    expect(labels[8] == 3 && labels[9] == YEQONTUR_LABEL_OUT && labels[10] == 0 && labels[11] == 0, "the label of 3");
    table = fact(table, 3);
    expect(yeqontur_spoiler(table, 0).spoiled == YEQONTUR_SPOILER_BLOCKED_BY, "a rule that is blocked");
    expect(yeqontur_mute_in(&table, 0, 1) == YEQONTUR_ACCEPTED, "a muting");
    expect(yeqontur_rule(table, 0).muted == 1, "a muted rule");
    expect(yeqontur_spoiler(table, 0).spoiled == YEQONTUR_SPOILER_MUTED, "what is said of it");
}

/* A call in place answers what the call answers, and leaves its table; refused, the one that was there. */
static void in_place(const yeqontur_table *before, const yeqontur_table *after, uint32_t told, uint32_t refused,
                     const yeqontur_table *table, const char *what) {
    expect(told == refused, what);
    expect(same(after, told == YEQONTUR_ACCEPTED ? table : before), what);
}

static void change(const yeqontur_table *before, const yeqontur_table *after, uint32_t told, yeqontur_change answer,
                   const char *what) {
    in_place(before, after, told, answer.refused, &answer.table, what);
}

static void accept(const yeqontur_table *before, const yeqontur_table *after, uint32_t told, yeqontur_accepted answer,
                   const char *what) {
    in_place(before, after, told, answer.refused, &answer.table, what);
}

/* 1 < 2, not 3; 2 <; 3 < 4. */
static yeqontur_table begun(void) {
    const uint32_t two = 2, three = 3, four = 4;
    yeqontur_table table = added(yeqontur_empty(), 1, &two, 1, &three, 1);
    return added(fact(table, 2), 3, &four, 1, NULL, 0);
}

/* Each head is added as a fact: accepted, accepted, the same rule, too large. */
static void additions(void) {
    static const uint32_t heads[] = {4, 9, 2, 256};
    for (size_t i = 0; i < sizeof heads / sizeof *heads; i++) {
        const yeqontur_table before = begun();
        yeqontur_table table = before, again = before;
        uint32_t slot = 77;
        const uint32_t told = yeqontur_add_to(&table, heads[i], NULL, 0, NULL, 0, &slot);
        const yeqontur_change answer = yeqontur_add(before, heads[i], NULL, 0, NULL, 0);
        change(&before, &table, told, answer, "an addition in place");
        expect(slot == (told == YEQONTUR_ACCEPTED ? answer.slot : 77), "its slot");
        expect(yeqontur_add_to(&again, heads[i], NULL, 0, NULL, 0, NULL) == told, "no slot asked");
        expect(same(&again, &table), "the same table");
    }
}

/* Slots that hold a rule, that are free, and that are none. */
static void slots(void) {
    static const uint32_t numbers[] = {0, 1, 2, 3, 255, 256, UINT32_MAX};
    for (size_t i = 0; i < sizeof numbers / sizeof *numbers; i++) {
        const yeqontur_table before = begun();
        const uint32_t slot = numbers[i], three = 3;
        yeqontur_table table = before;
        uint32_t told = yeqontur_remove_from(&table, slot);
        change(&before, &table, told, yeqontur_remove(before, slot), "a removal in place");
        table = before;
        told = yeqontur_replace_in(&table, slot, 1, NULL, 0, &three, 1);
        accept(&before, &table, told, yeqontur_replace(before, slot, 1, NULL, 0, &three, 1), "a replacement in place");
        table = before;
        told = yeqontur_mute_in(&table, slot, 1);
        accept(&before, &table, told, yeqontur_mute(before, slot, 1), "a muting in place");
        const yeqontur_table muted = table;
        told = yeqontur_mute_in(&table, slot, 0);
        accept(&muted, &table, told, yeqontur_mute(muted, slot, 0), "an unmuting in place");
    }
}

/* A saved table, and the same bytes damaged: the table that was there stays. */
static void files(void) {
    const yeqontur_table before = begun(), saved = fact(before, 8);
    uint8_t bytes[YEQONTUR_FILE_BYTES];
    const yeqontur_list_answer written = yeqontur_save(saved, bytes, sizeof bytes);
    expect(written.refused == YEQONTUR_ACCEPTED, "a table is saved");
    for (size_t cut = 0; cut < 2; cut++) {
        yeqontur_table table = before;
        const uint32_t told = yeqontur_load_into(&table, bytes, written.count - cut);
        accept(&before, &table, told, yeqontur_load(bytes, written.count - cut), "a file loaded in place");
        expect(told == (cut == 0 ? YEQONTUR_ACCEPTED : YEQONTUR_REFUSED_WRONG_LENGTH), "a file");
    }
}

typedef uint32_t mark_in(yeqontur_table *, uint32_t);
typedef yeqontur_accepted mark(yeqontur_table, uint32_t);

/* Each mark on files that are on the list and that are not, twice, so that the second is refused. */
static void marks(mark_in *in, mark *call, yeqontur_table table) {
    static const uint32_t numbers[] = {0, 1, 1, 3, 4, UINT32_MAX};
    for (size_t i = 0; i < sizeof numbers / sizeof *numbers; i++) {
        const yeqontur_table before = table;
        const uint32_t told = in(&table, numbers[i]);
        accept(&before, &table, told, call(before, numbers[i]), "a mark in place");
    }
}

static void checklists(void) {
    static const uint32_t counts[] = {0, 1, 3, 60, 61};
    for (size_t i = 0; i < sizeof counts / sizeof *counts; i++) {
        const yeqontur_table before = begun();
        yeqontur_table table = before;
        const uint32_t told = yeqontur_checklist_open_into(&table, counts[i]);
        accept(&before, &table, told, yeqontur_checklist_open(counts[i]), "a checklist opened in place");
    }
    const yeqontur_table three = yeqontur_checklist_open(3).table;
    marks(yeqontur_checklist_sent_in, yeqontur_checklist_sent, three);
    marks(yeqontur_checklist_skipped_in, yeqontur_checklist_skipped, three);
    marks(yeqontur_checklist_withdraw_in, yeqontur_checklist_withdraw, yeqontur_checklist_skipped(three, 1).table);
    marks(yeqontur_checklist_sent_in, yeqontur_checklist_sent, begun());
}

int main(void) {
    refusals();
    versions();
    states();
    additions();
    slots();
    files();
    checklists();
    return counted("the header from C");
}
