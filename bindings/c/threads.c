/* Calls from 8 threads at once, each with a stack of 128 KB, as the header claims. A stack that is too small ends the
 * program by a signal. */
#include "yeqontur.h"

#include "expect.h"

#include <pthread.h>
#include <string.h>

#define THREADS 8
#define STACK (128 * 1024)
#define LENGTH 256

/* What a thread works on: a table and a checklist of its own, a buffer, a file, and whether all answers were right. */
typedef struct {
    yeqontur_table table, checklist;
    uint32_t buffer[YEQONTUR_LABEL_NUMBERS];
    uint8_t file[YEQONTUR_FILE_BYTES];
    uint32_t number;
    int right;
} work;

static work works[THREADS];

/* Adds a rule with this head and at most one entry in each list. */
static void add(work *w, uint32_t head, const uint32_t *positive, const uint32_t *negative) {
    yeqontur_change change =
        yeqontur_add(w->table, head, positive, positive != NULL ? 1 : 0, negative, negative != NULL ? 1 : 0);
    w->right &= change.refused == 0;
    w->table = change.table;
}

/* A chain of negations in the threads with an odd number, of positive entries in the others: each atom from the one
 * before, atom 0 a fact. */
static void chain(work *w) {
    w->table = yeqontur_empty();
    add(w, 0, NULL, NULL);
    for (uint32_t atom = 1; atom < LENGTH; atom++) {
        const uint32_t before = atom - 1;
        add(w, atom, w->number % 2 == 0 ? &before : NULL, w->number % 2 == 0 ? NULL : &before);
    }
}

/* The label of an atom of the chain: positive entries put each a step deeper; of negations every second is out. */
static void label(work *w, uint32_t atom) {
    yeqontur_label_answer answer = yeqontur_label(w->table, atom);
    const int negations = w->number % 2 == 1;
    const uint32_t state = negations && atom % 2 == 1 ? 1 : 2;
    const uint32_t depth = state == 1 ? 0 : negations ? 1 : atom + 1;
    w->right &= answer.refused == 0 && answer.state == state && answer.depth == depth;
    w->right &= answer.slot == (state == 1 ? 0 : atom);
}

typedef yeqontur_list_answer list_call(yeqontur_table, uint32_t, uint32_t *, size_t);

/* The list has this many numbers, and this one first. */
static void list(work *w, list_call *call, uint32_t atom, size_t count, uint32_t first) {
    yeqontur_list_answer answer = call(w->table, atom, w->buffer, 256);
    w->right &= answer.refused == 0 && answer.count == count && w->buffer[0] == first;
}

/* All labels at once, and the rule of the last slot. */
static void labels(work *w) {
    const yeqontur_list_answer answer = yeqontur_labels(w->table, w->buffer, YEQONTUR_LABEL_NUMBERS);
    w->right &= answer.refused == 0 && answer.count == YEQONTUR_LABEL_NUMBERS;
    w->right &= w->buffer[4 * 7] == 7 && w->buffer[4 * 7 + 1] == (w->number % 2 == 1 ? 1 : 2);
    const yeqontur_rule_answer rule = yeqontur_rule(w->table, LENGTH - 1);
    w->right &= rule.refused == 0 && rule.head == LENGTH - 1 && rule.entries[0] == LENGTH - 2;
}

static void spoiler(work *w) {
    yeqontur_spoiler_answer answer = yeqontur_spoiler(w->table, 1);
    w->right &= answer.refused == 0 && answer.spoiled == (w->number % 2 == 1 ? 2 : 0);
}

/* Saves the table and loads it again. What comes back lies on the stack, as a caller would have it. */
static void file(work *w) {
    const yeqontur_list_answer saved = yeqontur_save(w->table, w->file, sizeof w->file);
    w->right &= saved.refused == 0 && saved.count == sizeof w->file;
    const yeqontur_loaded loaded = yeqontur_load(w->file, saved.count);
    w->right &= loaded.refused == 0 && memcmp(&loaded.table, &w->table, sizeof w->table) == 0;
}

/* The last rule is replaced by itself, and by a fact, which puts its atom at depth 1. */
static void replacement(work *w) {
    const uint32_t last = LENGTH - 1, before = last - 1;
    const int negations = w->number % 2 == 1;
    yeqontur_accepted answer = yeqontur_replace(w->table, last, last, &before, !negations, &before, negations);
    w->right &= answer.refused == 0 && memcmp(&answer.table, &w->table, sizeof w->table) == 0;
    answer = yeqontur_replace(w->table, last, last, NULL, 0, NULL, 0);
    w->right &= answer.refused == 0;
    w->table = answer.table;
    const yeqontur_label_answer told = yeqontur_label(w->table, last);
    w->right &= told.state == 2 && told.depth == 1 && told.slot == last;
}

/* Without the fact of atom 0 the atom after it turns: out in a chain of positive entries, in in one of negations. */
static void muting(work *w) {
    const uint32_t state = w->number % 2 == 1 ? 2 : 1;
    yeqontur_accepted answer = yeqontur_mute(w->table, 0, 1);
    w->right &= answer.refused == 0 && yeqontur_spoiler(answer.table, 0).spoiled == 3;
    w->right &= yeqontur_label(answer.table, 0).state == 1 && yeqontur_label(answer.table, 1).state == state;
    answer = yeqontur_mute(answer.table, 0, 0);
    w->right &= answer.refused == 0 && memcmp(&answer.table, &w->table, sizeof w->table) == 0;
}

static void removal(work *w) {
    yeqontur_change change = yeqontur_remove(w->table, w->number + 10);
    w->right &= change.refused == 0 && change.slot == w->number + 10;
    w->table = change.table;
    w->right &= yeqontur_label(w->table, w->number + 10).state == 1;
}

/* Every call of a checklist, on the longest one; those of opening and sending in place, on a table of this frame. */
static void checklist(work *w) {
    yeqontur_table table;
    w->right &= yeqontur_checklist_open_into(&table, YEQONTUR_MOST_FILES) == 0;
    for (uint32_t i = 1; i <= YEQONTUR_MOST_FILES; i++) {
        w->right &= yeqontur_checklist_sent_in(&table, i) == 0;
    }
    yeqontur_accepted answer = yeqontur_checklist_skipped(table, w->number + 1);
    yeqontur_list_answer missing = yeqontur_checklist_missing(answer.table, w->buffer, YEQONTUR_MOST_FILES);
    w->right &= missing.refused == 0 && missing.count == 1 && w->buffer[0] == w->number + 1;
    answer = yeqontur_checklist_withdraw(answer.table, w->number + 1);
    w->right &= answer.refused == 0 && yeqontur_checklist_complete(answer.table).complete == 1;
}

/* Many calls in place in one function take no more stack than one. */
static void in_place(work *w) {
    yeqontur_table *table = &w->checklist;
    w->right &= yeqontur_checklist_open_into(table, 3) == 0;
    w->right &= yeqontur_checklist_sent_in(table, 1) == 0;
    w->right &= yeqontur_checklist_skipped_in(table, 2) == 0;
    w->right &= yeqontur_checklist_sent_in(table, 2) == 0;
    w->right &= yeqontur_checklist_withdraw_in(table, 2) == 0;
    w->right &= yeqontur_checklist_sent_in(table, 3) == 0;
    w->right &= yeqontur_mute_in(table, 1, 1) == 0;
    w->right &= yeqontur_mute_in(table, 1, 0) == 0;
    w->right &= yeqontur_remove_from(table, 3) == 0;
    w->right &= yeqontur_checklist_sent_in(table, 3) == YEQONTUR_REFUSED_TABLE_UNSOUND;
}

/* Every call, on the longest chain and the longest checklist. */
static void *run(void *given) {
    work *w = given;
    const int negations = w->number % 2 == 1;
    w->right = 1;
    chain(w);
    for (uint32_t atom = 0; atom < LENGTH; atom++) {
        label(w, atom);
    }
    labels(w);
    spoiler(w);
    list(w, yeqontur_justifications, 7, 1, 7);
    list(w, yeqontur_consequences, 7, 1, 8);
    list(w, yeqontur_repercussions, 0, LENGTH - 1, 1);
    list(w, yeqontur_reason, LENGTH - 2, negations ? 1 : LENGTH - 1, negations ? LENGTH - 2 : 0);
    file(w);
    replacement(w);
    muting(w);
    removal(w);
    checklist(w);
    in_place(w);
    return NULL;
}

int main(void) {
    pthread_t threads[THREADS];
    pthread_attr_t small;
    expect(pthread_attr_init(&small) == 0 && pthread_attr_setstacksize(&small, STACK) == 0, "a stack of 128 KB");
    for (uint32_t i = 0; i < THREADS; i++) {
        works[i].number = i;
        expect(pthread_create(&threads[i], &small, run, &works[i]) == 0, "a thread");
    }
    for (int i = 0; i < THREADS; i++) {
        expect(pthread_join(threads[i], NULL) == 0 && works[i].right, "every answer in a thread is right");
    }
    for (int i = 2; i < THREADS; i++) {
        expect(memcmp(&works[i].table, &works[i % 2].table, sizeof works[i].table) != 0, "each has its own table");
    }
    return counted("8 threads from C");
}
