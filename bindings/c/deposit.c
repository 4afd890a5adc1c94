/* It said "complete", and it was not: five files, one of them under a path that is too long to be sent. */
#include <yeqontur.h>

#include <stdio.h>
#include <stdlib.h>
#include <string.h>

/* The most characters of a path that the system opens. */
#define LONGEST 260

/* What a scan found: a file, and the folder that it is in, which may lie inside folders of the same name. */
typedef struct {
    const char *name, *folder;
    size_t deep;
} file;

/* The tapes were copied into their own folder, again and again. */
#define FILES 5
static file files[FILES] = {{"minutes.txt", "papers/", 1},
                            {"roof.tif", "photographs/", 1},
                            {"tower.tif", "photographs/", 1},
                            {"tape.wav", "copy of tapes/", 20},
                            {"readme.txt", "", 0}};

/* How many characters the path of a file has. */
static size_t length(const file *f) {
    return strlen(f->folder) * f->deep + strlen(f->name);
}

/* Ends the program where a call was refused that has to be accepted. */
static void must_be_accepted(uint32_t refused) {
    if (refused != YEQONTUR_ACCEPTED) {
        fprintf(stderr, "refused %u: %s; %s\n", refused, yeqontur_words(refused), yeqontur_advice(refused));
        exit(1);
    }
}

/* Sends a file, or skips it where its path is too long. */
static void offer(yeqontur_table *table, uint32_t number) {
    const file *f = &files[number - 1];
    if (length(f) > LONGEST) {
        printf("%u %s: skipped, its path has %zu characters\n", number, f->name, length(f));
        must_be_accepted(yeqontur_checklist_skipped_in(table, number));
    } else {
        printf("%u %s: sent\n", number, f->name);
        must_be_accepted(yeqontur_checklist_sent_in(table, number));
    }
}

/* The client before this one looked at what it had sent. A file that it skipped was in no count. */
static void show_old(void) {
    int sent = 0;
    for (int i = 0; i < FILES; i++) {
        sent += length(&files[i]) <= LONGEST;
    }
    printf("the old client: complete, %d files sent\n", sent);
}

static void print_name(uint32_t atom) {
    static const char *const parts[] = {"good", "sent", "skipped"};
    if (atom == YEQONTUR_GOOD(FILES)) {
        printf("complete");
    } else {
        printf("file %u %s", (atom + 2) / 3, parts[atom % 3]);
    }
}

/* Prints what is not complete, down to what is missing: a file's good has one rule, in the slot of the file's number,
 * and what stops it is the good of the file before, or a mark of the file. */
static void show_why(const yeqontur_table *table) {
    uint32_t atom = YEQONTUR_GOOD(FILES);
    while (atom % 3 == 0 && yeqontur_label(*table, atom).state == YEQONTUR_LABEL_OUT) {
        const yeqontur_spoiler_answer stop = yeqontur_spoiler(*table, atom / 3);
        if (stop.spoiled != YEQONTUR_SPOILER_NEEDS && stop.spoiled != YEQONTUR_SPOILER_BLOCKED_BY) {
            return; /* no entry is named: the rule is muted, as none of a checklist is */
        }
        printf("  ");
        print_name(atom);
        printf(stop.spoiled == YEQONTUR_SPOILER_BLOCKED_BY ? " is blocked by " : " needs ");
        print_name(stop.atom);
        printf("\n");
        atom = stop.atom;
    }
}

/* What the screen shows now. */
static void show(const yeqontur_table *table) {
    uint32_t missing[YEQONTUR_MOST_FILES];
    const yeqontur_list_answer list = yeqontur_checklist_missing(*table, missing, YEQONTUR_MOST_FILES);
    must_be_accepted(list.refused);
    const yeqontur_complete_answer all = yeqontur_checklist_complete(*table);
    must_be_accepted(all.refused);
    printf(all.complete ? "complete: yes" : "complete: no.");
    for (size_t i = 0; i < list.count; i++) {
        const uint32_t skipped = yeqontur_label(*table, YEQONTUR_SKIPPED(missing[i])).state;
        printf(" File %u %s.", missing[i], skipped == YEQONTUR_LABEL_IN ? "was skipped" : "has not been sent");
    }
    printf("\n");
    for (size_t i = 0; i < list.count; i++) {
        printf("  missing: %u %s\n", missing[i], files[missing[i] - 1].name);
    }
    show_why(table);
}

int main(void) {
    yeqontur_table table;
    must_be_accepted(yeqontur_checklist_open_into(&table, FILES));
    for (uint32_t number = 1; number <= FILES; number++) {
        offer(&table, number);
    }
    show_old();
    show(&table);

    printf("the path of tape.wav is shortened, and the skip withdrawn\n");
    files[3].deep = 1;
    must_be_accepted(yeqontur_checklist_withdraw_in(&table, 4));
    show(&table);

    offer(&table, 4);
    show(&table);
    return 0;
}
