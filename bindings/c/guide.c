/* Rules from a scan, their labels, why a label stands, a refusal, a rule that is replaced, and one that is muted. */
#include <yeqontur.h>

#include <stdio.h>
#include <stdlib.h>

/* What a scan of the folder found. */
typedef struct {
    const char *name;
    int sent, skipped;
} file;

#define FILES 2
static const file files[FILES] = {{"report.pdf", 1, 0}, {"notes.txt", 1, 1}};

/* Atoms are numbers from 0 to 255, handed out by the program: one for the folder, three for each file. */
#define COMPLETE 0
#define SENT(i) (1 + 3 * (uint32_t)(i))
#define SKIPPED(i) (2 + 3 * (uint32_t)(i))
#define GOOD(i) (3 + 3 * (uint32_t)(i))

static const char *const states[] = {"absent", "out", "in"};

static void print_name(uint32_t atom) {
    static const char *const marks[] = {"sent", "skipped", "good"};
    if (atom == COMPLETE) {
        printf("complete");
    } else {
        printf("%s %s", files[(atom - 1) / 3].name, marks[(atom - 1) % 3]);
    }
}

/* Says so if a call was refused. */
static void tell(uint32_t refused) {
    if (refused != YEQONTUR_ACCEPTED) {
        printf("refused %u: %s\n", refused, yeqontur_words(refused));
    }
}

/* Adds a rule that has to be accepted. */
static void add(yeqontur_table *table, uint32_t head, const uint32_t *positives, size_t positive_count,
                const uint32_t *negatives, size_t negative_count) {
    const uint32_t refused =
        yeqontur_add_to(table, head, positives, positive_count, negatives, negative_count, NULL);
    tell(refused);
    if (refused != YEQONTUR_ACCEPTED) {
        exit(1);
    }
}

/* A file is good if it was sent and not skipped; the folder is complete if every file is good. What the scan found is
 * added as facts. */
static yeqontur_table scanned(void) {
    yeqontur_table table = yeqontur_empty();
    uint32_t every[FILES];
    for (int i = 0; i < FILES; i++) {
        const uint32_t sent = SENT(i), skipped = SKIPPED(i);
        add(&table, GOOD(i), &sent, 1, &skipped, 1);
        if (files[i].sent) {
            add(&table, sent, NULL, 0, NULL, 0);
        }
        if (files[i].skipped) {
            add(&table, skipped, NULL, 0, NULL, 0);
        }
        every[i] = GOOD(i);
    }
    add(&table, COMPLETE, every, FILES, NULL, 0);
    return table;
}

/* Prints why an atom has its label. Each atom is told once: an atom that is out may wait for itself. */
static void show(const yeqontur_table *table, uint32_t atom, int indent, char *told) {
    yeqontur_label_answer label = yeqontur_label(*table, atom);
    printf("%*s", indent, "");
    print_name(atom);
    printf(" is %s\n", states[label.state]);
    if (told[atom]) {
        return;
    }
    told[atom] = 1;
    if (label.state == YEQONTUR_LABEL_IN) { /* what its supporting rule rests on */
        const yeqontur_rule_answer rule = yeqontur_rule(*table, label.slot);
        for (uint32_t i = 0; i < rule.positives; i++) {
            show(table, rule.entries[i], indent + 2, told);
        }
        return;
    }
    uint32_t slots[YEQONTUR_SLOTS]; /* what stops each of its rules */
    yeqontur_list_answer list = yeqontur_justifications(*table, atom, slots, YEQONTUR_SLOTS);
    for (size_t i = 0; i < list.count; i++) {
        yeqontur_spoiler_answer stop = yeqontur_spoiler(*table, slots[i]);
        if (stop.spoiled == YEQONTUR_SPOILER_MUTED) {
            printf("%*s  slot %u is muted\n", indent, "", slots[i]);
            continue;
        }
        const char *how = stop.spoiled == YEQONTUR_SPOILER_BLOCKED_BY ? "is blocked by" : "needs";
        printf("%*s  slot %u %s ", indent, "", slots[i], how);
        print_name(stop.atom);
        printf("\n");
        show(table, stop.atom, indent + 4, told);
    }
}

static void show_why(const yeqontur_table *table, uint32_t atom) {
    char told[YEQONTUR_ATOMS] = {0};
    show(table, atom, 0, told);
}

/* The slot of an atom's first rule; one that holds no rule where it has none. */
static uint32_t slot_of(const yeqontur_table *table, uint32_t atom) {
    uint32_t slots[YEQONTUR_SLOTS];
    const yeqontur_list_answer list = yeqontur_justifications(*table, atom, slots, YEQONTUR_SLOTS);
    return list.count > 0 ? slots[0] : YEQONTUR_SLOTS;
}

/* Two changes to the rule of notes.txt. The first is refused, and the old rule still stands. */
static void edit(yeqontur_table *table) {
    const uint32_t slot = slot_of(table, GOOD(1)), complete = COMPLETE, good = GOOD(0);
    printf("notes.txt is to be good unless the folder is complete\n");
    tell(yeqontur_replace_in(table, slot, GOOD(1), NULL, 0, &complete, 1));
    show_why(table, GOOD(1));

    printf("notes.txt is to be good if report.pdf is\n");
    tell(yeqontur_replace_in(table, slot, GOOD(1), &good, 1, NULL, 0));
    show_why(table, GOOD(1));
}

/* An afternoon without the rule of notes.txt: it keeps its slot, and unmuted it gives what it gave. */
static void try_without(yeqontur_table *table) {
    const uint32_t slot = slot_of(table, GOOD(1));
    printf("the rule of notes.txt is muted for an afternoon\n");
    tell(yeqontur_mute_in(table, slot, 1));
    show_why(table, COMPLETE);

    printf("and unmuted\n");
    tell(yeqontur_mute_in(table, slot, 0));
    show_why(table, COMPLETE);
}

int main(void) {
    yeqontur_table table = scanned();
    uint32_t labels[YEQONTUR_LABEL_NUMBERS]; /* of each atom that occurs: atom, state, depth, slot */
    const yeqontur_list_answer all = yeqontur_labels(table, labels, YEQONTUR_LABEL_NUMBERS);
    for (size_t i = 0; i < all.count; i += 4) {
        print_name(labels[i]);
        printf(": %s\n", states[labels[i + 1]]);
    }
    show_why(&table, COMPLETE);

    printf("the skip of notes.txt is withdrawn\n");
    tell(yeqontur_remove_from(&table, slot_of(&table, SKIPPED(1))));
    show_why(&table, COMPLETE);

    printf("a file that is skipped unless it is good\n");
    const uint32_t good = GOOD(0);
    tell(yeqontur_add_to(&table, SKIPPED(0), NULL, 0, &good, 1, NULL));
    edit(&table);
    try_without(&table);
    return 0;
}
