/*
 * Yeqontur: the rule table behind status labels, and the deposit checklist above it. docs/GUIDE.md is the guide.
 * Whole programs: bindings/c/deposit.c has a checklist, bindings/c/guide.c rules of its own, bindings/c/restart.c keeps
 * its table in a file, and in bindings/c/shared.c two threads share one.
 *
 * Every call takes any numbers, lists, lengths and bytes of a table or a file, and answers a result or one numbered
 * refusal. A refused call hands the table back as it came, or the empty one where it takes none, and writes no buffer
 * entry. A list or buffer has the entries that its length says; of length 0 it may be NULL. Where the two lengths of a
 * rule together pass 8, neither list is read, whatever is answered; nor is a file whose length is wrong (refusal 16).
 *
 * Nothing is allocated or kept, so any number of threads may call at once, each with a table of its own. A table in
 * memory belongs to one thread at a time. Where two change it in place at once, a change is lost and nothing tells: a
 * checklist may say that it is complete while a skip stands. Threads that share a table hold a lock for each call,
 * questions too, as bindings/c/shared.c does.
 *
 * A thread with 128 KB of stack can make any call, from a function that makes this one alone (tried with gcc, and with
 * clang from -O1 on). What the caller keeps comes on top: 7 KB for each table, and a compiler keeps a place for each
 * answer of a function, so one with eight calls by value has some 65 KB of its own, and may die there. The calls in
 * place (yeqontur_add_to and those behind it) take no more for many than for one.
 *
 * The library is for x86-64. Build with `pkg-config --cflags --libs yeqontur` where it is installed (./install PREFIX);
 * in the repository with -Iinclude and target/staticlib/libyeqontur.a, which `./build yeqontur` makes.
 */
#ifndef YEQONTUR_H
#define YEQONTUR_H

#include <stddef.h>
#include <stdint.h>

#ifdef __cplusplus
extern "C" {
#endif

/* The version of this header, two digits each for major, minor and patch. yeqontur_version() is the library's. */
#define YEQONTUR_VERSION 200
#define YEQONTUR_VERSION_TEXT "0.2.0"

/* The layout of a table and of the answers, as this header declares them: the number changes when the size or the place
 * of a field does, or what a call takes. yeqontur_layout() is the library's; a shared library with another layout has
 * another name. Who keeps the bytes of a table keeps this number with them. */
#define YEQONTUR_LAYOUT 2

/* The compiler warns where the answer of a call is dropped that changes a table, saves or loads one, or opens a
 * checklist. */
#if defined(__GNUC__)
#define YEQONTUR_KEEP __attribute__((warn_unused_result))
#else
#define YEQONTUR_KEEP
#endif

#define YEQONTUR_SLOTS 256
#define YEQONTUR_ATOMS 256
#define YEQONTUR_ENTRIES 8

/* The most files of a checklist. */
#define YEQONTUR_MOST_FILES 60

/* The most bytes that a saved table has: 256 rules, 22 to a block, are 12 blocks of 512 bytes. */
#define YEQONTUR_FILE_BYTES 6144

/* The most numbers that yeqontur_labels writes: four for each atom. */
#define YEQONTUR_LABEL_NUMBERS 1024

/* What `state` of a label can be: the atom stands in no rule, or is out, or in. */
enum { YEQONTUR_LABEL_ABSENT = 0, YEQONTUR_LABEL_OUT = 1, YEQONTUR_LABEL_IN = 2 };

/* How many numbers a table has for each slot, and in all. */
#define YEQONTUR_SLOT_WORDS 14
#define YEQONTUR_WORDS 3584

/* A table goes in by value and comes back by value. What it holds is asked by calls: a rule by yeqontur_rule, a label
 * by yeqontur_label, all labels at once by yeqontur_labels. (Up to layout 1 a table had the fields `rules` and
 * `labels`; these calls stand in their place.)
 *
 * Any bytes are a table; question 15 says whether it is sound (docs/SPECIFICATION.md, 3.4). A table with a list that
 * does not ascend is not, nor is one with the same rule in two slots, muted or not. There is no padding, so two sound
 * tables with the same rules in the same slots, the same of them muted, are equal byte for byte (memcmp): a table can
 * be stored, compared and hashed as the 7,168 bytes that it is. The empty table is all zero.
 *
 * For those who check bytes: slot s has the 14 numbers from words[14 * s] on. State: 0 free, 1 with a rule, 2 with a
 * muted one. Head. How many positive entries, and how many negative ones. Eight entries: the positive list, then the
 * negative list, each ascending, then zeros. The depth of the head if this slot supports it, else 0. The place of the
 * entry that spoils the rule, from 1 over both lists, else 0. All of a free slot is 0, and so are the last two of a
 * muted rule. Another layout has other numbers: a program that reads them asks yeqontur_layout() first. */
typedef struct yeqontur_table {
    uint16_t words[YEQONTUR_WORDS];
} yeqontur_table;

/* In every answer `refused` is YEQONTUR_ACCEPTED, which is 0, or the number of a refusal. Where a call is refused,
 * every other number of its answer is 0; with 11 alone `count` is not.
 *
 * The refusals: number, name (YEQONTUR_REFUSED_HEAD_TOO_LARGE is 1), what is the matter, and what to do about it. The
 * list is a macro: the names, yeqontur_words and yeqontur_advice come from it, and so can a table of your own.
 *
 *    5  rules are the same if heads are equal and each list holds the same atoms, in any order; one that is muted
 *       counts, and gives nothing until it is unmuted; where a rule is replaced, another slot has the same
 *    7  muted rules included
 *   11  `count` says how many entries, or bytes of a file, are needed
 *   13  and 14 are what the sheet program says of a line; no call answers them
 *   15  a checklist's rules are those that the marks of 1 to 60 files give, none of them muted; it is no checksum:
 *       bytes of a table that were changed into those of another sound table are not told
 *   17  one of the block's two, which are the A and B of the format; one changed byte, anywhere in a saved file, is
 *       always told so
 *   19  a record fails 1 to 5 or 7, or has a list that does not ascend
 *   20  it is 0, or more than the checklist has files */
#define YEQONTUR_REFUSALS(EACH) \
    EACH(1, HEAD_TOO_LARGE, \
         "the head is not below 256", \
         "number your atoms from 0 to 255") \
    EACH(2, TOO_MANY_ENTRIES, \
         "the two lists together have more than 8 entries", \
         "give a helper atom a rule with some of them, and name the helper instead") \
    EACH(3, ENTRY_TOO_LARGE, \
         "an entry is not below 256", \
         "number your atoms from 0 to 255") \
    EACH(4, REPEATED_ENTRY, \
         "an atom stands twice in one list", \
         "name each atom once in a list") \
    EACH(5, SAME_RULE, \
         "the table has the same rule already", \
         "nothing to add, but if it is muted, unmute it; if it was to replace another rule, remove that one") \
    EACH(6, TABLE_FULL, \
         "no slot is free", \
         "remove a rule that is no longer needed, or open a second table") \
    EACH(7, NEGATIVE_CYCLE, \
         "the rule would close a loop through a negation", \
         "leave this rule out, or first remove another rule of the loop; to mute it is not enough") \
    EACH(8, SLOT_TOO_LARGE, \
         "the slot number is not below 256", \
         "pass a slot that an addition answered") \
    EACH(9, SLOT_FREE, \
         "the slot holds no rule", \
         "look at the rules held now: this one was removed, or never added") \
    EACH(10, ATOM_TOO_LARGE, \
         "the atom number is not below 256", \
         "number your atoms from 0 to 255") \
    EACH(11, BUFFER_TOO_SHORT, \
         "the buffer is too short", \
         "lend a buffer of the count that is answered; 1024 entries, or 6144 bytes of a file, always do") \
    EACH(12, ATOM_NOT_IN, \
         "the atom is not in", \
         "ask for its label first: only an in atom has a reason") \
    EACH(13, NOT_A_COMMAND, \
         "the line is not a command of a sheet", \
         "write A, P, R, W or L as the guide shows; a line ends with a newline alone, not with CR LF") \
    EACH(14, LINE_TOO_LONG, \
         "the line has more than 120 bytes", \
         "write single blanks between the parts: every rule that a table can take then fits") \
    EACH(15, TABLE_UNSOUND, \
         "the table handed in is not sound, or not a checklist where the call asks for one", \
         "begin again, or load a copy; of a checklist: unmute its muted rule, or undo the change") \
    EACH(16, WRONG_LENGTH, \
         "the file's length is not 512 bytes times 1 to 12", \
         "it was cut short, or is no saved table: keep it aside, and load a copy or add the rules again") \
    EACH(17, WRONG_CHECKSUM, \
         "a block's checksum is wrong", \
         "it was damaged, or is no saved table: keep it aside, and load a copy or add the rules again") \
    EACH(18, WRONG_BLOCK, \
         "a block's index, block count or record count is wrong", \
         "likely blocks are missing or of other files: keep it aside, and load a copy or add the rules again") \
    EACH(19, WRONG_RECORD, \
         "unused bytes are not 0, slots do not ascend below 256, or the records are not the rules of a table", \
         "likely another version or program wrote it: keep it aside, and load it with the one that did") \
    EACH(20, FILE_NOT_LISTED, \
         "the file number is not on the list", \
         "number the files from 1, in the order in which the checklist was opened for them") \
    EACH(21, WRONG_FILE_COUNT, \
         "the number of files is not 1 to 60", \
         "give each folder, or each 60 files, a checklist of its own; for no file open none") \
    EACH(22, MARK_UNCHANGED, \
         "the file is marked so already, or has no skip to withdraw", \
         "nothing to do: the checklist says it already")

enum {
    YEQONTUR_ACCEPTED = 0,
#define YEQONTUR_NAME(number, name, words, advice) YEQONTUR_REFUSED_##name = number,
    YEQONTUR_REFUSALS(YEQONTUR_NAME)
#undef YEQONTUR_NAME
};

/* What is the matter, in words. */
static inline const char *yeqontur_words(uint32_t refused) {
    switch (refused) {
    case YEQONTUR_ACCEPTED:
        return "accepted";
#define YEQONTUR_CASE(number, name, words, advice) case number: return words;
        YEQONTUR_REFUSALS(YEQONTUR_CASE)
#undef YEQONTUR_CASE
    default:
        return "a number that this header does not know";
    }
}

/* What to do about it. */
static inline const char *yeqontur_advice(uint32_t refused) {
    switch (refused) {
    case YEQONTUR_ACCEPTED:
        return "nothing to do";
#define YEQONTUR_CASE(number, name, words, advice) case number: return advice;
        YEQONTUR_REFUSALS(YEQONTUR_CASE)
#undef YEQONTUR_CASE
    default:
        return "build the program with the header of the library that it runs with";
    }
}

typedef struct {
    uint32_t refused;
    uint32_t slot; /* the slot that an addition took or a removal freed; 0 where it was refused */
    yeqontur_table table;
} yeqontur_change;

typedef struct {
    uint32_t refused;
    uint32_t state; /* YEQONTUR_LABEL_ABSENT, _OUT or _IN; 0 where refused */
    uint32_t depth; /* of an atom that is in; else 0 */
    uint32_t slot;  /* the supporting slot of an atom that is in; else 0 */
} yeqontur_label_answer;

/* The rule of a slot: the head is in if every positive entry is in and no negative one is. A muted rule is held and
 * gives nothing. */
typedef struct {
    uint32_t refused;
    uint32_t head;
    uint32_t muted;     /* 1 or 0 */
    uint32_t positives; /* how many of the entries, from the start */
    uint32_t negatives; /* how many of them behind those */
    uint32_t entries[YEQONTUR_ENTRIES]; /* the positive list, then the negative list, each ascending, in whatever order
                                           the call named it; then zeros */
} yeqontur_rule_answer;

/* A rule is valid; or it needs an atom, which is out; or it is blocked by one, which is in; or it is muted. */
enum {
    YEQONTUR_SPOILER_NONE = 0,
    YEQONTUR_SPOILER_NEEDS = 1,
    YEQONTUR_SPOILER_BLOCKED_BY = 2,
    YEQONTUR_SPOILER_MUTED = 3
};

typedef struct {
    uint32_t refused;
    uint32_t spoiled; /* one of these; 0 where refused */
    uint32_t atom;    /* which it needs, or is blocked by; else 0 */
    uint32_t place;   /* of that entry in the positive list (needs) or the negative one (blocked by), as the slot keeps
                         it, from 0; else 0 */
} yeqontur_spoiler_answer;

/* To be read by its fields: 4 bytes between these two are padding. */
typedef struct {
    uint32_t refused;
    size_t count; /* how many entries or bytes were written, from the start of the buffer; later ones stay. Where it
                     was refused by 11, how many are needed; by any other number, 0 */
} yeqontur_list_answer;

/* That a call was accepted: the answer where a table is changed or handed back and nothing else is to be told. */
typedef struct {
    uint32_t refused;
    yeqontur_table table; /* where refused: as it came, or the empty one where the call takes no table */
} yeqontur_accepted;

/* The table is the one that was saved. */
typedef yeqontur_accepted yeqontur_loaded;

typedef struct {
    uint32_t refused;
    uint32_t complete; /* 1 or 0; 0 where refused */
} yeqontur_complete_answer;

/* YEQONTUR_VERSION and YEQONTUR_LAYOUT of the library that the program runs with. */
uint32_t yeqontur_version(void);
uint32_t yeqontur_layout(void);

/* The table in which every slot is free. */
yeqontur_table yeqontur_empty(void);

/* "Asks" lists the refusals that a call can meet, in the order in which it asks; the first that applies is told. */

/* Adds a rule, not muted, to the lowest free slot and answers that slot; with both lists empty it is a fact. The lists
 * may come in any order; the slot keeps each ascending. Here and below every other slot keeps its rule, and with it
 * whether that is muted, and all labels are right for the rules now held. Asks 15, 1, 2, 3, 4, 5, 6, 7. */
YEQONTUR_KEEP
yeqontur_change yeqontur_add(yeqontur_table table, uint32_t head, const uint32_t *positives, size_t positive_count,
                             const uint32_t *negatives, size_t negative_count);

/* Frees a slot, whether its rule is muted or not. Asks 15, 8, 9. */
YEQONTUR_KEEP
yeqontur_change yeqontur_remove(yeqontur_table table, uint32_t slot);

/* Replaces the rule in a slot by another, in one step: where the new one is refused, the old one still stands. The new
 * rule is judged against the table without the old one, and takes its slot. So a rule may be replaced by itself, in
 * whatever order of its lists; 5 says that another slot has the new rule, muted or not; 7 that it would close a loop
 * with the other rules alone; and 6 cannot come, also of a full table. The lists are those of yeqontur_add. The new
 * rule is not muted, whether the old one was or not: a muted rule that is replaced by itself is unmuted. Asks 15, 8, 9,
 * 1, 2, 3, 4, 5, 7. */
YEQONTUR_KEEP
yeqontur_accepted yeqontur_replace(yeqontur_table table, uint32_t slot, uint32_t head, const uint32_t *positives,
                                   size_t positive_count, const uint32_t *negatives, size_t negative_count);

/* Mutes the rule in a slot, or unmutes it where `muted` is 0; any other number mutes. A muted rule is held and gives
 * nothing: who is in, at which depth and by which slot, what spoils a rule, reasons and repercussions go by the other
 * rules, those that are not muted. It counts where it matters what is held. Its atoms occur: an atom whose rules are
 * all muted is out. Justifications and consequences have it. The same rule is refused (5), and so is one that would
 * close a loop with it (7); so unmuting closes none and never meets 7. What is set already may be set again, which
 * changes nothing; a rule that was not muted, muted and unmuted again, leaves the table byte for byte as it was. Asks
 * 15, 8, 9. */
YEQONTUR_KEEP
yeqontur_accepted yeqontur_mute(yeqontur_table table, uint32_t slot, uint32_t muted);

/* The label of an atom: absent, out, or in with its least depth and supporting slot, which is never that of a muted
 * rule. For an atom that is not in, `depth` and `slot` are 0, and for a refusal `state` too. Asks 15, 10. */
yeqontur_label_answer yeqontur_label(yeqontur_table table, uint32_t atom);

/* The labels of all atoms that occur, in one call: of each, ascending, four numbers, which are the atom, its state
 * (YEQONTUR_LABEL_OUT or _IN), its depth and its supporting slot, as yeqontur_label tells them. An atom that is not
 * among them is absent. A screen with many labels asks this once, and not each label by itself. YEQONTUR_LABEL_NUMBERS
 * entries are never too short. Refused, `count` is 0, but with 11 it is the number of entries needed; so it is for
 * every call with a buffer. Asks 15, 11. */
yeqontur_list_answer yeqontur_labels(yeqontur_table table, uint32_t *buffer, size_t length);

/* The rule in a slot, muted or not. Refused, every number but `refused` is 0. Asks 15, 8, 9. */
yeqontur_rule_answer yeqontur_rule(yeqontur_table table, uint32_t slot);

/* Whether the rule in a slot is valid, or its first entry that spoils it, positive list first and each list ascending:
 * a positive entry spoils if it is out ("needs"), a negative one if it is in ("blocked by"). An atom may stand in both
 * lists; the answer says which of them is meant, and the place in it. Of a muted rule it is told that it is muted, and
 * not whether its entries would spoil it. For a valid rule, a muted one or a refusal, `atom` and `place` are 0, and for
 * a refusal `spoiled` too. Asks 15, 8, 9. */
yeqontur_spoiler_answer yeqontur_spoiler(yeqontur_table table, uint32_t slot);

/* The slots of the rules with this head, and the heads of the rules with this entry, muted rules among them; all atoms
 * whose label rests on this one, directly or through others. Each ascending, without repeats. Each asks 15, 10, 11. */
yeqontur_list_answer yeqontur_justifications(yeqontur_table table, uint32_t atom, uint32_t *buffer, size_t length);
yeqontur_list_answer yeqontur_consequences(yeqontur_table table, uint32_t atom, uint32_t *buffer, size_t length);
yeqontur_list_answer yeqontur_repercussions(yeqontur_table table, uint32_t atom, uint32_t *buffer, size_t length);

/* Why an atom is in: the supporting slots of all atoms that it rests on, by depth and then by atom number, so that
 * facts come first and its own slot last. Asks 15, 10, 12, 11. */
yeqontur_list_answer yeqontur_reason(yeqontur_table table, uint32_t atom, uint32_t *buffer, size_t length);

/* Saves the table: writes its file, which has the rules with their slots and says which are muted, one block of 512
 * bytes for each 22 rules begun, at least one. Labels are not in it. Equal tables have equal files. A version that
 * knows no muting refuses a file with a muted rule (19). The bytes go to the start of the buffer and `count` is how
 * many; later ones stay. Refused, no byte is written. YEQONTUR_FILE_BYTES are never too short. Asks 15, 11. */
YEQONTUR_KEEP
yeqontur_list_answer yeqontur_save(yeqontur_table table, uint8_t *bytes, size_t length);

/* The table of a file, of any bytes and any length: each rule stands in its slot again, muted if it was, and all labels
 * are found anew. What save wrote gives the saved table, byte for byte; and a file that is accepted is the one that
 * save writes of its table. Asks 16, 17, 18, 19, each of the whole file before the next. */
YEQONTUR_KEEP
yeqontur_loaded yeqontur_load(const uint8_t *bytes, size_t length);

/* A checklist is a table of 1 to 60 files, numbered from 1. Atom 0 is a fact, in slot 0. Each file has three atoms, and
 * slot i has the rule GOOD(i) < GOOD(i - 1), SENT(i), not SKIPPED(i): a file is good if it was sent, no skip of it
 * stands, and the files before it are good. "Complete" is the last file's good. A mark is the fact that one of these
 * files was sent or skipped; it stands in any other slot, and one that yeqontur_add put there counts too. A table with
 * any other rule, or without one of the frame's, which are those of slots 0 to the last file's, is no checklist (15);
 * nor is one with a muted rule, frame or mark, until that is unmuted. Label, spoiler, justifications and reason say why
 * a checklist is complete or is not; save and load keep it in a file.
 *
 * The rules alone say how many files there are. So yeqontur_remove of the last file's slot, where that file has no mark
 * and is not the only one, leaves a checklist of one file less, which may then be complete; and yeqontur_add of the
 * next file's rule, where it comes to its slot, makes one of one file more, up to 60. The same do yeqontur_replace of
 * the last file's rule by a mark of another file, and of a mark in the next file's slot by the rule of that file. And
 * while a mark is muted, yeqontur_label answers as if it were not there: of a skipped file whose skip is muted it may
 * say that it is good. The calls below then say 15. Who counts on a list changes it by the calls below alone, never by
 * yeqontur_add, yeqontur_remove, yeqontur_replace or yeqontur_mute. */

/* The atoms, for a file on the list: a huge number wraps. GOOD(0) is atom 0. */
#define YEQONTUR_SENT(i) (3 * (uint32_t)(i) - 2)
#define YEQONTUR_SKIPPED(i) (3 * (uint32_t)(i) - 1)
#define YEQONTUR_GOOD(i) (3 * (uint32_t)(i))

/* A checklist of so many files, none of them sent or skipped. Asks 21. */
YEQONTUR_KEEP
yeqontur_accepted yeqontur_checklist_open(uint32_t files);

/* The file was sent; it was skipped; its skip is withdrawn. A skipped file may be sent and a sent one skipped: both
 * marks then stand. Each asks 15, 20, 22. */
YEQONTUR_KEEP
yeqontur_accepted yeqontur_checklist_sent(yeqontur_table table, uint32_t file);
YEQONTUR_KEEP
yeqontur_accepted yeqontur_checklist_skipped(yeqontur_table table, uint32_t file);
YEQONTUR_KEEP
yeqontur_accepted yeqontur_checklist_withdraw(yeqontur_table table, uint32_t file);

/* The files that are unsent or have a skip standing, ascending; where it is not refused, none exactly if the checklist
 * is complete. YEQONTUR_MOST_FILES entries are never too short. Asks 15, 11. */
yeqontur_list_answer yeqontur_checklist_missing(yeqontur_table table, uint32_t *buffer, size_t length);

/* Whether every file was sent and no skip stands. Asks 15. */
yeqontur_complete_answer yeqontur_checklist_complete(yeqontur_table table);

/* The calls that change a table or hand one back, on a table in place. Each answers `refused`. Accepted, `*table` is
 * the new one; refused, `*table` stays as it is, also where a file is loaded or a checklist opened: what the caller has
 * is worth more than the empty table. Each reads the table, and then writes it; it belongs to one thread at a time. */

/* Not to be called by clients: what they have in common. */
static inline uint32_t yeqontur_kept(yeqontur_table *table, uint32_t refused, const yeqontur_table *after) {
    if (refused == YEQONTUR_ACCEPTED) {
        *table = *after;
    }
    return refused;
}

/* yeqontur_add in place. `slot` gets the slot that the rule took; it may be NULL, and stays where the call is refused.
 * The table belongs to one thread at a time. */
YEQONTUR_KEEP
static inline uint32_t yeqontur_add_to(yeqontur_table *table, uint32_t head, const uint32_t *positives,
                                       size_t positive_count, const uint32_t *negatives, size_t negative_count,
                                       uint32_t *slot) {
    const yeqontur_change answer = yeqontur_add(*table, head, positives, positive_count, negatives, negative_count);
    if (slot != NULL && answer.refused == YEQONTUR_ACCEPTED) {
        *slot = answer.slot;
    }
    return yeqontur_kept(table, answer.refused, &answer.table);
}

/* yeqontur_remove in place. The table belongs to one thread at a time. */
YEQONTUR_KEEP
static inline uint32_t yeqontur_remove_from(yeqontur_table *table, uint32_t slot) {
    const yeqontur_change answer = yeqontur_remove(*table, slot);
    return yeqontur_kept(table, answer.refused, &answer.table);
}

/* yeqontur_replace in place. The table belongs to one thread at a time. */
YEQONTUR_KEEP
static inline uint32_t yeqontur_replace_in(yeqontur_table *table, uint32_t slot, uint32_t head,
                                           const uint32_t *positives, size_t positive_count,
                                           const uint32_t *negatives, size_t negative_count) {
    const yeqontur_accepted answer =
        yeqontur_replace(*table, slot, head, positives, positive_count, negatives, negative_count);
    return yeqontur_kept(table, answer.refused, &answer.table);
}

/* yeqontur_mute in place. The table belongs to one thread at a time. */
YEQONTUR_KEEP
static inline uint32_t yeqontur_mute_in(yeqontur_table *table, uint32_t slot, uint32_t muted) {
    const yeqontur_accepted answer = yeqontur_mute(*table, slot, muted);
    return yeqontur_kept(table, answer.refused, &answer.table);
}

/* yeqontur_load in place. The table belongs to one thread at a time. */
YEQONTUR_KEEP
static inline uint32_t yeqontur_load_into(yeqontur_table *table, const uint8_t *bytes, size_t length) {
    const yeqontur_loaded answer = yeqontur_load(bytes, length);
    return yeqontur_kept(table, answer.refused, &answer.table);
}

/* yeqontur_checklist_open in place. The table belongs to one thread at a time. */
YEQONTUR_KEEP
static inline uint32_t yeqontur_checklist_open_into(yeqontur_table *table, uint32_t files) {
    const yeqontur_accepted answer = yeqontur_checklist_open(files);
    return yeqontur_kept(table, answer.refused, &answer.table);
}

/* yeqontur_checklist_sent in place. The table belongs to one thread at a time. */
YEQONTUR_KEEP
static inline uint32_t yeqontur_checklist_sent_in(yeqontur_table *table, uint32_t file) {
    const yeqontur_accepted answer = yeqontur_checklist_sent(*table, file);
    return yeqontur_kept(table, answer.refused, &answer.table);
}

/* yeqontur_checklist_skipped in place. The table belongs to one thread at a time. */
YEQONTUR_KEEP
static inline uint32_t yeqontur_checklist_skipped_in(yeqontur_table *table, uint32_t file) {
    const yeqontur_accepted answer = yeqontur_checklist_skipped(*table, file);
    return yeqontur_kept(table, answer.refused, &answer.table);
}

/* yeqontur_checklist_withdraw in place. The table belongs to one thread at a time. */
YEQONTUR_KEEP
static inline uint32_t yeqontur_checklist_withdraw_in(yeqontur_table *table, uint32_t file) {
    const yeqontur_accepted answer = yeqontur_checklist_withdraw(*table, file);
    return yeqontur_kept(table, answer.refused, &answer.table);
}

#ifdef __cplusplus
}
#endif

#endif
