/* Saved tables from C: what is written and what stays, what is read again, and every refusal of a file. */
#include "yeqontur.h"

#include "expect.h"
#include "tables.h"

#include <string.h>

#define BLOCK 512
_Static_assert(YEQONTUR_FILE_BYTES == 12 * BLOCK, "256 rules, 22 to a block");
#define RECORD(place) (6 + 22 * (size_t)(place))

/* A file to be changed, with a byte behind it for one that is too long. */
typedef struct {
    uint8_t bytes[YEQONTUR_FILE_BYTES + 1];
    size_t length;
} file;

/* A table of so many facts, in the slots from 0. */
static yeqontur_table facts(uint32_t count) {
    yeqontur_table table = yeqontur_empty();
    for (uint32_t atom = 0; atom < count; atom++) {
        table = fact(table, atom);
    }
    return table;
}

/* One rule, 9 < 1, 2, not 7, not 8. */
static yeqontur_table one_rule(void) {
    const uint32_t positives[] = {2, 1}, negatives[] = {7, 8};
    return added(yeqontur_empty(), 9, positives, 2, negatives, 2);
}

static yeqontur_table muted(yeqontur_table table, uint32_t slot) {
    const yeqontur_accepted answer = yeqontur_mute(table, slot, 1);
    expect(answer.refused == 0, "an accepted muting");
    return answer.table;
}

static file saved(yeqontur_table table) {
    file f;
    const yeqontur_list_answer answer = yeqontur_save(table, f.bytes, YEQONTUR_FILE_BYTES);
    expect(answer.refused == 0, "a sound table is saved");
    f.length = answer.count;
    return f;
}

/* Writes a number, low byte first. */
static void put(file *f, size_t at, uint32_t number) {
    f->bytes[at] = (uint8_t)number;
    f->bytes[at + 1] = (uint8_t)(number >> 8);
}

/* Puts the right checksum into each block. */
static void seal(file *f) {
    for (size_t block = 0; block + BLOCK <= f->length; block += BLOCK) {
        uint32_t a = 1, b = 0;
        for (size_t i = 0; i < 508; i++) {
            a = (a + f->bytes[block + i]) % 65536;
            b = (b + a) % 65536;
        }
        put(f, block + 508, a);
        put(f, block + 510, b);
    }
}

static void refused(const file *f, uint32_t number, const char *what) {
    const yeqontur_table empty = yeqontur_empty();
    const yeqontur_loaded loaded = yeqontur_load(f->bytes, f->length);
    expect(loaded.refused == number, what);
    expect(memcmp(&loaded.table, &empty, sizeof empty) == 0, "a refused file hands back the empty table");
}

/* The table's file with one number changed and right checksums is refused so. */
static void changed(yeqontur_table table, size_t at, uint32_t value, uint32_t number, const char *what) {
    file f = saved(table);
    put(&f, at, value);
    seal(&f);
    refused(&f, number, what);
}

/* A buffer of this length: all of the file and the rest as it was, or no byte. */
static void lent(const yeqontur_table *table, const file *whole, size_t length) {
    uint8_t buffer[YEQONTUR_FILE_BYTES + 8], blank[YEQONTUR_FILE_BYTES + 8];
    memset(buffer, 0xA5, sizeof buffer);
    memset(blank, 0xA5, sizeof blank);
    const yeqontur_list_answer answer = yeqontur_save(*table, buffer, length);
    expect(answer.count == whole->length, "saving tells how many bytes were written or are needed");
    if (length < whole->length) {
        expect(answer.refused == 11 && memcmp(buffer, blank, sizeof blank) == 0, "a short buffer stays as it was");
    } else {
        memcpy(blank, whole->bytes, whole->length);
        expect(answer.refused == 0 && memcmp(buffer, blank, sizeof blank) == 0, "later bytes of a buffer stay");
    }
}

/* The table comes back byte for byte, its file is of this many blocks, and buffers of every kind are written right. */
static void survives(yeqontur_table table, size_t blocks) {
    const file f = saved(table);
    expect(f.length == blocks * BLOCK, "a block for each 22 rules begun, at least one");
    const yeqontur_loaded loaded = yeqontur_load(f.bytes, f.length);
    expect(loaded.refused == 0 && memcmp(&loaded.table, &table, sizeof table) == 0, "a saved table comes back");
    const file again = saved(loaded.table);
    expect(again.length == f.length && memcmp(again.bytes, f.bytes, f.length) == 0, "and has the same file");
    const size_t lengths[] = {0, 1, f.length - 1, f.length, f.length + 1, f.length + 8};
    for (int i = 0; i < 6; i++) {
        lent(&table, &f, lengths[i]);
    }
}

static void tables(void) {
    survives(yeqontur_empty(), 1);
    survives(one_rule(), 1);
    survives(facts(22), 1);
    survives(facts(23), 2);
    survives(facts(256), 12);
    survives(yeqontur_remove(facts(23), 7).table, 1);
    survives(muted(one_rule(), 0), 1);
    survives(muted(muted(facts(256), 0), 255), 12);
}

/* By hand: A is 1 and the sum of the bytes. B is 1 for each of the 508 bytes, and each byte for itself and for those
 * behind it: the head, at 8, counts 500 times. */
static void one_block(void) {
    const uint8_t start[] = {0, 0, 1, 0, 1, 0, 0, 0, 9, 0, 2, 2, 1, 0, 2, 0, 7, 0, 8};
    const file f = saved(one_rule());
    expect(memcmp(f.bytes, start, sizeof start) == 0, "the first bytes of a file");
    int rest = 0;
    for (size_t i = sizeof start; i < 508; i++) {
        rest |= f.bytes[i];
    }
    expect(rest == 0, "what is not used is 0");
    const uint32_t a = 1 + 1 + 1 + 9 + 2 + 2 + 1 + 2 + 7 + 8;
    const uint32_t b = 508 + 506 + 504 + 9 * 500 + 2 * 498 + 2 * 497 + 496 + 2 * 494 + 7 * 492 + 8 * 490;
    expect(f.bytes[508] == a && f.bytes[509] == 0, "A");
    expect(f.bytes[510] == b % 256 && f.bytes[511] == b / 256, "B");
}

/* Every byte of a file, each changed by something else. */
static void one_byte(yeqontur_table table) {
    file f = saved(table);
    int told = 1;
    for (size_t at = 0; at < f.length; at++) {
        const uint8_t change = (uint8_t)(1 + at % 255);
        f.bytes[at] ^= change;
        told &= yeqontur_load(f.bytes, f.length).refused == 17;
        f.bytes[at] ^= change;
    }
    expect(told, "one changed byte anywhere is refused 17");
    f.bytes[100] ^= 1;
    refused(&f, 17, "a changed byte is refused 17");
}

static void lengths(void) {
    file f = saved(facts(256));
    f.length = 0;
    refused(&f, 16, "no bytes are refused 16");
    for (size_t whole = 0; whole <= 12; whole++) {
        f.length = BLOCK * whole + 1;
        refused(&f, 16, "a byte more than so many blocks is refused 16");
    }
    for (size_t whole = 1; whole <= 12; whole++) {
        f.length = BLOCK * whole - 1;
        refused(&f, 16, "a byte less than so many blocks is refused 16");
    }
}

static void blocks(void) {
    const yeqontur_table table = facts(23);
    changed(table, 0, 1, 18, "a wrong index");
    changed(table, BLOCK, 0, 18, "a wrong index of the second block");
    changed(table, 2, 1, 18, "a wrong block count");
    changed(table, BLOCK + 2, 3, 18, "a wrong block count of the second block");
    changed(table, 4, 21, 18, "a block before the last that is not full");
    changed(table, 4, 23, 18, "more records than a block has places");
    changed(table, BLOCK + 4, 0, 18, "a last block without records");
    changed(table, BLOCK + 4, 23, 18, "more records than the last block has places");
    file f = saved(table);
    f.length = BLOCK;
    refused(&f, 18, "a file that lost its last block");
}

static void records(void) {
    const yeqontur_table one = one_rule(), many = facts(23);
    const size_t at = RECORD(0);
    changed(one, at + 14, 1, 19, "an unused entry that is not 0");
    changed(one, RECORD(21) + 20, 1, 19, "an unused place that is not 0");
    changed(one, 490, 1, 19, "filler that is not 0");
    changed(yeqontur_empty(), 506, 256, 19, "filler of the empty table that is not 0");
    changed(many, RECORD(1), 0, 19, "two records of one slot");
    changed(many, RECORD(1), 5, 19, "slots that do not ascend");
    changed(many, BLOCK + at, 21, 19, "a slot of the block before");
    changed(many, BLOCK + at, 256, 19, "a slot that is not below 256");
    changed(one, at + 2, 256, 19, "a head that is not below 256");
    changed(one, at + 4, 5 * 256 + 4, 19, "more than 8 entries");
    changed(one, at + 8, 256, 19, "a positive entry that is not below 256");
    changed(one, at + 12, 65535, 19, "a negative entry that is not below 256");
    changed(one, at + 6, 2, 19, "an atom twice in a list");
    changed(one, at + 6, 3, 19, "a positive list that does not ascend");
    changed(one, at + 12, 6, 19, "a negative list that does not ascend");
    changed(many, RECORD(1) + 2, 0, 19, "the same rule twice");
    changed(one, at + 2, 7, 19, "a loop through a negation");
}

/* The top bit of a positive count says that the rule is muted, and changes nothing else: the other bits are the count,
 * and the questions are those of any rule. A bit more of another count, or of a place without a record, is wrong. */
static void muted_records(void) {
    const yeqontur_table one = one_rule(), many = facts(23);
    const size_t at = RECORD(0);
    const file f = saved(muted(one, 0));
    expect(f.bytes[at + 4] == 0x82 && f.bytes[at + 5] == 2, "2 positives, muted, and 2 negatives");
    changed(one, at + 4, 2 * 256 + 0x83, 19, "a muted rule with a wrong count");
    changed(one, at + 4, 4 * 256 + 0x85, 19, "a muted rule of more than 8 entries");
    changed(one, at + 4, 255 * 256 + 0xFF, 19, "counts whose sum wraps");
    changed(one, at + 4, 0x82 * 256 + 2, 19, "the top bit of a negative count");
    changed(one, RECORD(1) + 4, 0x80, 19, "the top bit in an unused place");
    changed(muted(one, 0), at + 2, 256, 19, "a muted rule whose head is not below 256");
    changed(muted(one, 0), at + 6, 3, 19, "a muted rule whose list does not ascend");
    changed(muted(one, 0), at + 2, 7, 19, "a muted rule that is a loop through a negation");
    changed(muted(many, 1), RECORD(1) + 2, 0, 19, "a muted rule that another slot has");
}

/* Three blocks, with this number at this place of the first one and right checksums, are refused so; with a wrong
 * checksum of the last block 17, and with a byte more 16. */
static void first_block(size_t at, uint32_t value, uint32_t number) {
    file f = saved(facts(45));
    put(&f, at, value);
    seal(&f);
    refused(&f, number, "18 or 19 of the first block where no other is");
    f.bytes[3 * BLOCK - 1] ^= 1;
    refused(&f, 17, "17 of the last block before 18 or 19 of the first");
    f.length++;
    refused(&f, 16, "16 before all");
}

/* Of two faults the one that is asked for later stands in the first block, and the one that is asked for first in the
 * last: whoever asked block by block would tell the other one. */
static void order(void) {
    const size_t index = 0, unused = 506;
    first_block(index, 7, 18);
    first_block(unused, 1, 19);
    file f = saved(facts(45));
    put(&f, unused, 1);
    put(&f, 2 * BLOCK + index, 7);
    seal(&f);
    refused(&f, 18, "18 of the last block before 19 of the first");
}

static void unsound(void) {
    uint8_t buffer[YEQONTUR_FILE_BYTES], blank[YEQONTUR_FILE_BYTES];
    yeqontur_table table = one_rule();
    (*word(&table, 0, DEPTH))++;
    memset(buffer, 0xA5, sizeof buffer);
    memset(blank, 0xA5, sizeof blank);
    const yeqontur_list_answer answer = yeqontur_save(table, buffer, sizeof buffer);
    expect(answer.refused == 15 && answer.count == 0, "a table that is not sound is not saved");
    expect(memcmp(buffer, blank, sizeof blank) == 0, "and no byte is written");
}

int main(void) {
    tables();
    one_block();
    one_byte(facts(23));
    one_byte(muted(one_rule(), 0));
    one_byte(facts(256));
    lengths();
    blocks();
    records();
    muted_records();
    order();
    unsound();
    return counted("saved tables from C");
}
