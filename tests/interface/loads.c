/* A host that loads images: the answers beside those of fir_check, that an image that is not loaded leaves no version in the table, that
 * every place around the table stays, what stands in a table that is filled, and that a table of any bytes has an answer. */
#include <stdio.h>
#include <stdlib.h>

#include "images.h"

enum { MARGIN = 8, UNTOUCHED = 0xa5, NUMBERS = FIR_FUNCTIONS * FIR_VERSIONS, VERSION_BYTES = 2 * NUMBERS, BLOCKS = 8, RECORDS = 2304 };

static unsigned tests;
static image tried;
static uint8_t memory[MARGIN + FIR_TABLE_BYTES(FIR_IMAGE_BYTES) + MARGIN];
static uint8_t *const table = memory + MARGIN;
static fir_state state;
static int64_t buffer[FIR_ITEMS];
static const int64_t words[] = {-1, 40};

static void same(const char *what, size_t is, size_t wanted)
{
    tests++;
    if (is != wanted) {
        printf("loads: %s is %lu and not %lu\n", what, (unsigned long)is, (unsigned long)wanted);
        exit(1);
    }
}

/* The number that two bytes of the table make. */
static size_t two(size_t at)
{
    return table[at] + 256u * table[at + 1];
}

/* How many versions a table of so many bytes has. */
static size_t versions(size_t length)
{
    size_t at, count = 0;
    for (at = 0; at + 1 < VERSION_BYTES && at + 1 < length; at += 2)
        count += two(at) != 0;
    return count;
}

/* Asserts that the first bytes of a table of so many say that there is no version, and that no run begins. */
static void empty(size_t image_length, size_t length)
{
    size_t at;
    for (at = 0; at < VERSION_BYTES && at < length; at++)
        same("a byte of a table without versions", table[at], 0);
    same("the question of a run",
         fir_begin(tried.bytes, image_length, table, length, FIR_FACTORY, 0, 0, words, 2, buffer, FIR_ITEMS, &state).question,
         FIR_REFUSED_ENTRY);
}

/* Asserts what the load of some bytes into a table of so many answers and leaves. */
static void loads(size_t image_length, size_t length)
{
    fir_verdict verdict = fir_check(tried.bytes, image_length);
    size_t at, needed = FIR_TABLE_BYTES(image_length);
    fir_loaded is;
    memset(memory, UNTOUCHED, sizeof memory);
    is = fir_load(tried.bytes, image_length, table, length);
    if (verdict.question != FIR_ACCEPTED) {
        same("the code of a refusal", is.code, FIR_REFUSED);
        same("its question", is.question, verdict.question);
        same("its offset", is.detail, verdict.detail);
        empty(image_length, length);
    } else if (length < needed) {
        same("the code of a short table", is.code, FIR_SHORT);
        same("its question", is.question, 0);
        same("the bytes that it needs", is.detail, needed);
        empty(image_length, length);
    } else {
        same("the code of a load", is.code, FIR_LOADED);
        same("its question", is.question, 0);
        same("its number of versions", is.detail, verdict.detail);
        same("the versions of the table", versions(length), verdict.detail);
    }
    for (at = 0; at < MARGIN; at++)
        same("a place before the table", memory[at], UNTOUCHED);
    for (at = MARGIN + length; at < sizeof memory; at++)
        if (memory[at] != UNTOUCHED)
            same("a place past the table", memory[at], UNTOUCHED);
}

/* Asserts that each record of the image stands in the table as the layout of a table says: the place of each version under its
 * number, for each block the number of its record, and for each block and instruction its kind, five bytes and its place. */
static void holds(void)
{
    size_t at, field, record = 0, number = 0, block = 0;
    loads(tried.length, sizeof memory - 2 * MARGIN);
    for (at = 0; at < tried.length; at += tried.bytes[at] + 256u * tried.bytes[at + 1]) {
        const uint8_t kind = tried.bytes[at + 2];
        if (kind == VERSION) {
            number = (size_t)FIR_VERSIONS * tried.bytes[at + 4] + tried.bytes[at + 5];
            same("the place of a version", two(2 * number), at + 2);
            block = 0;
        }
        if (kind == VERSION || kind == LEVEL)
            continue;
        if (kind == BLOCK)
            same("the record of a block", two(2 * (NUMBERS + BLOCKS * number + block++)), record);
        same("the kind of a record", table[RECORDS + 8 * record], kind);
        for (field = 0; field < 5; field++)
            same("a byte of a record", table[RECORDS + 8 * record + 1 + field],
                 at + 4 + field < tried.length ? tried.bytes[at + 4 + field] : 0);
        same("the place of a record", two(RECORDS + 8 * record + 6), at + 2);
        record++;
    }
}

/* The image at hand in tables of all kinds of lengths, its beginnings, and what a filled table holds. */
static void tries(void)
{
    size_t needed = FIR_TABLE_BYTES(tried.length), cut;
    same("whether the image is accepted", fir_check(tried.bytes, tried.length).question, FIR_ACCEPTED);
    loads(tried.length, needed);
    loads(tried.length, needed - 1);
    loads(tried.length, VERSION_BYTES);
    loads(tried.length, VERSION_BYTES - 1);
    loads(tried.length, 1);
    loads(tried.length, 0);
    for (cut = 0; cut < tried.length && cut < 512; cut++)
        loads(cut, needed);
    holds();
}

/* Tables of any bytes: every call answers something that is listed, and a stuck step leaves the state. */
static void any_bytes(void)
{
    static fir_state before;
    uint64_t random = 88172645463325252u;
    unsigned round;
    size_t at;
    nested(&tried);
    for (round = 0; round < 2000; round++) {
        loads(tried.length, sizeof memory - 2 * MARGIN);
        for (at = 0; at < 1 + round % 40u; at++) {
            random ^= random << 13;
            random ^= random >> 7;
            random ^= random << 17;
            table[random % (RECORDS + 200)] = (uint8_t)(random >> 32);
        }
        fir_begin(tried.bytes, tried.length, table, FIR_TABLE_BYTES(tried.length), FIR_FACTORY, 0, 0, words, 2, buffer, FIR_ITEMS, &state);
        for (at = 0; at < 20; at++) {
            fir_said said;
            memcpy(&before, &state, sizeof state);
            said = fir_step(tried.bytes, tried.length, table, FIR_TABLE_BYTES(tried.length), &state);
            same("whether the code is listed", said.code <= FIR_STUCK, 1);
            if (said.code == FIR_STUCK)
                same("a stuck state's difference", memcmp(&before, &state, sizeof state) != 0, 0);
        }
    }
}

int main(void)
{
    size_t length;
    for (length = 0; length <= 2 * FIR_IMAGE_BYTES; length++) {
        size_t counts = length < FIR_IMAGE_BYTES ? length : FIR_IMAGE_BYTES;
        if (fir_table_size(length) != FIR_TABLE_BYTES(counts))
            same("the bytes of a table", fir_table_size(length), FIR_TABLE_BYTES(counts));
    }
    same("the bytes of a table for any length", fir_table_size((size_t)-1), FIR_TABLE_BYTES(FIR_IMAGE_BYTES));
    countdown(&tried, 40);
    tries();
    chain(&tried, FIR_FUNCTIONS);
    tries();
    nested(&tried);
    tries();
    searching(&tried, FIR_VERSIONS, FIR_VERSIONS);
    tries();
    literals(&tried, FIR_FORM_64, 64, 37);
    tries();
    literals(&tried, FIR_FORM_32, 64, 37);
    loads(tried.length, sizeof memory - 2 * MARGIN);
    any_bytes();
    printf("loads: %u passed\n", tests);
    return 0;
}
