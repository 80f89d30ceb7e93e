/* A host that asks how many steps the versions of an image can take: the rows in their order, large and none, and that every
 * place of both arrays stays but those of the rows. */
#include <stdio.h>
#include <stdlib.h>

#include "images.h"

enum { MARGIN = 4, UNTOUCHED = 0xa5, CALLS = 24 };

#define PLAIN_STEPS 49 /* the most that a version of one block takes without a call */
#define UNWRITTEN 0xa5a5a5a5a5a5a5a5ULL

typedef struct row {
    unsigned function, version;
    uint64_t steps;
} row;

static unsigned tests;
static uint8_t numbers[2 * FIR_ROWS + 2 * MARGIN];
static uint64_t steps[FIR_ROWS + 2 * MARGIN];

static void same(const char *what, uint64_t is, uint64_t wanted)
{
    tests++;
    if (is != wanted) {
        printf("bounds: %s is %lu and not %lu\n", what, (unsigned long)is, (unsigned long)wanted);
        exit(1);
    }
}

/* Asserts that no place of the arrays is written but those of so many rows. */
static void rest_stays(size_t rows)
{
    size_t at;
    for (at = 0; at < sizeof numbers; at++)
        if (at < MARGIN || at >= MARGIN + 2 * rows)
            same("a place beside the numbers", numbers[at], UNTOUCHED);
    for (at = 0; at < sizeof steps / sizeof *steps; at++)
        if (at < MARGIN || at >= MARGIN + rows)
            same("a place beside the steps", steps[at], UNWRITTEN);
}

/* What is answered for the first bytes of an image, into arrays that nothing was written to. */
static fir_verdict asked(const image *of, size_t length)
{
    memset(numbers, UNTOUCHED, sizeof numbers);
    memset(steps, UNTOUCHED, sizeof steps);
    return fir_bounds(of->bytes, length, numbers + MARGIN, steps + MARGIN);
}

/* Asserts the rows of an image. */
static void lists(const image *of, const row *rows, size_t count)
{
    fir_verdict listed = asked(of, of->length);
    size_t i;
    same("the question", listed.question, FIR_ACCEPTED);
    same("the number of rows", listed.detail, count);
    for (i = 0; i < count; i++) {
        same("a function", numbers[MARGIN + 2 * i], rows[i].function);
        same("a version", numbers[MARGIN + 2 * i + 1], rows[i].version);
        same("a bound", steps[MARGIN + i], rows[i].steps);
    }
    rest_stays(count);
}

/* Asserts that the first bytes of an image are refused as fir_check does, and nothing is written. */
static void refuses(const image *of, size_t length, unsigned question)
{
    fir_verdict listed = asked(of, length), checked = fir_check(of->bytes, length);
    same("the question of a refusal", listed.question, question);
    same("the question that fir_check gives", checked.question, question);
    same("the offset of a refusal", listed.detail, checked.detail);
    rest_stays(0);
}

/* Functions that call the next one 24 times, the first of which takes exactly so many steps. */
static size_t exactly(image *to, uint64_t wanted)
{
    uint8_t function = 0;
    to->length = 0;
    for (;; function++) {
        uint64_t calls = wanted > PLAIN_STEPS ? CALLS : 0;
        uint64_t plain = calls == 0 ? wanted - 1 : (wanted - 1) % CALLS, i;
        RECORD(to, VERSION, function, 0, 0, 1, 2, 1, 2);
        RECORD(to, LEVEL, FIR_PORTAL);
        RECORD(to, BLOCK, 0, 0, (uint8_t)(plain + calls));
        for (i = 0; i < plain; i++)
            RECORD(to, LIT, 0, 1, 0, 0, 0, 0, 0, 0, 0);
        for (i = 0; i < calls; i++)
            RECORD(to, CALL, 0, (uint8_t)(function + 1), 0, 0);
        if (calls == 0)
            return function + 1u;
        wanted = (wanted - 1) / CALLS - 1;
    }
}

/* The bound of 0.0 of such an image, which is listed last. */
static uint64_t bound_of(uint64_t wanted)
{
    static image made;
    size_t functions = exactly(&made, wanted);
    fir_verdict listed = asked(&made, made.length);
    same("the question of a chain", listed.question, FIR_ACCEPTED);
    same("the rows of a chain", listed.detail, functions);
    same("the function listed last", numbers[MARGIN + 2 * (functions - 1)], 0);
    rest_stays(functions);
    return steps[MARGIN + functions - 1];
}

/* 0.0 of site staff searches 1.0 to 1.2: the longest is the factory's, the last but one in length site staff's. */
static void levels(void)
{
    static const row wanted[] = {{1, 0, 2}, {1, 1, 3}, {0, 0, 5}, {1, 2, 5}};
    static const uint8_t level[] = {FIR_PORTAL, FIR_STAFF, FIR_FACTORY};
    static const uint8_t length[] = {1, 2, 4};
    static image made;
    uint8_t v, i;
    made.length = 0;
    RECORD(&made, VERSION, 0, 0, 1, 1, 2, 1, 2);
    RECORD(&made, LEVEL, FIR_STAFF);
    RECORD(&made, BLOCK, 0, 0, 1);
    RECORD(&made, DISPATCH, 0, 1, 0, 2, 1, 2, 0);
    for (v = 0; v < sizeof level; v++) {
        RECORD(&made, VERSION, 1, v, 1, 1, 2, 1, 2);
        RECORD(&made, LEVEL, level[v]);
        RECORD(&made, BLOCK, 0, 0, length[v]);
        for (i = 0; i < length[v]; i++)
            RECORD(&made, ARITH, 0, 4, 0, 0);
    }
    lists(&made, wanted, sizeof wanted / sizeof *wanted);
}

/* A version that calls itself, beside one that does not. */
static void loops(void)
{
    static const row itself[] = {{0, 0, FIR_NONE}};
    static image made;
    countdown(&made, 3);
    lists(&made, itself, 1);
}

/* 64 versions without a call, in order of number: all places are written. */
static void many(void)
{
    static row wanted[FIR_ROWS];
    static image made;
    unsigned v;
    literals(&made, FIR_FORM_64, FIR_ROWS, 37);
    for (v = 0; v < FIR_ROWS; v++) {
        wanted[v].function = v / FIR_VERSIONS;
        wanted[v].version = v % FIR_VERSIONS;
        wanted[v].steps = 39;
    }
    lists(&made, wanted, FIR_ROWS);
}

/* A chain of 32 functions, listed from the last to the first. */
static void chained(void)
{
    static row wanted[FIR_FUNCTIONS];
    static image made;
    unsigned f;
    chain(&made, FIR_FUNCTIONS);
    for (f = 0; f < FIR_FUNCTIONS; f++) {
        wanted[f].function = FIR_FUNCTIONS - 1 - f;
        wanted[f].steps = 49 * (f + 1u);
    }
    lists(&made, wanted, FIR_FUNCTIONS);
}

int main(void)
{
    static const row called[] = {{0, 1, 1}, {0, 0, 3}};
    static image made;
    calling(&made, FIR_STAFF, FIR_PORTAL);
    lists(&made, called, 2);
    refuses(&made, 0, FIR_REFUSED_SIZE);
    refuses(&made, made.length - 1, FIR_REFUSED_RECORDS);
    refuses(&made, made.length - 7, FIR_REFUSED_BOUNDS);
    calling(&made, FIR_PORTAL, FIR_STAFF);
    refuses(&made, made.length, FIR_REFUSED_CALLS);
    literals(&made, FIR_FORM_32, 1, 1);
    refuses(&made, made.length, FIR_REFUSED_KINDS);
    levels();
    loops();
    many();
    chained();
    same("a bound of 1,000", bound_of(1000), 1000);
    same("a bound of 4,294,967,295", bound_of(FIR_LARGE - 1), FIR_LARGE - 1);
    same("a bound of one more", bound_of(FIR_LARGE), FIR_LARGE);
    same("a bound of two more", bound_of(FIR_LARGE + 1), FIR_LARGE);
    same("a bound that no number holds", bound_of(UINT64_MAX), FIR_LARGE);
    printf("bounds: %u passed\n", tests);
    return 0;
}
