/* What fir_watch fills and answers: a record for each register of the topmost call, in order, also while a block of an older call is
 * forced; nothing with no live call; 22 where the list is too short. Records past the last register stay, and so does the state. */
#include <stdio.h>
#include <stdlib.h>

#include "images.h"

#define NOISE 0xa5
#define OUTER 3 /* registers of 0.0 */
#define INNER 2 /* and of 1.0 */
#define BEFORE_CALL 2
#define FORCED 4 /* steps up to the block of 0.0 that 1.0 forces */

static unsigned tests;
static image tried;
static fir_state state, before;
static fir_row rows[FIR_REGISTERS + 1], noise;
static int64_t buffer[FIR_ITEMS];
static const int64_t words[] = {-1, 7};

static void same(const char *what, const char *field, long long is, long long wanted)
{
    tests++;
    if (is != wanted) {
        printf("watch: %s: the %s is %lld and not %lld\n", what, field, is, wanted);
        exit(1);
    }
}

/* 0.0 makes a vector and a promise and gives both to 1.0, which forces the promise: its block gives the length of the vector. */
static void watched_image(void)
{
    tried.length = 0;
    RECORD(&tried, VERSION, 0, 0, 1, OUTER, 2, 2, 2, 3, 4);
    RECORD(&tried, LEVEL, FIR_PORTAL);
    RECORD(&tried, BLOCK, 0, 0, 3);
    RECORD(&tried, VEC, 1, 2, 0, 0);
    RECORD(&tried, PROM, 2, 1);
    RECORD(&tried, CALL, 0, 1, 0, 1, 2);
    RECORD(&tried, BLOCK, 0, 0, 1);
    RECORD(&tried, LEN, 0, 1);
    RECORD(&tried, VERSION, 1, 0, 1, INNER, 2, 1, 4, 2);
    RECORD(&tried, LEVEL, FIR_PORTAL);
    RECORD(&tried, BLOCK, 0, 1, 1);
    RECORD(&tried, FORCE, 1, 0);
}

/* Fills a list of so many records that held noise; asserts the answer, and what stays. */
static void watch(const char *what, size_t length, unsigned filled, unsigned question)
{
    fir_watched is;
    size_t i;
    memset(&noise, NOISE, sizeof noise);
    memset(rows, NOISE, sizeof rows);
    memcpy(&before, &state, sizeof state);
    is = fir_watch(LENT(tried), &state, rows, length);
    same(what, "count", is.filled, filled);
    same(what, "question", is.question, question);
    for (i = filled; i < sizeof rows / sizeof *rows; i++)
        same(what, "difference of a record behind", memcmp(&rows[i], &noise, sizeof noise) != 0, 0);
    same(what, "difference of the state", memcmp(&before, &state, sizeof state) != 0, 0);
}

/* Asserts a record: its type, what it holds, and that all else in it is 0. */
static void row(const char *what, unsigned r, unsigned declared, unsigned holds, int64_t integer, unsigned length, unsigned mark)
{
    unsigned i;
    same(what, "type", rows[r].declared, declared);
    same(what, "kind", rows[r].holds, holds);
    same(what, "integer", rows[r].integer, integer);
    same(what, "length", rows[r].length, length);
    same(what, "mark", rows[r].mark, mark);
    for (i = 0; i < FIR_ITEMS; i++)
        same(what, "item", rows[r].items[i], i < length ? words[1] : 0);
}

/* Takes so many steps of a new run. */
static void run(uint32_t steps)
{
    fir_run(LENT(tried), FIR_PORTAL, 0, 0, words, 2, steps, buffer, FIR_ITEMS, &state);
}

int main(void)
{
    size_t length;
    watched_image();
    same("the image", "code of its load", load(&tried), FIR_LOADED);
    for (length = 0; length <= FIR_REGISTERS + 1; length++) {
        run(0);
        if (length < OUTER) {
            watch("a list that is too short", length, 0, FIR_REFUSED_ROWS);
        } else {
            watch("before the first step", length, OUTER, FIR_ACCEPTED);
            row("the argument", 0, 2, FIR_IS_INTEGER, words[1], 0, 0);
            row("an empty vector's register", 1, 3, FIR_NOTHING, 0, 0, 0);
            row("an empty promise's register", 2, 4, FIR_NOTHING, 0, 0, 0);
        }
    }
    run(BEFORE_CALL);
    watch("before the call", OUTER, OUTER, FIR_ACCEPTED);
    row("the vector", 1, 3, FIR_IS_VECTOR, 0, 2, 0);
    row("the promise", 2, 4, FIR_IS_PROMISE, 0, 0, 0);
    run(FORCED);
    same("a forced block of the older call", "call that is worked on", state.stack[8 * 2 + 3], 0);
    watch("while it is forced", FIR_REGISTERS, INNER, FIR_ACCEPTED);
    row("the promise of the newest call", 0, 4, FIR_IS_PROMISE, 0, 0, 0);
    row("its register for the result", 1, 2, FIR_NOTHING, 0, 0, 0);
    run(100);
    same("the run", "status", state.status, FIR_INTEGER);
    for (length = 0; length <= FIR_REGISTERS + 1; length++)
        watch("with no live call", length, 0, FIR_ACCEPTED);
    searching(&tried, FIR_VERSIONS, FIR_VERSIONS);
    same("the image of UNDEF", "code of its load", load(&tried), FIR_LOADED);
    run(100);
    same("the run", "status", state.status, FIR_UNDEF);
    watch("after UNDEF", FIR_REGISTERS, 2, FIR_ACCEPTED);
    printf("watch: %u passed\n", tests);
    return 0;
}
