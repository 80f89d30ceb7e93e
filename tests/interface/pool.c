/* Eight runs in a pool: who gets a vector and who stops with VECTORS, what the pool says of each, how a start goes, and 21 in each
 * function for every pool and number that it refuses. What is refused writes nothing. */
#include <stdio.h>
#include <stdlib.h>

#include "images.h"

#define NOISE 0xa5
#define CALL_STEPS 16 /* of a call that hoards: 15 vectors, and the call of itself */
#define EACH_HOLDS 15
#define MANY 100000

static unsigned tests;
static image hoard, two, other;
static fir_pool pool, pool_before;
static fir_state state, state_before, plain;
static int64_t buffer[FIR_ITEMS], buffer_before[FIR_ITEMS];
static const int64_t words[] = {-1, 7};
static const int64_t vectors[] = {1, 30, 2, 40, 50};

static void same(const char *what, const char *field, long long is, long long wanted)
{
    tests++;
    if (is != wanted) {
        printf("pool: %s: the %s is %lld and not %lld\n", what, field, is, wanted);
        exit(1);
    }
}

/* 0.0 has two vectors and gives the length of the second. */
static void of_two(image *to)
{
    to->length = 0;
    RECORD(to, VERSION, 0, 0, 2, 3, 2, 1, 3, 3, 2);
    RECORD(to, LEVEL, FIR_STAFF);
    RECORD(to, BLOCK, 0, 2, 1);
    RECORD(to, LEN, 2, 1);
}

/* A pool in which the numbers 0 and 1 reserve so many, and the others none. */
static void make(uint8_t first, uint8_t second)
{
    uint8_t reserves[FIR_RUNS] = {0};
    reserves[0] = first;
    reserves[1] = second;
    memset(&pool, NOISE, sizeof pool);
    same("a pool", "question", fir_pool_make(reserves, &pool).question, FIR_ACCEPTED);
}

static fir_entry begin(image *of, const int64_t *given, size_t length, size_t number)
{
    return fir_pool_begin(LENT(*of), FIR_STAFF, 0, 0, given, length, buffer, FIR_ITEMS, &state, &pool, number);
}

static fir_answer budget(uint32_t steps, size_t number)
{
    return fir_pool_budget(LENT(hoard), &state, &pool, number, steps, buffer, FIR_ITEMS);
}

static void answered(const char *what, fir_answer is, unsigned code, uint32_t steps)
{
    same(what, "code", is.code, code);
    same(what, "steps", is.steps, steps);
}

/* Keeps all that may be written. */
static void keep(void)
{
    memset(buffer, NOISE, sizeof buffer);
    memcpy(buffer_before, buffer, sizeof buffer);
    memcpy(&state_before, &state, sizeof state);
    memcpy(&pool_before, &pool, sizeof pool);
}

/* Asserts that nothing of it was written. */
static void kept(const char *what)
{
    same(what, "difference of the pool", memcmp(&pool, &pool_before, sizeof pool) != 0, 0);
    same(what, "difference of the state", memcmp(&state, &state_before, sizeof state) != 0, 0);
    same(what, "difference of the buffer", memcmp(buffer, buffer_before, sizeof buffer) != 0, 0);
}

static void making(void)
{
    static const uint8_t over[][FIR_RUNS] = {{9, 8, 8, 8, 8, 8, 8, 8}, {32, 32, 32, 32, 32, 32, 32, 32}, {0, 0, 0, 0, 0, 0, 0, 65},
                                             {255, 255, 255, 255, 255, 255, 255, 255}, {64, 192, 0, 0, 0, 0, 0, 0}};
    static const uint8_t all[FIR_RUNS] = {8, 8, 8, 8, 8, 8, 8, 8};
    size_t i;
    fir_entry made;
    for (i = 0; i < sizeof over / sizeof *over; i++) {
        memset(&pool, NOISE, sizeof pool);
        keep();
        made = fir_pool_make(over[i], &pool);
        same("reserves above 64", "question", made.question, FIR_REFUSED_POOL);
        same("reserves above 64", "offset", made.offset, 0);
        kept("reserves above 64");
    }
    made = fir_pool_make(all, &pool);
    same("reserves of 64", "question", made.question, FIR_ACCEPTED);
    same("reserves of 64", "difference of the reserves", memcmp(pool.reserves, all, sizeof all) != 0, 0);
    for (i = 0; i < FIR_RUNS; i++)
        same("a pool just made", "count", pool.has[i], 0);
}

/* Every function says 21 at 0 of this pool and number, before all else, and writes nothing. */
static void refuses(const char *what, size_t number)
{
    fir_answer answer;
    fir_entry entry;
    fir_turn turn;
    keep();
    entry = fir_pool_begin(hoard.bytes, 0, hoard.table, 0, FIR_PORTAL, 31, 3, words, 1, buffer, 0, &state, &pool, number);
    same(what, "question of a start", entry.question, FIR_REFUSED_POOL);
    same(what, "offset of a start", entry.offset, 0);
    answer = fir_pool_run(hoard.bytes, 0, hoard.table, 0, FIR_PORTAL, 31, 3, words, 1, 9, buffer, 0, &state, &pool, number);
    answered(what, answer, FIR_REFUSED, 0);
    same(what, "question of a run", answer.question, FIR_REFUSED_POOL);
    turn = fir_pool_step(LENT(hoard), &state, &pool, number);
    same(what, "code of a step", turn.code, FIR_REFUSED);
    same(what, "question of a step", turn.question, FIR_REFUSED_POOL);
    same(what, "rest of a step", turn.value + turn.offset + turn.length, 0);
    answer = fir_pool_budget(LENT(hoard), &state, &pool, number, 9, buffer, 0);
    answered(what, answer, FIR_REFUSED, 0);
    same(what, "question of a budget", answer.question, FIR_REFUSED_POOL);
    same(what, "rest of a budget", answer.value + answer.offset + answer.length, 0);
    entry = fir_pool_change(hoard.bytes, hoard.length, hoard.bytes, 0, &state, &pool, number);
    same(what, "question of a change", entry.question, FIR_REFUSED_POOL);
    same(what, "offset of a change", entry.offset, 0);
    entry = fir_pool_back(&pool, number);
    same(what, "question of a step back", entry.question, FIR_REFUSED_POOL);
    same(what, "offset of a step back", entry.offset, 0);
    kept(what);
}

static void refusals(void)
{
    static const size_t numbers[] = {FIR_RUNS, FIR_RUNS + 1, 255, 256, (size_t)-1};
    size_t i;
    make(30, 30);
    same("a run", "question", begin(&hoard, words, 2, 0).question, FIR_ACCEPTED);
    answered("a run", budget(3, 0), FIR_STEPS, 3);
    for (i = 0; i < sizeof numbers / sizeof *numbers; i++)
        refuses("a number above 7", numbers[i]);
    for (i = 0; i < FIR_RUNS; i++) {
        same("a step back", "question", fir_pool_back(&pool, i).question, FIR_REFUSED_BACK);
        same("a step back", "offset", fir_pool_back(&pool, i).offset, 0);
    }
    pool.reserves[7] = 5;
    for (i = 0; i < FIR_RUNS; i++)
        refuses("a pool that reserves 65", i);
    memset(pool.reserves, 32, sizeof pool.reserves);
    refuses("a pool that reserves 256", 0);
}

/* A run gets what it reserves, and above it what is neither in use nor reserved by others. */
static void rule(void)
{
    make(4, 60);
    begin(&hoard, words, 2, 0);
    answered("4 reserved, before VECTORS", budget(4, 0), FIR_STEPS, 4);
    same("4 reserved", "count", pool.has[0], 4);
    answered("4 reserved", budget(1, 0), FIR_VECTORS, 0);
    same("an ended run", "count", pool.has[0], 0);
    begin(&hoard, words, 2, 1);
    answered("60 reserved", budget(MANY, 1), FIR_VECTORS, 60 / EACH_HOLDS * CALL_STEPS);
    make(0, 54);
    begin(&hoard, words, 2, 0);
    answered("10 left by the others", budget(MANY, 0), FIR_VECTORS, 10);
    make(0, 0);
    pool.has[3] = 20;
    pool.reserves[3] = 30;
    begin(&hoard, words, 2, 0);
    answered("34 left, where 20 of 30 are in use", budget(MANY, 0), FIR_VECTORS, 34 + 2);
    pool.has[3] = 40;
    begin(&hoard, words, 2, 0);
    answered("24 left, where 40 are in use", budget(MANY, 0), FIR_VECTORS, 24 + 1);
    make(2, 3);
    memset(pool.has + 1, 255, FIR_RUNS - 1);
    begin(&hoard, words, 2, 0);
    answered("its reserve, whatever the others have", budget(MANY, 0), FIR_VECTORS, 2);
    same("the others' counts", "count", pool.has[1], 255);
    make(0, 3);
    memset(pool.has + 1, 255, FIR_RUNS - 1);
    begin(&hoard, words, 2, 0);
    answered("none", budget(MANY, 0), FIR_VECTORS, 0);
}

/* What the pool says of a run is written by a step, by a budget of 0, by a stuck step and by those of an ended run; not by what 13
 * refuses. */
static void counts(void)
{
    fir_turn turn;
    make(8, 0);
    begin(&hoard, words, 2, 0);
    turn = fir_pool_step(LENT(hoard), &state, &pool, 0);
    same("a step", "code", turn.code, FIR_STEPS);
    same("a step", "count", pool.has[0], 1);
    pool.has[0] = 99;
    answered("a budget of 0", budget(0, 0), FIR_STEPS, 0);
    same("a budget of 0", "count", pool.has[0], 1);
    pool.has[0] = 99;
    keep();
    same("a short buffer", "question", fir_pool_budget(LENT(hoard), &state, &pool, 0, 5, buffer, FIR_ITEMS - 1).question,
         FIR_REFUSED_BUFFER);
    kept("a short buffer");
    state.depth = 0;
    turn = fir_pool_step(LENT(hoard), &state, &pool, 0);
    same("a stuck step", "code", turn.code, FIR_STUCK);
    same("a stuck step", "count", pool.has[0], 1);
    pool.has[0] = 99;
    answered("a stuck budget", budget(5, 0), FIR_STUCK, 0);
    same("a stuck budget", "count", pool.has[0], 1);
    state.status = FIR_DEEP;
    pool.has[0] = 99;
    turn = fir_pool_step(LENT(hoard), &state, &pool, 0);
    same("a step of an ended run", "code", turn.code, FIR_DEEP);
    same("a step of an ended run", "count", pool.has[0], 0);
    pool.has[0] = 99;
    answered("a budget of an ended run", budget(5, 0), FIR_DEEP, 0);
    same("a budget of an ended run", "count", pool.has[0], 0);
}

/* A start ends the run that had the number, unless it is refused; with too many arguments it stops at once. */
static void starts(void)
{
    make(0, 63);
    same("a full start", "question", begin(&two, vectors, 5, 0).question, FIR_ACCEPTED);
    same("a full start", "status", state.status, FIR_VECTORS);
    same("a full start", "count of calls", state.calls, 0);
    same("a full start", "count of activations", state.depth, 0);
    same("a full start", "count", pool.has[0], 0);
    memcpy(&state_before, &state, sizeof state);
    answered("a full start, a budget of 0", fir_pool_budget(LENT(two), &state, &pool, 0, 0, buffer, FIR_ITEMS), FIR_VECTORS, 0);
    answered("a full start, a budget", fir_pool_budget(LENT(two), &state, &pool, 0, MANY, buffer, FIR_ITEMS), FIR_VECTORS, 0);
    same("a full start", "difference", memcmp(&state, &state_before, sizeof state) != 0, 0);
    answered("a full run", fir_pool_run(LENT(two), FIR_STAFF, 0, 0, vectors, 5, MANY, buffer, FIR_ITEMS, &state, &pool, 0), FIR_VECTORS, 0);
    make(0, 62);
    pool.has[0] = 255; /* what the number has makes no difference */
    same("a start", "question", begin(&two, vectors, 5, 0).question, FIR_ACCEPTED);
    same("a start", "status", state.status, FIR_STEPS);
    same("a start", "count", pool.has[0], 2);
    fir_begin(LENT(two), FIR_STAFF, 0, 0, vectors, 5, buffer, FIR_ITEMS, &plain);
    same("a start", "difference from one without a pool", memcmp(&state, &plain, sizeof state) != 0, 0);
    pool.has[0] = 77;
    keep();
    same("a start", "question of 11", fir_pool_begin(LENT(two), FIR_STAFF, 1, 0, vectors, 5, buffer, FIR_ITEMS, &state, &pool, 0).question, FIR_REFUSED_ENTRY);
    same("a start", "question of 19", fir_pool_begin(LENT(two), FIR_PORTAL, 0, 0, vectors, 5, buffer, FIR_ITEMS, &state, &pool, 0).question, FIR_REFUSED_LEVEL);
    same("a start", "question of 12", begin(&two, vectors, 4, 0).question, FIR_REFUSED_ARGUMENTS);
    same("a start", "question of 13", fir_pool_begin(LENT(two), FIR_STAFF, 0, 0, vectors, 5, buffer, FIR_ITEMS - 1, &state, &pool, 0).question, FIR_REFUSED_BUFFER);
    same("a run", "question of 13", fir_pool_run(LENT(two), FIR_STAFF, 0, 0, vectors, 5, 9, buffer, FIR_ITEMS - 1, &state, &pool, 0).question, FIR_REFUSED_BUFFER);
    kept("a refused start");
    answered("the run that had the number", fir_pool_budget(LENT(two), &state, &pool, 0, MANY, buffer, FIR_ITEMS), FIR_INTEGER, 2);
}

/* A run that reserves all is the run without a pool, byte by byte; and a run is a start and a budget. */
static void alone(void)
{
    fir_said said;
    fir_turn turn;
    make(0, FIR_PLACES);
    begin(&hoard, words, 2, 1);
    fir_begin(LENT(hoard), FIR_STAFF, 0, 0, words, 2, buffer, FIR_ITEMS, &plain);
    do {
        said = fir_step(LENT(hoard), &plain);
        turn = fir_pool_step(LENT(hoard), &state, &pool, 1);
        same("alone", "code", turn.code, said.code);
        same("alone", "difference", memcmp(&state, &plain, sizeof state) != 0, 0);
    } while (said.code == FIR_STEPS);
    same("alone", "end", turn.code, FIR_VECTORS);
    answered("alone", fir_pool_run(LENT(hoard), FIR_STAFF, 0, 0, words, 2, 40, buffer, FIR_ITEMS, &state, &pool, 1), FIR_STEPS, 40);
    fir_run(LENT(hoard), FIR_STAFF, 0, 0, words, 2, 40, buffer, FIR_ITEMS, &plain);
    same("a start and a budget", "difference", memcmp(&state, &plain, sizeof state) != 0, 0);
    same("a start and a budget", "count", pool.has[1], 40 - 40 / CALL_STEPS);
}

/* A change is answered as without a pool, and writes nothing. */
static void changes(void)
{
    fir_entry changed;
    make(8, 8);
    begin(&hoard, words, 2, 0);
    budget(3, 0);
    pool.has[0] = 77;
    keep();
    changed = fir_pool_change(hoard.bytes, hoard.length, hoard.bytes, hoard.length, &state, &pool, 0);
    same("a change", "question", changed.question, FIR_ACCEPTED);
    changed = fir_pool_change(hoard.bytes, hoard.length, other.bytes, other.length, &state, &pool, 0);
    same("another version", "question", changed.question, FIR_REFUSED_CHANGE);
    changed = fir_pool_change(hoard.bytes, hoard.length, hoard.bytes, 0, &state, &pool, 0);
    same("no image", "question", changed.question, FIR_REFUSED_SIZE);
    kept("a change");
}

int main(void)
{
    hoarding_vectors(&hoard);
    of_two(&two);
    countdown(&other, 3);
    same("an image", "code of its load", load(&hoard), FIR_LOADED);
    same("an image of two vectors", "code of its load", load(&two), FIR_LOADED);
    making();
    refusals();
    rule();
    counts();
    starts();
    alone();
    changes();
    printf("pool: %u passed\n", tests);
    return 0;
}
