/* How deep each function of the interface goes on its stack: it is called on a thread whose stack is painted, and the paint
 * that is gone is counted, less what a call of an empty function takes. */
#define _POSIX_C_SOURCE 200112L
#include <pthread.h>
#include <stdio.h>
#include <stdlib.h>

#include "images.h"

#define STACK (4u << 20)
#define LIMIT (48u << 10)
#define PAINT 0xa5
#define MIDWAY 13 /* steps after which no run has ended: the shortest takes 24 */

static image tried;
static fir_state state;
static fir_state midway; /* of a run with live calls */
static fir_trail trail; /* of `state` */
static fir_trail midway_trail; /* of a run that began at `midway` */
static image searched;
static fir_state at_dispatch; /* of a run that no version of four fits */
static int64_t buffer[FIR_ITEMS];
static const int64_t words[] = {-1, 40};
static uint8_t text[1u << 16];
static image stored; /* in the form of 32 bits, which has 32,768 bytes in that of 64 */
static image current; /* the same in the form of 64 bits */
static image half; /* of which two have 32,768 bytes and 64 versions */
static uint8_t out[FIR_IMAGE_BYTES];
static image broken; /* refused by 10 in a version that calls one with an owned parameter; nothing mends it */
static uint8_t row_numbers[2 * FIR_ROWS];
static uint64_t row_steps[FIR_ROWS];

static fir_row rows[FIR_REGISTERS];
static fir_pool pool;
static const uint8_t reserves[FIR_RUNS] = {8, 8, 8, 8, 8, 8, 8, 8};

static void nothing(void) { }
static void watch(void) { fir_watch(LENT(tried), &midway, rows, FIR_REGISTERS); }
static void check(void) { fir_check(tried.bytes, tried.length); }
static void loads(void) { fir_load(tried.bytes, tried.length, tried.table, sizeof tried.table); }
static void report(void) { fir_report(tried.bytes, tried.length, text, sizeof text); }
static void begin(void) { fir_begin(LENT(tried), FIR_FACTORY, 0, 0, words, 2, buffer, FIR_ITEMS, &state); }
static void step(void) { fir_step(LENT(tried), &state); }
static void budget(void) { fir_budget(LENT(tried), &state, 100000, buffer, FIR_ITEMS); }

static void run(void)
{
    fir_run(LENT(tried), FIR_FACTORY, 0, 0, words, 2, 100000, buffer, FIR_ITEMS, &state);
}

static void trail_start(void) { fir_trail_start(&midway, &trail); }

/* Behind it the run of `state` goes on from the middle, with the trail at its start. */
static void trail_step(void)
{
    fir_trail_start(&midway, &trail);
    memcpy(&state, &midway, sizeof state);
    fir_trail_step(LENT(tried), &state, &trail);
}

static void trail_budget(void) { fir_trail_budget(LENT(tried), &state, &trail, 100000, buffer, FIR_ITEMS); }
static void trail_back(void) { fir_trail_back(LENT(tried), &state, &trail); }

static void trail_change(void)
{
    fir_trail_change(tried.bytes, tried.length, tried.bytes, tried.length, &midway, &midway_trail);
}

static void pool_make(void) { fir_pool_make(reserves, &pool); }

static void pool_begin(void)
{
    fir_pool_begin(LENT(tried), FIR_FACTORY, 0, 0, words, 2, buffer, FIR_ITEMS, &state, &pool, 3);
}

static void pool_step(void) { fir_pool_step(LENT(tried), &state, &pool, 3); }
static void pool_budget(void) { fir_pool_budget(LENT(tried), &state, &pool, 3, 100000, buffer, FIR_ITEMS); }

static void pool_run(void)
{
    fir_pool_run(LENT(tried), FIR_FACTORY, 0, 0, words, 2, 100000, buffer, FIR_ITEMS, &state, &pool, 3);
}

static void pool_change(void)
{
    fir_pool_change(tried.bytes, tried.length, tried.bytes, tried.length, &midway, &pool, 3);
}

static void pool_back(void) { fir_pool_back(&pool, 3); }
static void change(void) { fir_change(tried.bytes, tried.length, tried.bytes, tried.length, &midway); }
static void check_in(void) { fir_check_in(stored.bytes, stored.length, FIR_FORM_32); }
static void report_in(void) { fir_report_in(stored.bytes, stored.length, FIR_FORM_32, text, sizeof text); }
static void widen(void) { fir_widen(stored.bytes, stored.length, out, sizeof out); }

static void narrow(void)
{
    fir_narrow(current.bytes, current.length, out, sizeof out);
    fir_narrow(tried.bytes, tried.length, out, sizeof out);
}

static void join(void)
{
    fir_join(half.bytes, half.length, half.bytes, half.length, out, sizeof out);
    fir_join(searched.bytes, searched.length, tried.bytes, tried.length, out, sizeof out);
}

static void bounds(void)
{
    fir_bounds(tried.bytes, tried.length, row_numbers, row_steps);
    fir_bounds(searched.bytes, searched.length, row_numbers, row_steps);
}

static void mend(void)
{
    fir_mend(broken.bytes, broken.length);
    fir_mend(tried.bytes, tried.length);
    tried.bytes[10] = 19; /* r0 of an image that takes an integer: refused by 8, and mended */
    fir_mend(tried.bytes, tried.length);
    tried.bytes[10] = 2;
}

static void look(void) { fir_look(&state, 0, 3); }

static void search(void)
{
    fir_search(LENT(searched), &at_dispatch);
    fir_search(LENT(tried), &midway);
}

static void where(void)
{
    fir_where(LENT(searched), &at_dispatch);
    fir_where(LENT(tried), &midway);
}

static void question_text(void) { fir_question_text(FIR_REFUSED_BOUNDS, text, sizeof text); }
static void answer_text(void) { fir_answer_text(FIR_STUCK, text, sizeof text); }

/* Images that are not loaded, refused by 3 and with a table that is too short, runs that are refused by 11, 19 where the entry is for the factory, 12 and 13, changes that are refused by 1 and by 15, moves that are by 3 and by 17,
 * images that are not joined, by the first, the second and 23, bounds that are refused by 3, an image that no mend is looked for, a
 * step back, a budget and changes with a trail that are refused by 20, 13, 1 and 15, and in a pool by 21, 12 and 13. */
static void refusals(void)
{
    fir_load(stored.bytes, stored.length, stored.table, sizeof stored.table);
    fir_load(current.bytes, current.length, current.table, FIR_TABLE_BYTES(0));
    fir_begin(LENT(tried), FIR_FACTORY, 31, 3, words, 2, buffer, FIR_ITEMS, &state);
    fir_begin(LENT(tried), FIR_PORTAL, 0, 0, words, 1, buffer, FIR_ITEMS, &state);
    fir_begin(LENT(tried), FIR_FACTORY, 0, 0, words, 1, buffer, FIR_ITEMS, &state);
    fir_run(LENT(tried), FIR_FACTORY, 0, 0, words, 2, 1000, buffer, FIR_ITEMS - 1, &state);
    fir_budget(LENT(tried), &state, 1000, buffer, FIR_ITEMS - 1);
    fir_change(tried.bytes, tried.length, tried.bytes, 0, &midway);
    fir_change(tried.bytes, 0, tried.bytes, tried.length, &midway);
    fir_widen(current.bytes, current.length, out, sizeof out);
    fir_widen(stored.bytes, stored.length, out, sizeof out - 1);
    fir_join(stored.bytes, stored.length, tried.bytes, tried.length, out, sizeof out);
    fir_join(tried.bytes, tried.length, stored.bytes, stored.length, out, sizeof out);
    fir_join(half.bytes, half.length, half.bytes, half.length, out, sizeof out - 1);
    fir_bounds(stored.bytes, stored.length, row_numbers, row_steps);
    fir_mend(stored.bytes, stored.length);
    fir_trail_start(&midway, &midway_trail);
    fir_trail_back(LENT(tried), &midway, &midway_trail);
    fir_trail_budget(LENT(tried), &midway, &midway_trail, 1000, buffer, FIR_ITEMS - 1);
    fir_trail_change(tried.bytes, tried.length, tried.bytes, 0, &midway, &midway_trail);
    fir_trail_change(tried.bytes, 0, tried.bytes, tried.length, &midway, &midway_trail);
    fir_pool_begin(LENT(tried), FIR_FACTORY, 0, 0, words, 2, buffer, FIR_ITEMS, &state, &pool, FIR_RUNS);
    fir_pool_begin(LENT(tried), FIR_FACTORY, 0, 0, words, 1, buffer, FIR_ITEMS, &state, &pool, 0);
    fir_pool_budget(LENT(tried), &state, &pool, 0, 1000, buffer, FIR_ITEMS - 1);
}

static void *call(void *function)
{
    ((void (*)(void))(*(void (**)(void))function))();
    return NULL;
}

static size_t depth(void (*function)(void))
{
    static uint8_t *stack;
    size_t left = 0;
    pthread_t thread;
    pthread_attr_t attributes;
    if (stack == NULL && posix_memalign((void **)&stack, 4096, STACK) != 0)
        exit(2);
    memset(stack, PAINT, STACK);
    pthread_attr_init(&attributes);
    if (pthread_attr_setstack(&attributes, stack, STACK) != 0 || pthread_create(&thread, &attributes, call, &function) != 0)
        exit(2);
    pthread_join(thread, NULL);
    while (left < STACK && stack[left] == PAINT)
        left++;
    return STACK - left;
}

int main(void)
{
    static const struct {
        const char *name;
        void (*function)(void);
    } calls[] = {{"fir_check", check}, {"fir_load", loads}, {"fir_report", report}, {"fir_begin", begin}, {"fir_step", step},
                 {"fir_budget", budget}, {"fir_run", run}, {"fir_change", change}, {"fir_look", look},
                 {"fir_watch", watch}, {"fir_search", search}, {"fir_check_in", check_in}, {"fir_report_in", report_in}, {"fir_widen", widen},
                 {"fir_narrow", narrow}, {"fir_join", join}, {"fir_mend", mend}, {"fir_bounds", bounds}, {"fir_where", where},
                 {"fir_trail_start", trail_start}, {"fir_trail_step", trail_step}, {"fir_trail_budget", trail_budget},
                 {"fir_trail_back", trail_back}, {"fir_trail_change", trail_change},
                 {"fir_pool_make", pool_make}, {"fir_pool_begin", pool_begin}, {"fir_pool_step", pool_step},
                 {"fir_pool_budget", pool_budget}, {"fir_pool_run", pool_run}, {"fir_pool_change", pool_change},
                 {"fir_pool_back", pool_back},
                 {"fir_question_text", question_text}, {"fir_answer_text", answer_text}, {"refusals", refusals}};
    size_t least;
    size_t deepest[sizeof calls / sizeof *calls] = {0};
    size_t i, kind;
    int failed = 0;
    depth(nothing); /* a thread's first calls bind symbols, which is not counted */
    least = depth(nothing);
    literals(&stored, FIR_FORM_32, 64, 37);
    literals(&current, FIR_FORM_64, 64, 37);
    if (fir_widen(stored.bytes, stored.length, out, sizeof out).question != FIR_ACCEPTED) {
        printf("stack: the stored image is refused\n");
        return 1;
    }
    literals(&half, FIR_FORM_64, 32, 37);
    if (fir_join(half.bytes, half.length, half.bytes, half.length, out, sizeof out).detail != sizeof out) {
        printf("stack: the largest pair is refused\n");
        return 1;
    }
    taken_again(&broken, FIR_PLACES);
    if (fir_mend(broken.bytes, broken.length).mend != FIR_NOT_MENDED) {
        printf("stack: the broken image is accepted, or mended\n");
        return 1;
    }
    searching(&searched, FIR_VERSIONS, FIR_VERSIONS);
    load(&searched);
    fir_run(LENT(searched), FIR_PORTAL, 0, 0, words, 2, SEARCH_STEPS, buffer, FIR_ITEMS, &at_dispatch);
    if (fir_search(LENT(searched), &at_dispatch).looked != FIR_VERSIONS) {
        printf("stack: a run stands at no search\n");
        return 1;
    }
    for (kind = 0; kind < 3; kind++) {
        if (kind == 0)
            countdown(&tried, 40);
        else if (kind == 1)
            chain(&tried, FIR_FUNCTIONS);
        else
            nested(&tried);
        if (load(&tried) != FIR_LOADED) {
            printf("stack: image %lu is refused\n", (unsigned long)kind);
            return 1;
        }
        fir_run(LENT(tried), FIR_FACTORY, 0, 0, words, 2, MIDWAY, buffer, FIR_ITEMS, &midway);
        if (midway.status != FIR_STEPS) {
            printf("stack: a run of image %lu has ended\n", (unsigned long)kind);
            return 1;
        }
        for (i = 0; i < sizeof calls / sizeof *calls; i++) {
            size_t taken = depth(calls[i].function) - least;
            if (deepest[i] < taken)
                deepest[i] = taken;
        }
    }
    for (i = 0; i < sizeof calls / sizeof *calls; i++) {
        printf("stack: %s %lu bytes\n", calls[i].name, (unsigned long)deepest[i]);
        failed += deepest[i] > LIMIT;
    }
    if (failed != 0)
        return 1;
    printf("stack: %lu passed\n", (unsigned long)(sizeof calls / sizeof *calls));
    return 0;
}
