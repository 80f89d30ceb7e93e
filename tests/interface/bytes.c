/* The bytes of a state: a begun run has the same whatever its memory held before, and the same calls leave the same; by single steps and
 * by a budget the run comes to the same, as far as calls can see; and what changes nothing changes no byte. */
#include <stdio.h>
#include <stdlib.h>

#include "images.h"

#define MOST_STEPS 200
#define SHORT (FIR_ITEMS - 1) /* places of a buffer that is refused */

static unsigned tests;
static image tried;
static fir_state stepped, budgeted, again;
static int64_t buffer[FIR_ITEMS];
static const int64_t words[] = {-1, 40};

static void fail(const char *what, const char *why, uint32_t steps)
{
    printf("bytes: %s: %s after %lu steps\n", what, why, (unsigned long)steps);
    exit(1);
}

/* Asserts that two states have the same bytes. */
static void same(const char *what, const char *why, const fir_state *one, const fir_state *other, uint32_t steps)
{
    tests++;
    if (memcmp(one, other, sizeof *one) != 0)
        fail(what, why, steps);
}

/* Asserts that two states are the same, as far as calls can see. */
static void alike(const char *what, const fir_state *one, const fir_state *other, uint32_t steps)
{
    const fir_position here = fir_where(LENT(tried), one), there = fir_where(LENT(tried), other);
    size_t call, place;
    tests++;
    if (one->calls != other->calls || one->depth != other->depth || one->status != other->status)
        fail(what, "other counts", steps);
    if (here.kind != there.kind || here.offset != there.offset)
        fail(what, "another position", steps);
    for (call = 0; call < one->calls; call++)
        for (place = 0; place < FIR_REGISTERS + FIR_NAMES; place++) {
            const fir_value is = fir_look(one, call, place), wanted = fir_look(other, call, place);
            if (is.kind != wanted.kind || is.place != wanted.place || is.number != wanted.number)
                fail(what, "another value", steps);
        }
}

/* Begins a run in memory that held this byte. */
static void begin(fir_state *state, int byte)
{
    memset(state, byte, sizeof *state);
    if (fir_begin(LENT(tried), FIR_FACTORY, 0, 0, words, 2, buffer, FIR_ITEMS, state).question != FIR_ACCEPTED) {
        printf("bytes: a run is refused\n");
        exit(1);
    }
}

/* What changes nothing: calls that are refused, a budget of nothing, and looking. */
static void stays(const char *what, fir_state *state, uint32_t steps)
{
    memcpy(&again, state, sizeof again);
    fir_budget(LENT(tried), state, 100, buffer, SHORT);
    fir_budget(LENT(tried), state, 0, buffer, FIR_ITEMS);
    fir_begin(LENT(tried), FIR_FACTORY, 31, 3, words, 2, buffer, FIR_ITEMS, state);
    fir_run(LENT(tried), FIR_FACTORY, 0, 0, words, 1, 100, buffer, FIR_ITEMS, state);
    fir_change(tried.bytes, tried.length, tried.bytes, tried.length, state);
    same(what, "a call that changes nothing leaves other bytes", &again, state, steps);
}

/* A run by single steps, and up to each of them by one budget, twice. */
static void runs(const char *what)
{
    uint32_t steps;
    if (load(&tried) != FIR_LOADED)
        fail(what, "not loaded", 0);
    begin(&stepped, 0x5a);
    for (steps = 0; steps < MOST_STEPS && stepped.status == FIR_STEPS; steps++) {
        begin(&budgeted, (int)(steps & 255));
        fir_budget(LENT(tried), &budgeted, steps, buffer, FIR_ITEMS);
        alike(what, &stepped, &budgeted, steps);
        begin(&again, (int)(~steps & 255));
        fir_budget(LENT(tried), &again, steps, buffer, FIR_ITEMS);
        same(what, "the same calls leave other bytes", &budgeted, &again, steps);
        stays(what, &stepped, steps);
        fir_step(LENT(tried), &stepped);
    }
    if (stepped.status != FIR_STEPS) {
        memcpy(&budgeted, &stepped, sizeof stepped);
        fir_step(LENT(tried), &stepped);
        fir_budget(LENT(tried), &stepped, 100, buffer, FIR_ITEMS);
        same(what, "a step or a budget of an ended run leaves other bytes", &stepped, &budgeted, steps);
    }
}

/* A step that is stuck: in the middle of a run, under an image that has no version. */
static void stuck(void)
{
    static const uint8_t none[1];
    fir_said said;
    fir_answer answer;
    countdown(&tried, 3);
    load(&tried);
    begin(&stepped, 0);
    fir_budget(LENT(tried), &stepped, 20, buffer, FIR_ITEMS);
    memcpy(&budgeted, &stepped, sizeof stepped);
    said = fir_step(none, 0, none, 0, &stepped);
    answer = fir_budget(none, 0, none, 0, &stepped, 9, buffer, FIR_ITEMS);
    if (said.code != FIR_STUCK || answer.code != FIR_STUCK || answer.steps != 0)
        fail("no image", "not stuck", 20);
    same("no image", "a stuck step leaves other bytes", &stepped, &budgeted, 20);
}

int main(void)
{
    countdown(&tried, 3);
    runs("countdown");
    chain(&tried, 4);
    runs("chain");
    nested(&tried);
    runs("nested");
    searching(&tried, FIR_VERSIONS, 2);
    runs("searching");
    stuck();
    printf("bytes: %u passed\n", tests);
    return 0;
}
