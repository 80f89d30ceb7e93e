/* What a step back gives: after each step of runs of all ends the state of one step less, byte for byte that of a budget from the
 * start; 20 where no step lies behind, at a start, behind a change that was taken and past 4,294,967,295 steps, with state and trail as
 * they were. Steps, budgets and changes with a trail are those without one. What is stopped, stuck or refused does not count. */
#include <stdio.h>
#include <stdlib.h>

#include "images.h"

#define MOST 400
#define NONE (-1) /* in place of a count: none lies behind any more */

static unsigned tests;
static image tried;
static image other;
static fir_state start, state, plain, before;
static fir_trail trail, trail_before;
static int64_t buffer[FIR_ITEMS], lent[FIR_ITEMS];
static const int64_t words[] = {-1, 40};

static void same(const char *what, const char *why, long long is, long long wanted)
{
    tests++;
    if (is != wanted) {
        printf("back: %s: %s is %lld and not %lld\n", what, why, is, wanted);
        exit(1);
    }
}

static void same_state(const char *what, const char *why, const fir_state *wanted)
{
    same(what, why, memcmp(&state, wanted, sizeof state) != 0, 0);
}

/* Asserts how many steps lie behind, and that the start stays. */
static void behind(const char *what, long long steps)
{
    same(what, "whether none lies behind any more", trail.past != 0, steps == NONE);
    if (steps != NONE)
        same(what, "the steps behind", trail.steps, steps);
    same(what, "a difference of the start", memcmp(&trail, &start, sizeof start) != 0, 0);
}

/* Keeps what the state and the trail are. */
static void keep(void)
{
    memcpy(&before, &state, sizeof state);
    memcpy(&trail_before, &trail, sizeof trail);
}

/* Asserts that both are as they were. */
static void kept(const char *what)
{
    same_state(what, "a difference of the state", &before);
    same(what, "a difference of the trail",
         memcmp(&trail, &trail_before, sizeof start) != 0 || trail.steps != trail_before.steps || trail.past != trail_before.past, 0);
}

/* Asserts that no step lies behind. */
static void refused(const char *what)
{
    fir_entry back;
    keep();
    back = fir_trail_back(LENT(tried), &state, &trail);
    same(what, "the question", back.question, FIR_REFUSED_BACK);
    same(what, "the offset", back.offset, 0);
    kept(what);
}

/* Takes a step back, and asserts that it leaves what a budget of one step less leaves from the start. */
static void back(const char *what)
{
    const uint32_t less = trail.steps - 1;
    const fir_entry back = fir_trail_back(LENT(tried), &state, &trail);
    same(what, "the question", back.question, FIR_ACCEPTED);
    same(what, "the offset", back.offset, 0);
    memcpy(&plain, &start, sizeof plain);
    fir_budget(LENT(tried), &plain, less, lent, FIR_ITEMS);
    same_state(what, "another state", &plain);
    behind(what, less);
}

/* Loads the image, begins a run of it and keeps its start. */
static void begin(const char *what)
{
    same(what, "the code of its load", load(&tried), FIR_LOADED);
    same(what, "the question of its beginning",
         fir_begin(LENT(tried), FIR_FACTORY, 0, 0, words, 2, buffer, FIR_ITEMS, &start).question, FIR_ACCEPTED);
    memcpy(&state, &start, sizeof state);
    memset(&trail, 0xa5, sizeof trail);
    fir_trail_start(&state, &trail);
    behind(what, 0);
}

/* A single step with the trail and one without it. */
static fir_said step(const char *what)
{
    fir_said is, wanted;
    memcpy(&plain, &state, sizeof plain);
    wanted = fir_step(LENT(tried), &plain);
    is = fir_trail_step(LENT(tried), &state, &trail);
    same(what, "the code", is.code, wanted.code);
    same(what, "the value", is.value, wanted.value);
    same(what, "the length", is.length, wanted.length);
    same_state(what, "another state", &plain);
    return is;
}

/* The same with a budget. */
static fir_answer budget(const char *what, uint32_t steps, size_t places)
{
    fir_answer is, wanted;
    memcpy(&plain, &state, sizeof plain);
    memset(lent, 0x5a, sizeof lent);
    memset(buffer, 0x5a, sizeof buffer);
    wanted = fir_budget(LENT(tried), &plain, steps, lent, places);
    is = fir_trail_budget(LENT(tried), &state, &trail, steps, buffer, places);
    same(what, "the code", is.code, wanted.code);
    same(what, "the steps", is.steps, wanted.steps);
    same(what, "the value", is.value, wanted.value);
    same(what, "the length", is.length, wanted.length);
    same(what, "the question", is.question, wanted.question);
    same(what, "a difference of the buffer", memcmp(buffer, lent, sizeof lent) != 0, 0);
    same_state(what, "another state", &plain);
    return is;
}

/* A run to its end by single steps, of which so many count, and back to its start; forward again by budgets, and back from the end. */
static void there_and_back(const char *what, uint8_t end, uint32_t steps)
{
    const int stopped = end == FIR_DEEP || end == FIR_VECTORS || end == FIR_PROMISES;
    fir_said said;
    uint32_t taken;
    begin(what);
    refused(what);
    for (taken = 0; (said = step(what)).code == FIR_STEPS; taken++)
        behind(what, taken + 1);
    same(what, "the end", said.code, end);
    behind(what, steps);
    same(what, "the steps", taken + (stopped ? 0 : 1), steps);
    step(what);
    behind(what, steps);
    while (trail.steps > 0)
        back(what);
    same_state(what, "another start", &start);
    refused(what);
    same(what, "the answer again", budget(what, MOST, FIR_ITEMS).code, end);
    behind(what, steps);
    back(what);
    same(what, "whether it goes on", state.status, FIR_STEPS);
    same(what, "the answer again", budget(what, MOST, FIR_ITEMS).code, end);
}

static void ends(void)
{
    chain(&tried, 4);
    there_and_back("DONE", FIR_INTEGER, 4 * 49);
    tried.length = 0;
    RECORD(&tried, VERSION, 0, 0, 1, 2, 3, 1, 2, 3);
    RECORD(&tried, LEVEL, FIR_PORTAL);
    RECORD(&tried, BLOCK, 0, 1, 1);
    RECORD(&tried, VEC, 1, 2, 0, 0);
    there_and_back("DONE with a vector", FIR_VECTOR, 2);
    searching(&tried, FIR_VERSIONS, FIR_VERSIONS);
    there_and_back("UNDEF", FIR_UNDEF, SEARCH_STEPS + 1);
    countdown(&tried, 2);
    there_and_back("DEEP", FIR_DEEP, 31 * 5 + 4);
    hoarding_vectors(&tried);
    there_and_back("VECTORS", FIR_VECTORS, 4 * 16 + 4);
    hoarding_promises(&tried);
    there_and_back("PROMISES", FIR_PROMISES, 9 * 8 + 1);
    nested(&tried);
    there_and_back("promises forced", FIR_INTEGER, 24);
}

/* A stop with no step behind it stays. */
static void stopped_at_once(void)
{
    const char *what = "stopped at its start";
    countdown(&tried, 2);
    begin(what);
    budget(what, 31 * 5 + 4, FIR_ITEMS);
    memcpy(&start, &state, sizeof start);
    fir_trail_start(&state, &trail);
    same(what, "the code", step(what).code, FIR_DEEP);
    behind(what, 0);
    refused(what);
    same(what, "the status", state.status, FIR_DEEP);
}

/* What is refused or stuck does not count; nor does a budget of nothing. */
static void uncounted(void)
{
    static const uint8_t none[1];
    const char *what = "what does not count";
    chain(&tried, 2);
    begin(what);
    budget(what, 7, FIR_ITEMS);
    keep();
    same(what, "the question", budget(what, 9, FIR_ITEMS - 1).question, FIR_REFUSED_BUFFER);
    kept(what);
    budget(what, 0, FIR_ITEMS);
    kept(what);
    same(what, "the code without an image", fir_trail_step(none, 0, none, 0, &state, &trail).code, FIR_STUCK);
    kept(what);
    same(what, "the same", fir_trail_budget(none, 0, none, 0, &state, &trail, 9, buffer, FIR_ITEMS).code, FIR_STUCK);
    kept(what);
    back(what);
}

/* A change that is taken is a new start; one that is refused, by 15 or by a question to the image, leaves all. */
static void changed(void)
{
    const char *what = "a change";
    fir_entry entry;
    calling(&tried, FIR_FACTORY, FIR_PORTAL);
    calling(&other, FIR_FACTORY, FIR_STAFF);
    begin(what);
    step(what);
    keep();
    entry = fir_trail_change(tried.bytes, tried.length, other.bytes, other.length, &state, &trail);
    same(what, "the question", entry.question, FIR_REFUSED_CHANGE);
    same(what, "the offset", entry.offset, 32);
    kept(what);
    entry = fir_trail_change(tried.bytes, tried.length, other.bytes, other.length - 1, &state, &trail);
    same(what, "the question", entry.question, FIR_REFUSED_RECORDS);
    kept(what);
    back(what);
    step(what);
    step(what);
    keep();
    entry = fir_trail_change(tried.bytes, tried.length, other.bytes, other.length, &state, &trail);
    same(what, "the question", entry.question, FIR_ACCEPTED);
    same_state(what, "a difference of the state", &before);
    memcpy(&start, &state, sizeof start);
    memcpy(&tried, &other, sizeof tried);
    same(what, "the code of its load", load(&tried), FIR_LOADED);
    behind(what, 0);
    refused(what);
    same(what, "the code", step(what).code, FIR_INTEGER);
    back(what);
    refused(what);
}

/* Past 4,294,967,295 steps none lies behind, until a new start. The count is set by hand. */
static void past(void)
{
    const char *what = "past the most";
    chain(&tried, 2);
    begin(what);
    budget(what, 10, FIR_ITEMS);
    trail.steps = UINT32_MAX - 2;
    step(what);
    budget(what, 1, FIR_ITEMS);
    behind(what, UINT32_MAX);
    step(what);
    behind(what, NONE);
    same(what, "the count", trail.steps, UINT32_MAX);
    refused(what);
    budget(what, 3, FIR_ITEMS);
    step(what);
    behind(what, NONE);
    refused(what);
    memcpy(&start, &state, sizeof start);
    fir_trail_start(&state, &trail);
    behind(what, 0);
    budget(what, 3, FIR_ITEMS);
    back(what);
    trail.steps = UINT32_MAX - 2;
    budget(what, 3, FIR_ITEMS);
    behind(what, NONE);
    same(what, "the count", trail.steps, UINT32_MAX - 2);
    refused(what);
    same(what, "the question", fir_trail_change(tried.bytes, tried.length, tried.bytes, tried.length, &state, &trail).question,
         FIR_ACCEPTED);
    memcpy(&start, &state, sizeof start);
    behind(what, 0);
}

/* Any bytes are a trail: the start is any state, and every `past` but 0 says that none lies behind. */
static void any_bytes(void)
{
    const char *what = "any bytes";
    unsigned byte;
    chain(&tried, 2);
    for (byte = 0; byte <= UINT8_MAX; byte++) {
        begin(what);
        budget(what, 5, FIR_ITEMS);
        memset(&trail, (int)byte, sizeof trail);
        memset(&start, (int)byte, sizeof start);
        if (byte != 0) {
            refused(what);
            step(what);
            behind(what, NONE);
            refused(what);
        }
        trail.past = 0;
        trail.steps = 0;
        refused(what);
        trail.steps = byte + 1;
        back(what);
        trail.steps = UINT32_MAX;
        if (start.status != FIR_STEPS || byte == 0)
            back(what);
    }
}

int main(void)
{
    ends();
    stopped_at_once();
    uncounted();
    changed();
    past();
    any_bytes();
    printf("back: %u passed\n", tests);
    return 0;
}
