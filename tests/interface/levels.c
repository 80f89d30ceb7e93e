/* Levels: which entries a run of a level begins at, that it is the same at each higher level, what a DISPATCH passes over, that
 * no CALL goes up, and that a version with a live call keeps its level. */
#include <stdio.h>
#include <stdlib.h>

#include "images.h"

static unsigned tests;
static image tried;
static fir_state state;
static int64_t buffer[FIR_ITEMS];
static const int64_t words[] = {-1, 40};
static const size_t levels[] = {FIR_PORTAL, FIR_STAFF, FIR_FACTORY, FIR_FACTORY + 1, 256, (size_t)-1};

#define LEVELS (sizeof levels / sizeof *levels)

static void same(const char *what, size_t is, size_t wanted)
{
    tests++;
    if (is != wanted) {
        printf("levels: %s is %lu and not %lu\n", what, (unsigned long)is, (unsigned long)wanted);
        exit(1);
    }
}

/* Asserts that a run at a level below that of its entry is refused by 19 and leaves the state. */
static void refuses(size_t level, size_t version)
{
    static fir_state before;
    fir_entry entry;
    fir_answer answer;
    memcpy(&before, &state, sizeof state);
    entry = fir_begin(LENT(tried), level, 0, version, words, 2, buffer, FIR_ITEMS, &state);
    same("the question of a beginning", entry.question, FIR_REFUSED_LEVEL);
    same("its offset", entry.offset, 0);
    answer = fir_run(LENT(tried), level, 0, version, words, 2, 100, buffer, FIR_ITEMS, &state);
    same("the code of a run", answer.code, FIR_REFUSED);
    same("the question of a run", answer.question, FIR_REFUSED_LEVEL);
    same("a refused state's difference", memcmp(&before, &state, sizeof state) != 0, 0);
}

/* Asserts that a run begins, at this level as at any other, and what its search and its end are. */
static void enters(size_t level, size_t version)
{
    static fir_state first;
    fir_answer answer;
    fir_searched search;
    memset(&first, 0, sizeof first);
    memset(&state, 0xa5, sizeof state);
    fir_begin(LENT(tried), FIR_FACTORY, 0, version, words, 2, buffer, FIR_ITEMS, &first);
    same("the question of a beginning",
         fir_begin(LENT(tried), level, 0, version, words, 2, buffer, FIR_ITEMS, &state).question,
         FIR_ACCEPTED);
    same("a state's difference at two levels", memcmp(&first, &state, sizeof state) != 0, 0);
    search = fir_search(LENT(tried), &state);
    same("how many are looked at", search.looked, ALL_LEVELS - version);
    same("how many there are", search.versions, ALL_LEVELS);
    answer = fir_budget(LENT(tried), &state, 100, buffer, FIR_ITEMS);
    same("the code of a budget", answer.code, FIR_INTEGER);
    same("the version that was called", (size_t)answer.value, 10 + FIR_FACTORY - version);
}

/* 11 before 19, and 19 before 12 and 13. */
static void order(void)
{
    same("a missing entry's question",
         fir_begin(LENT(tried), FIR_PORTAL, 0, 3, words, 1, buffer, 0, &state).question, FIR_REFUSED_ENTRY);
    same("a high entry's question",
         fir_begin(LENT(tried), FIR_PORTAL, 0, 1, words, 1, buffer, 0, &state).question, FIR_REFUSED_LEVEL);
    same("wrong words' question",
         fir_begin(LENT(tried), FIR_STAFF, 0, 1, words, 1, buffer, 0, &state).question, FIR_REFUSED_ARGUMENTS);
}

/* No CALL goes up, and a level above 2 is none. */
static void calls(void)
{
    unsigned own, called;
    fir_verdict is;
    for (own = 0; own < ALL_LEVELS; own++)
        for (called = 0; called < ALL_LEVELS; called++) {
            calling(&tried, own, called);
            is = fir_check(tried.bytes, tried.length);
            same("a call's question", is.question, called > own ? FIR_REFUSED_CALLS : FIR_ACCEPTED);
            same("a call's offset or versions", is.detail, called > own ? 23 : 2);
        }
    calling(&tried, ALL_LEVELS, FIR_PORTAL);
    is = fir_check(tried.bytes, tried.length);
    same("an unknown level's question", is.question, FIR_REFUSED_BOUNDS);
    same("an unknown level's offset", is.detail, 11);
}

/* A version with a live call keeps its level, and another need not. */
static void changes(void)
{
    static image other;
    fir_entry is;
    calling(&tried, FIR_FACTORY, FIR_PORTAL);
    calling(&other, FIR_FACTORY, FIR_STAFF);
    same("the load", load(&tried), FIR_LOADED);
    fir_begin(LENT(tried), FIR_FACTORY, 0, 0, words, 2, buffer, FIR_ITEMS, &state);
    is = fir_change(tried.bytes, tried.length, other.bytes, other.length, &state);
    same("the question of a change before the call", is.question, FIR_ACCEPTED);
    fir_step(LENT(tried), &state);
    is = fir_change(tried.bytes, tried.length, other.bytes, other.length, &state);
    same("the question of a change in the call", is.question, FIR_REFUSED_CHANGE);
    same("its offset", is.offset, 23 + 9);
}

int main(void)
{
    size_t i, version;
    leveled(&tried);
    same("the load", load(&tried), FIR_LOADED);
    for (i = 0; i < LEVELS; i++)
        for (version = 0; version < ALL_LEVELS; version++) {
            if (version > levels[i])
                refuses(levels[i], version);
            else
                enters(levels[i], version);
        }
    order();
    calls();
    changes();
    printf("levels: %u passed\n", tests);
    return 0;
}
