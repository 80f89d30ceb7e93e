/* What fir_search answers in its three cases: at a DISPATCH that a version fits, at one that none fits, and elsewhere; for
 * functions of one to four versions. It writes nothing. */
#include <stdio.h>
#include <stdlib.h>

#include "images.h"

static unsigned tests;
static image tried;
static fir_state state;
static int64_t buffer[FIR_ITEMS];
static const int64_t words[] = {-1, 40};

/* Asserts what the state's search comes to, and that the state stays. */
static void answers(const char *what, unsigned dispatch, unsigned looked, unsigned versions)
{
    static fir_state before;
    fir_searched is;
    memcpy(&before, &state, sizeof state);
    is = fir_search(LENT(tried), &state);
    tests++;
    if (is.dispatch != dispatch || is.looked != looked || is.versions != versions) {
        printf("search: %s: %u, %u of %u, and not %u, %u of %u\n", what, is.dispatch, is.looked, is.versions, dispatch, looked,
               versions);
        exit(1);
    }
    if (memcmp(&before, &state, sizeof state) != 0) {
        printf("search: %s: the state is not as it was\n", what);
        exit(1);
    }
}

/* Goes on for so many steps, or to the end. */
static unsigned go_on(uint32_t steps)
{
    return fir_budget(LENT(tried), &state, steps, buffer, FIR_ITEMS).code;
}

/* Asserts the code of an answer. */
static void ended(unsigned is, unsigned wanted)
{
    if (is != wanted) {
        printf("search: the code is %u and not %u\n", is, wanted);
        exit(1);
    }
}

int main(void)
{
    unsigned versions, fitting;
    for (versions = 1; versions <= FIR_VERSIONS; versions++)
        for (fitting = 0; fitting <= versions; fitting++) {
            unsigned looked = fitting < versions ? fitting + 1 : versions;
            searching(&tried, versions, fitting);
            ended(load(&tried), FIR_LOADED);
            fir_begin(LENT(tried), FIR_PORTAL, 0, 0, words, 2, buffer, FIR_ITEMS, &state);
            answers("before", 0, 0, 0);
            ended(go_on(SEARCH_STEPS), FIR_STEPS);
            answers("at a DISPATCH", 1, looked, versions);
            if (fitting < versions) {
                ended(go_on(1), FIR_STEPS);
                answers("in the call", 0, 0, 0);
                ended(go_on(100), FIR_INTEGER);
                answers("after DONE", 0, 0, 0);
            } else {
                ended(go_on(100), FIR_UNDEF);
                answers("after UNDEF", 1, looked, versions);
            }
        }
    memset(&state, 0, sizeof state);
    answers("a state of no run", 0, 0, 0);
    printf("search: %u passed\n", tests);
    return 0;
}
