/* What fir_where answers: at an instruction, at the end of a block, in a forced block, after each kind of end, and of a state
 * that stands nowhere. It writes nothing. */
#include <stdio.h>
#include <stdlib.h>

#include "images.h"

static unsigned tests;
static image tried;
static fir_state state;
static int64_t buffer[FIR_ITEMS];
static const int64_t words[] = {-1, 40};

static void same(const char *what, const char *field, size_t is, size_t wanted)
{
    tests++;
    if (is != wanted) {
        printf("where: %s: the %s is %lu and not %lu\n", what, field, (unsigned long)is, (unsigned long)wanted);
        exit(1);
    }
}

/* Asserts where the state stands, and that it stays. */
static void stands(const char *what, fir_position wanted)
{
    static fir_state before;
    fir_position is;
    memcpy(&before, &state, sizeof state);
    is = fir_where(LENT(tried), &state);
    same(what, "kind", is.kind, wanted.kind);
    same(what, "function", is.function, wanted.function);
    same(what, "version", is.version, wanted.version);
    same(what, "block", is.block, wanted.block);
    same(what, "instruction", is.instruction, wanted.instruction);
    same(what, "offset", is.offset, wanted.offset);
    same(what, "state's difference", memcmp(&before, &state, sizeof state) != 0, 0);
}

static void nowhere(const char *what)
{
    const fir_position none = {0, FIR_NOWHERE, 0, 0, 0, 0};
    stands(what, none);
}

#define STANDS(what, ...)                           \
    do {                                            \
        const fir_position wanted = {__VA_ARGS__};  \
        stands(what, wanted);                       \
    } while (0)

/* Loads the image, begins a run and takes so many steps of it; the code of the answer. */
static unsigned run(uint32_t steps)
{
    same("the image", "code of its load", load(&tried), FIR_LOADED);
    return fir_run(LENT(tried), FIR_FACTORY, 0, 0, words, 2, steps, buffer, FIR_ITEMS, &state).code;
}

static void calls(void)
{
    calling(&tried, FIR_PORTAL, FIR_PORTAL);
    run(0);
    STANDS("at a CALL", 23, FIR_AT_INSTRUCTION, 0, 0, 0, 0);
    run(1);
    STANDS("in the call", 48, FIR_AT_BLOCK_END, 0, 1, 0, 0);
    run(2);
    STANDS("behind the call", 16, FIR_AT_BLOCK_END, 0, 0, 0, 1);
    same("DONE", "code", run(3), FIR_INTEGER);
    nowhere("after DONE");
}

/* Block b of `nested` stands at 31 + 19 b, its PROM 7 and its FORCE 13 bytes behind; the last of 8 blocks, at 164, has a
 * DISPATCH alone, which enters 1.0, whose block stands at 198. */
static void forces(void)
{
    unsigned b;
    nested(&tried);
    for (b = 0; b < 7; b++) {
        run(2 * b);
        STANDS("at a PROM", 31 + 19 * b + 7, FIR_AT_INSTRUCTION, 0, 0, (uint8_t)b, 0);
        run(2 * b + 1);
        STANDS("at a FORCE", 31 + 19 * b + 13, FIR_AT_INSTRUCTION, 0, 0, (uint8_t)b, 1);
    }
    run(14);
    STANDS("at a DISPATCH", 171, FIR_AT_INSTRUCTION, 0, 0, 7, 0);
    run(15);
    STANDS("in what it enters", 198, FIR_AT_BLOCK_END, 1, 0, 0, 0);
    run(16);
    STANDS("at the end of the last block", 164, FIR_AT_BLOCK_END, 0, 0, 7, 1);
    run(17);
    STANDS("at the end of the one before", 145, FIR_AT_BLOCK_END, 0, 0, 6, 2);
}

/* r0 divided by 0, at 37. */
static void undefined(void)
{
    tried.length = 0;
    RECORD(&tried, VERSION, 0, 0, 1, 2, 2, 1, 2, 2);
    RECORD(&tried, LEVEL, FIR_PORTAL);
    RECORD(&tried, BLOCK, 0, 0, 2);
    RECORD(&tried, LIT, 1, 0, 0, 0, 0, 0, 0, 0, 0);
    RECORD(&tried, ARITH, 0, 3, 0, 1);
    same("UNDEF", "code", run(9), FIR_UNDEF);
    STANDS("after UNDEF", 37, FIR_AT_INSTRUCTION, 0, 0, 0, 1);
}

/* 0.0 calls itself, at 23. */
static void deep(void)
{
    tried.length = 0;
    RECORD(&tried, VERSION, 0, 0, 1, 1, 2, 1, 2);
    RECORD(&tried, LEVEL, FIR_PORTAL);
    RECORD(&tried, BLOCK, 0, 0, 1);
    RECORD(&tried, CALL, 0, 0, 0, 1, 0);
    same("DEEP", "code", run(99), FIR_DEEP);
    STANDS("after DEEP", 23, FIR_AT_INSTRUCTION, 0, 0, 0, 0);
}

/* States of no run, and a run under an image that is not its own. */
static void strangers(void)
{
    calling(&tried, FIR_PORTAL, FIR_PORTAL);
    run(1);
    tried.length = 0;
    same("an empty image", "code of its load", load(&tried), FIR_REFUSED);
    nowhere("under an empty image");
    calling(&tried, FIR_PORTAL, FIR_PORTAL);
    run(1);
    memset(&state, 0, sizeof state);
    nowhere("a state of no call");
    memset(&state, 0xa5, sizeof state);
    nowhere("a state of any bytes");
}

int main(void)
{
    calls();
    forces();
    undefined();
    deep();
    strangers();
    printf("where: %u passed\n", tests);
    return 0;
}
