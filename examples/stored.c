/*
 * A controller that finds an image of the form of 32 bits in its store. What fir_check refuses and fir_check_in accepts in that
 * form is moved by fir_widen, and the moved image is run and kept in its place. For a box with the library of that time it is
 * moved back by fir_narrow, unless a literal has grown beyond 32 bits.
 *
 * The image is that of pump.fir in the form of 32 bits.
 */
#include <stdio.h>
#include <string.h>

#include "fir.h"

#define BUDGET 100

/* The speed that three rooms ask of the pump: 0.0 asks each of them by 1.0, and adds up. */
static const uint8_t stored[] = {
    15, 0, 1, 0, 0, 0, 2, 5, 2, 1, 2, 3, 2, 2, 2, /* VERSION 0.0: r0 wanted, r1 the rooms */
    5, 0, 3, 0, 0,                                /* LEVEL, the portal */
    7, 0, 2, 0, 0, 4, 11,                         /* BLOCK, its result in r4 */
    9, 0, 16, 0, 2, 0, 0, 0, 0,                   /* LIT r2 = 0, with a number of 4 bytes */
    7, 0, 22, 0, 3, 1, 2,                         /* GET r3 = r1[r2] */
    10, 0, 33, 0, 4, 1, 0, 2, 0, 3,               /* CALL r4 = 1.0(r0, r3) */
    9, 0, 16, 0, 2, 1, 0, 0, 0,                   /* LIT r2 = 1 */
    7, 0, 22, 0, 3, 1, 2,                         /* GET r3 = r1[r2] */
    10, 0, 33, 0, 3, 1, 0, 2, 0, 3,               /* CALL r3 = 1.0(r0, r3) */
    8, 0, 24, 0, 4, 0, 4, 3,                      /* r4 = r4 + r3 */
    9, 0, 16, 0, 2, 2, 0, 0, 0,                   /* LIT r2 = 2 */
    7, 0, 22, 0, 3, 1, 2,                         /* GET r3 = r1[r2] */
    10, 0, 33, 0, 3, 1, 0, 2, 0, 3,               /* CALL r3 = 1.0(r0, r3) */
    8, 0, 24, 0, 4, 0, 4, 3,                      /* r4 = r4 + r3 */
    12, 0, 1, 0, 1, 0, 2, 2, 2, 1, 2, 2,          /* VERSION 1.0: r0 wanted, r1 the room */
    5, 0, 3, 0, 0,                                /* LEVEL, the portal */
    7, 0, 2, 0, 0, 0, 1,                          /* BLOCK, its result in r0 */
    8, 0, 24, 0, 0, 1, 0, 1,                      /* r0 = r0 - r1 */
};

/* The first literal of the moved image, and the highest byte of its number. */
#define LITERAL 27
#define HIGHEST (LITERAL + 12)

static uint8_t moved[FIR_IMAGE_BYTES];
static uint8_t back[FIR_IMAGE_BYTES];

static void say(const char *what, fir_verdict verdict, const char *counted)
{
    if (verdict.question == FIR_ACCEPTED)
        printf("%s: %lu %s\n", what, (unsigned long)verdict.detail, counted);
    else
        printf("%s: refused by question %u at %lu\n", what, verdict.question, (unsigned long)verdict.detail);
}

/* Loads the moved image and runs it for three rooms. */
static void run(size_t length)
{
    static const int64_t words[] = {-1, 210, 3, 200, 195, 225};
    static int64_t buffer[FIR_ITEMS];
    static uint8_t table[FIR_TABLE_BYTES(FIR_IMAGE_BYTES)];
    static fir_state state;
    fir_answer answer;
    fir_load(moved, length, table, sizeof table);
    answer = fir_run(moved, length, table, sizeof table, FIR_PORTAL, 0, 0, words, 6, BUDGET, buffer, FIR_ITEMS, &state);
    if (answer.code == FIR_INTEGER)
        printf("the speed is %ld, after %lu steps\n", (long)answer.value, (unsigned long)answer.steps);
    else
        printf("no speed: code %u\n", answer.code);
}

int main(void)
{
    fir_verdict there, again;
    say("as an image in force", fir_check(stored, sizeof stored), "versions");
    say("as one of 32 bits", fir_check_in(stored, sizeof stored, FIR_FORM_32), "versions");
    there = fir_widen(stored, sizeof stored, moved, sizeof moved);
    say("moved", there, "bytes");
    if (there.question != FIR_ACCEPTED)
        return 1;
    say("as an image in force", fir_check(moved, there.detail), "versions");
    run(there.detail);
    again = fir_narrow(moved, there.detail, back, sizeof back);
    say("moved back", again, "bytes");
    if (again.detail != sizeof stored || memcmp(back, stored, sizeof stored) != 0)
        return 1;
    printf("they are the stored ones\n");
    say("into a place too few", fir_widen(stored, sizeof stored, back, there.detail - 1), "bytes");
    moved[HIGHEST] = 1;
    say("with a literal of 2^56 moved back", fir_narrow(moved, there.detail, back, sizeof back), "bytes");
    return memcmp(back, stored, sizeof stored) != 0;
}
