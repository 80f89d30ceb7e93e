/*
 * A block of eight stairwells on one box: each has a run of its own, and all share the places for 64 vectors. The runs go on in turn,
 * each by a budget in each round; behind a round a line for each stairwell says how many vectors it reserves, has and may have. Those
 * that stopped with VECTORS are started anew, once and one by one, when all others have ended.
 *
 *     stairwells        the image below
 *     stairwells FILE   version 0.0 of the image in FILE, begun with -1 and an integer as its words
 */
#include <stdio.h>
#include <string.h>

#include "fir.h"

#define BUDGET 12
#define PROGRAM image, image_length, table, sizeof table

/* 0.0 has a number of rooms. For each it keeps two vectors, and calls itself for the others: it gives the sum of their numbers. */
static const uint8_t rooms[] = {
    15, 0, 1, 0, 0, 0, 1, 5, 2, 1, 2, 2, 3, 3, 2, /* VERSION 0.0, r0 to r4: int, int, vector, vector, int */
    5, 0, 3, 0, 0,                                /* LEVEL, the portal */
    7, 0, 2, 0, 0, 4, 8,                          /* BLOCK 0, its result in r4 */
    13, 0, 36, 0, 4, 0, 0, 0, 0, 0, 0, 0, 0,      /* LIT r4 = 0 */
    6, 0, 35, 0, 0, 6,                            /* SKIP the others, where r0 is 0 */
    7, 0, 20, 0, 2, 1, 0,                         /* VEC r2 = [r0] */
    8, 0, 20, 0, 3, 2, 0, 0,                      /* VEC r3 = [r0, r0] */
    13, 0, 36, 0, 1, 1, 0, 0, 0, 0, 0, 0, 0,      /* LIT r1 = 1 */
    8, 0, 24, 0, 1, 1, 0, 1,                      /* r1 = r0 - r1 */
    9, 0, 33, 0, 4, 0, 0, 1, 1,                   /* CALL r4 = 0.0(r1) */
    8, 0, 24, 0, 4, 0, 4, 0,                      /* r4 = r4 + r0 */
};

static const uint8_t reserves[FIR_RUNS] = {4, 4, 4, 4, 4, 4, 4, 4};
static const int64_t rooms_of[FIR_RUNS] = {2, 3, 4, 9, 1, 5, 12, 8};

static uint8_t read_in[FIR_IMAGE_BYTES + 1]; /* a byte more than an image has, so that a longer file is refused */
static const uint8_t *image = rooms;
static size_t image_length = sizeof rooms;
static uint8_t table[FIR_TABLE_BYTES(FIR_IMAGE_BYTES)];

/* The pool, and beside it the states of its runs with their answers. */
static fir_pool pool;
static fir_state states[FIR_RUNS];
static fir_answer answers[FIR_RUNS];
static int anew[FIR_RUNS]; /* whether the run was started anew */
static int64_t items[FIR_RUNS][FIR_ITEMS];

/* How many vectors the run of a number may have, while no other run moves. */
static unsigned may_have(size_t number)
{
    unsigned others = 0, left;
    size_t j;
    for (j = 0; j < FIR_RUNS; j++)
        if (j != number)
            others += pool.reserves[j] > pool.has[j] ? pool.reserves[j] : pool.has[j];
    left = others < FIR_PLACES ? FIR_PLACES - others : 0;
    return left > pool.reserves[number] ? left : pool.reserves[number];
}

/* Says which question refuses, and where. */
static int refused(unsigned question, size_t offset)
{
    printf("refused by %u at %lu\n", question, (unsigned long)offset);
    return 1;
}

/* Starts the run of a stairwell, over the one that it had. */
static int start(size_t number)
{
    int64_t words[2];
    fir_entry begun;
    words[0] = -1;
    words[1] = rooms_of[number];
    memset(&answers[number], 0, sizeof answers[number]);
    begun = fir_pool_begin(PROGRAM, FIR_PORTAL, 0, 0, words, 2, items[number], FIR_ITEMS, &states[number], &pool, number);
    return begun.question == FIR_ACCEPTED ? 0 : refused(begun.question, begun.offset);
}

/* Lets the run of a stairwell go on by a budget, and names its end. */
static void go_on(size_t number)
{
    uint8_t text[FIR_ANSWER_TEXT_BYTES];
    const unsigned most = may_have(number);
    fir_answer answer = fir_pool_budget(PROGRAM, &states[number], &pool, number, BUDGET, items[number], FIR_ITEMS);
    answer.steps += answers[number].steps;
    answers[number] = answer;
    if (answer.code == FIR_STEPS)
        return;
    printf("stairwell %lu, after %lu steps: ", (unsigned long)number, (unsigned long)answer.steps);
    if (answer.code == FIR_VECTORS)
        printf("VECTORS, where it may have %u\n", most);
    else if (answer.code == FIR_INTEGER)
        printf("DONE with %lld\n", (long long)answer.value);
    else
        printf("%.*s\n", (int)fir_answer_text(answer.code, text, sizeof text), (const char *)text);
}

/* One round; how many runs go on. */
static unsigned round_of_budgets(void)
{
    unsigned going = 0;
    size_t number;
    for (number = 0; number < FIR_RUNS; number++) {
        if (answers[number].code == FIR_STEPS)
            go_on(number);
        going += answers[number].code == FIR_STEPS;
    }
    return going;
}

/* A line for each stairwell whose run goes on. */
static void show(unsigned rounds)
{
    unsigned together = 0;
    size_t number;
    for (number = 0; number < FIR_RUNS; number++)
        together += pool.has[number];
    printf("round %u: %u vectors in use\n", rounds, together);
    for (number = 0; number < FIR_RUNS; number++)
        if (answers[number].code == FIR_STEPS)
            printf("  stairwell %lu reserves %u, has %2u, may have %2u\n", (unsigned long)number, pool.reserves[number],
                   pool.has[number], may_have(number));
}

/* Starts the first anew that stopped with VECTORS, if one did that was not; whether it goes on. */
static int start_anew(void)
{
    size_t number;
    for (number = 0; number < FIR_RUNS; number++)
        if (answers[number].code == FIR_VECTORS && !anew[number]) {
            anew[number] = 1;
            printf("stairwell %lu is started anew\n", (unsigned long)number);
            return start(number) == 0;
        }
    return 0;
}

/* Reads the image of a file. */
static int read_image(const char *name)
{
    FILE *file = fopen(name, "rb");
    if (file == NULL) {
        perror(name);
        return 0;
    }
    image = read_in;
    image_length = fread(read_in, 1, sizeof read_in, file);
    fclose(file);
    return 1;
}

int main(int count, char **arguments)
{
    fir_loaded loaded;
    fir_entry made;
    unsigned rounds = 0;
    size_t number;
    if (count > 1 && !read_image(arguments[1]))
        return 2;
    loaded = fir_load(image, image_length, table, sizeof table);
    if (loaded.code != FIR_LOADED)
        return refused(loaded.question, loaded.detail);
    made = fir_pool_make(reserves, &pool);
    if (made.question != FIR_ACCEPTED)
        return refused(made.question, made.offset);
    for (number = 0; number < FIR_RUNS; number++)
        if (start(number) != 0)
            return 1;
    do {
        while (round_of_budgets() > 0)
            show(++rounds);
    } while (start_anew());
    return 0;
}
