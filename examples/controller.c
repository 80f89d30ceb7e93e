/*
 * A controller loop: a FIR image computes the positions of three valves from the temperature that is wanted, the one that is
 * measured, and the positions so far. It gets a budget of steps in each tick and goes on in the next one where they are used
 * up, so a tick never takes more steps than its budget.
 *
 *     controller            runs the image below
 *     controller FILE       runs the image in FILE
 */
#include <stdio.h>

#include "fir.h"

#define VALVES 3
#define TICKS 12
#define BUDGET 15

/* Function 0: a quarter of what is wanted less what is measured is added to each position, and function 1 keeps the sum
 * within 0 to 100. */
static const uint8_t built_in[] = {
    21, 0, 1, 0, 0, 0, 3, 11, 3, 1, 2, 2, 3, 2, 2, 2, 2, 2, 2, 2, 3, /* VERSION 0.0 */
    5, 0, 3, 0, 0,                                                   /* LEVEL, the portal */
    7, 0, 2, 0, 0, 10, 16,                                          /* BLOCK, its result in r10 */
    13, 0, 36, 0, 4, 4, 0, 0, 0, 0, 0, 0, 0,                        /* LIT r4 = 4 */
    8, 0, 24, 0, 3, 1, 0, 1,                                        /* r3 = r0 - r1 */
    8, 0, 24, 0, 5, 3, 3, 4,                                        /* r5 = r3 / r4 */
    13, 0, 36, 0, 6, 0, 0, 0, 0, 0, 0, 0, 0,                        /* LIT r6 = 0 */
    7, 0, 22, 0, 7, 2, 6,                                           /* GET r7 = r2[r6] */
    8, 0, 24, 0, 7, 0, 7, 5,                                        /* r7 = r7 + r5 */
    9, 0, 33, 0, 7, 1, 0, 1, 7,                                     /* CALL r7 = 1.0(r7) */
    13, 0, 36, 0, 6, 1, 0, 0, 0, 0, 0, 0, 0,                        /* the same for r8 */
    7, 0, 22, 0, 8, 2, 6,                                           /* */
    8, 0, 24, 0, 8, 0, 8, 5,                                        /* */
    9, 0, 33, 0, 8, 1, 0, 1, 8,                                     /* */
    13, 0, 36, 0, 6, 2, 0, 0, 0, 0, 0, 0, 0,                        /* and for r9 */
    7, 0, 22, 0, 9, 2, 6,                                           /* */
    8, 0, 24, 0, 9, 0, 9, 5,                                        /* */
    9, 0, 33, 0, 9, 1, 0, 1, 9,                                     /* */
    9, 0, 20, 0, 10, 3, 7, 8, 9,                                    /* VEC r10 = r7, r8, r9 */
    17, 0, 1, 0, 1, 0, 1, 7, 2, 1, 2, 2, 2, 2, 2, 2, 2,             /* VERSION 1.0 */
    5, 0, 3, 0, 0,                                                  /* LEVEL, the portal */
    7, 0, 2, 0, 0, 6, 6,                                            /* BLOCK, its result in r6 */
    13, 0, 36, 0, 1, 100, 0, 0, 0, 0, 0, 0, 0,                      /* LIT r1 = 100 */
    8, 0, 24, 0, 2, 4, 1, 0,                                        /* r2 = r1 < r0 */
    8, 0, 25, 0, 3, 2, 1, 0,                                        /* SELECT r3 = r2 ? r1 : r0 */
    13, 0, 36, 0, 4, 0, 0, 0, 0, 0, 0, 0, 0,                        /* LIT r4 = 0 */
    8, 0, 24, 0, 5, 4, 3, 4,                                        /* r5 = r3 < r4 */
    8, 0, 25, 0, 6, 5, 4, 3,                                        /* SELECT r6 = r5 ? r4 : r3 */
};

static uint8_t read_in[FIR_IMAGE_BYTES + 1]; /* one byte more, so that a longer file is refused and not cut */
static uint8_t text[FIR_REPORT_BYTES];
static uint8_t table[FIR_TABLE_BYTES(FIR_IMAGE_BYTES)]; /* of the image, which is loaded once */
static fir_state state;

static int refused(const char *what, uint8_t question, size_t offset)
{
    uint8_t words[FIR_QUESTION_TEXT_BYTES];
    size_t length = fir_question_text(question, words, sizeof words);
    printf("%s refused by %u at %lu: %.*s\n", what, question, (unsigned long)offset, (int)length, (const char *)words);
    return 1;
}

/* What ended the run otherwise than with positions, and the record of the image that it stands at, if any. */
static int ended(const uint8_t *image, size_t length, uint8_t code)
{
    uint8_t words[FIR_ANSWER_TEXT_BYTES];
    size_t words_length = fir_answer_text(code, words, sizeof words);
    fir_position at = fir_where(image, length, table, sizeof table, &state);
    printf("%.*s", (int)words_length, (const char *)words);
    if (at.kind != FIR_NOWHERE)
        printf(", in %u.%u at %lu", at.function, at.version, (unsigned long)at.offset);
    printf("\n");
    return 1;
}

/* The plant: open valves warm it, and it loses heat. */
static int64_t warmed(int64_t measured, const int64_t *valves)
{
    return measured + (valves[0] + valves[1] + valves[2]) / 12 - 5;
}

/* Begins the run of a new set of positions: what is wanted, what is measured, and the positions so far. It states the level of
 * site staff: an image in FILE may have versions for the factory, and none of them is entered. */
static fir_entry begin(const uint8_t *image, size_t length, int64_t wanted, int64_t measured, const int64_t *valves)
{
    const int64_t words[] = {-1, wanted, -1, measured, VALVES, valves[0], valves[1], valves[2]};
    return fir_begin(image, length, table, sizeof table, FIR_STAFF, 0, 0, words, sizeof words / sizeof *words, valves, FIR_ITEMS,
                     &state);
}

static int control(const uint8_t *image, size_t length)
{
    int64_t valves[FIR_ITEMS] = {0};
    int64_t measured = 180;
    int tick;
    fir_value error;
    fir_answer answer;
    fir_entry entry = begin(image, length, 215, measured, valves);
    if (entry.question != FIR_ACCEPTED)
        return refused("run", entry.question, entry.offset);
    for (tick = 0; tick < TICKS; tick++) {
        answer = fir_budget(image, length, table, sizeof table, &state, BUDGET, valves, FIR_ITEMS);
        printf("tick %2d, %2lu steps: ", tick, (unsigned long)answer.steps);
        switch (answer.code) {
        case FIR_STEPS:
            error = fir_look(&state, 0, 3);
            printf("goes on, the error is %lld\n", (long long)error.number);
            continue;
        case FIR_VECTOR:
            measured = warmed(measured, valves);
            printf("valves at %lld %lld %lld, measured %lld\n", (long long)valves[0], (long long)valves[1], (long long)valves[2],
                   (long long)measured);
            break;
        case FIR_REFUSED:
            return refused("budget", answer.question, answer.offset);
        default:
            return ended(image, length, answer.code);
        }
        entry = begin(image, length, 215, measured, valves);
        if (entry.question != FIR_ACCEPTED)
            return refused("run", entry.question, entry.offset);
    }
    return 0;
}

int main(int count, char **arguments)
{
    const uint8_t *image = built_in;
    size_t length = sizeof built_in;
    fir_loaded loaded;
    fir_versions built = fir_version();
    if (built.interface_number != FIR_INTERFACE || built.state_layout != FIR_STATE_LAYOUT) {
        printf("the library is not the one of the header\n");
        return 2;
    }
    if (count > 1) {
        FILE *file = fopen(arguments[1], "rb");
        if (file == NULL) {
            perror(arguments[1]);
            return 2;
        }
        image = read_in;
        length = fread(read_in, 1, sizeof read_in, file);
        fclose(file);
    }
    loaded = fir_load(image, length, table, sizeof table);
    if (loaded.code != FIR_LOADED)
        return refused("image", loaded.question, loaded.detail);
    fwrite(text, 1, fir_report(image, length, text, sizeof text), stdout);
    return control(image, length);
}
