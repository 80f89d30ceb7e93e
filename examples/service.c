/*
 * A service screen: a run goes on by a budget in each tick, and between two ticks the screen shows the topmost call, each register
 * with its declared type and what it holds.
 *
 *     service                          the image below, one screen below the other
 *     service FILE WORD..              version 0.0 of the image in FILE, begun with these argument words: for each parameter -1 and
 *                                      an integer, or a length and that many integers
 *     service --redraw [FILE WORD..]   draws each screen over the one before, as on a terminal
 */
#include <stdio.h>
#include <stdlib.h>
#include <string.h>

#include "fir.h"

#define BUDGET 2
#define WORDS 64 /* argument words at most */
#define PROGRAM image, image_length, table, sizeof table

/* 0.0 has the readings of a sensor and a limit, and gives both a promise for the first reading and the limit to 1.0, which asks
 * whether the reading is above it. While the promise is forced, a block of 0.0 is worked on, and 1.0 stays the topmost call. */
static const uint8_t sensor[] = {
    16, 0, 1, 0, 0, 0, 2, 6, 2, 2, 3, 2, 4, 2, 2, 2, /* VERSION 0.0 */
    5, 0, 3, 0, 0,                                   /* LEVEL, the portal */
    7, 0, 2, 0, 0, 3, 2,                             /* BLOCK 0, its result in r3 */
    6, 0, 29, 0, 2, 1,                               /* PROM r2 = block 1 */
    10, 0, 33, 0, 3, 1, 0, 2, 1, 2,                  /* CALL r3 = 1.0(r1, r2) */
    7, 0, 2, 0, 0, 5, 2,                             /* BLOCK 1, its result in r5 */
    13, 0, 36, 0, 4, 0, 0, 0, 0, 0, 0, 0, 0,         /* LIT r4 = 0 */
    7, 0, 22, 0, 5, 0, 4,                            /* GET r5 = r0[r4] */
    14, 0, 1, 0, 1, 0, 2, 4, 2, 1, 2, 4, 2, 2,       /* VERSION 1.0 */
    5, 0, 3, 0, 0,                                   /* LEVEL, the portal */
    7, 0, 2, 0, 0, 3, 2,                             /* BLOCK 0, its result in r3 */
    6, 0, 30, 0, 2, 1,                               /* FORCE r2 = r1 */
    8, 0, 24, 0, 3, 4, 0, 2,                         /* r3 = r0 < r2 */
};

static const int64_t sensor_words[] = {3, 260, 255, 251, -1, 250};

static uint8_t read_in[FIR_IMAGE_BYTES + 1]; /* a byte more than an image has, so that a longer file is refused */
static const uint8_t *image = sensor;
static size_t image_length = sizeof sensor;
static uint8_t table[FIR_TABLE_BYTES(FIR_IMAGE_BYTES)];
static fir_state state;

/* The words of a declared type: its ownership, and its kind. */
static const char *type_words(uint8_t declared)
{
    static const char *const shared[] = {"any", "value", "int", "vector", "quiet promise", "reflective promise"};
    if (declared / 16 == 1)
        return "own vector";
    if (declared / 16 == 2)
        return "borrow vector";
    return declared < sizeof shared / sizeof *shared ? shared[declared] : "?";
}

/* One register: what it does not hold is 0, and is not shown. */
static void show_row(unsigned r, const fir_row *row)
{
    unsigned i;
    printf("  r%-2u %-18s", r, type_words(row->declared));
    switch (row->holds) {
    case FIR_IS_INTEGER:
        printf("%lld", (long long)row->integer);
        break;
    case FIR_IS_VECTOR:
        for (i = 0; i < row->length; i++)
            printf("%s%lld", i > 0 ? ", " : "[", (long long)row->items[i]);
        printf("%s", row->length > 0 ? "]" : "[]");
        break;
    case FIR_IS_PROMISE:
        printf("a promise, %s", row->mark == 0 ? "quiet" : "reflective");
        break;
    default:
        printf("-");
    }
    printf("\n");
}

/* Where the run stands, and the topmost call. */
static int show_call(unsigned long steps)
{
    fir_row rows[FIR_REGISTERS];
    fir_watched watched = fir_watch(PROGRAM, &state, rows, FIR_REGISTERS);
    fir_position at = fir_where(PROGRAM, &state);
    unsigned r;
    printf("after %lu steps", steps);
    if (at.kind != FIR_NOWHERE)
        printf(", in block %u of %u.%u", at.block, at.function, at.version);
    printf(": %u registers of the topmost call\n", watched.filled);
    for (r = 0; r < watched.filled; r++)
        show_row(r, &rows[r]);
    return watched.question;
}

/* Reads the image of a file. */
static int read_image(const char *name)
{
    FILE *file = fopen(name, "rb");
    if (file == NULL) {
        perror(name);
        return 0;
    }
    image = read_in;
    image_length = fread(read_in, 1, sizeof read_in, file);
    fclose(file);
    return 1;
}

/* Says which question refuses, and where. */
static int refused(unsigned question, size_t offset)
{
    printf("refused by %u at %lu\n", question, (unsigned long)offset);
    return 1;
}

/* Loads the image and begins its run. */
static int begin(const int64_t *words, size_t count)
{
    int64_t buffer[FIR_ITEMS];
    fir_loaded loaded = fir_load(image, image_length, table, sizeof table);
    fir_entry entry;
    if (loaded.code != FIR_LOADED)
        return refused(loaded.question, loaded.detail);
    entry = fir_begin(PROGRAM, FIR_STAFF, 0, 0, words, count, buffer, FIR_ITEMS, &state);
    return entry.question == FIR_ACCEPTED ? 0 : refused(entry.question, entry.offset);
}

/* Shows the topmost call, goes on by a budget, and so on until the run ends. */
static int watch(int redraw)
{
    int64_t buffer[FIR_ITEMS];
    uint8_t words[FIR_ANSWER_TEXT_BYTES];
    unsigned long steps = 0;
    fir_answer answer;
    do {
        if (redraw)
            printf("\033[H\033[2J");
        if (show_call(steps) != FIR_ACCEPTED)
            return 1;
        answer = fir_budget(PROGRAM, &state, BUDGET, buffer, FIR_ITEMS);
        steps += answer.steps;
    } while (answer.code == FIR_STEPS);
    if (show_call(steps) != FIR_ACCEPTED)
        return 1;
    printf("%.*s", (int)fir_answer_text(answer.code, words, sizeof words), (const char *)words);
    if (answer.code == FIR_INTEGER)
        printf(", %lld", (long long)answer.value);
    printf("\n");
    return 0;
}

int main(int count, char **arguments)
{
    static int64_t words[WORDS];
    const int redraw = count > 1 && strcmp(arguments[1], "--redraw") == 0;
    const int file = redraw ? 2 : 1;
    const int given = count > file ? count - file - 1 : 0;
    int i;
    if (given > WORDS) {
        printf("more than %d words\n", WORDS);
        return 2;
    }
    if (count > file && !read_image(arguments[file]))
        return 2;
    for (i = 0; i < given; i++)
        words[i] = strtoll(arguments[file + 1 + i], NULL, 10);
    if (begin(count > file ? words : sensor_words, count > file ? (size_t)given : sizeof sensor_words / sizeof *sensor_words) != 0)
        return 1;
    return watch(redraw);
}
