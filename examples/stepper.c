/*
 * A stepper for a plant visit: a run goes forward and back by keys, and after each of them it shows how many steps lie behind, where
 * the run stands, and what the registers of its live calls hold. Once past the moment that one came for, `b` leads back to it.
 *
 *     stepper               steps through the image below
 *     stepper FILE WORD..   steps through version 0.0 of the image in FILE, begun with these argument words: for each parameter
 *                           -1 and an integer, or a length and that many integers
 *
 * Keys are read from standard input, one on each line:
 *
 *     n      takes a step
 *     b      takes a step back, also from the end
 *     r N    runs for N steps at most; without N to the end
 *     q      leaves, as the end of the input does
 */
#include <inttypes.h>
#include <stdio.h>
#include <stdlib.h>

#include "fir.h"

#define WORDS 64 /* argument words at most */
#define KEYS 80  /* signs of a line */
#define OWNER 24 /* where the function of a call stands among its tags; its version stands behind it */

/* The speed that three rooms ask of the pump, as in pump.fir: 0.0 asks each of them by 1.0, and adds up. */
static const uint8_t pump[] = {
    15, 0, 1, 0, 0, 0, 2, 5, 2, 1, 2, 3, 2, 2, 2, /* VERSION 0.0: r0 wanted, r1 the rooms */
    5, 0, 3, 0, 0,                                /* LEVEL, the portal */
    7, 0, 2, 0, 0, 4, 11,                         /* BLOCK, its result in r4 */
    13, 0, 36, 0, 2, 0, 0, 0, 0, 0, 0, 0, 0,      /* LIT r2 = 0 */
    7, 0, 22, 0, 3, 1, 2,                         /* GET r3 = r1[r2] */
    10, 0, 33, 0, 4, 1, 0, 2, 0, 3,               /* CALL r4 = 1.0(r0, r3) */
    13, 0, 36, 0, 2, 1, 0, 0, 0, 0, 0, 0, 0,      /* LIT r2 = 1 */
    7, 0, 22, 0, 3, 1, 2,                         /* GET r3 = r1[r2] */
    10, 0, 33, 0, 3, 1, 0, 2, 0, 3,               /* CALL r3 = 1.0(r0, r3) */
    8, 0, 24, 0, 4, 0, 4, 3,                      /* r4 = r4 + r3 */
    13, 0, 36, 0, 2, 2, 0, 0, 0, 0, 0, 0, 0,      /* LIT r2 = 2 */
    7, 0, 22, 0, 3, 1, 2,                         /* GET r3 = r1[r2] */
    10, 0, 33, 0, 3, 1, 0, 2, 0, 3,               /* CALL r3 = 1.0(r0, r3) */
    8, 0, 24, 0, 4, 0, 4, 3,                      /* r4 = r4 + r3 */
    12, 0, 1, 0, 1, 0, 2, 2, 2, 1, 2, 2,          /* VERSION 1.0: r0 wanted, r1 the room */
    5, 0, 3, 0, 0,                                /* LEVEL, the portal */
    7, 0, 2, 0, 0, 0, 1,                          /* BLOCK, its result in r0 */
    8, 0, 24, 0, 0, 1, 0, 1,                      /* r0 = r0 - r1 */
};
static const int64_t pump_words[] = {-1, 210, 3, 200, 195, 225};

static uint8_t read_in[FIR_IMAGE_BYTES + 1]; /* one byte more, so that a longer file is refused and not cut */
static const uint8_t *image = pump;
static size_t image_length = sizeof pump;
static uint8_t table[FIR_TABLE_BYTES(FIR_IMAGE_BYTES)];
static fir_state state;
static fir_trail trail; /* of the state: its start, and how many steps lie behind */
static int64_t items[FIR_ITEMS];

#define PROGRAM image, image_length, table, sizeof table

static int refused(uint8_t question, size_t offset)
{
    uint8_t words[FIR_QUESTION_TEXT_BYTES];
    size_t length = fir_question_text(question, words, sizeof words);
    printf("refused by %u at %lu: %.*s\n", question, (unsigned long)offset, (int)length, (const char *)words);
    return 1;
}

static void show_items(const int64_t *first, uint8_t length)
{
    uint8_t i;
    printf("[");
    for (i = 0; i < length && i < FIR_ITEMS; i++)
        printf("%s%" PRId64, i > 0 ? ", " : "", first[i]);
    printf("]");
}

/* What a register or a name holds, if anything. */
static void show_place(size_t call, size_t place)
{
    fir_value value = fir_look(&state, call, place);
    if (value.kind == FIR_NOTHING || value.kind == FIR_OUTSIDE)
        return;
    printf(", %c%lu = ", place < FIR_REGISTERS ? 'r' : 'x', (unsigned long)(place % FIR_REGISTERS));
    if (value.kind == FIR_IS_INTEGER) {
        printf("%" PRId64, value.number);
    } else if (value.kind == FIR_IS_PROMISE) {
        printf("promise %u", value.place);
    } else {
        printf("vector %u ", value.place);
        show_items(state.items + FIR_ITEMS * value.place, state.lengths[value.place]);
    }
}

static void show_calls(void)
{
    size_t call, place;
    for (call = 0; call < state.calls; call++) {
        const uint8_t *owner = state.tags + FIR_STRIDE * call + OWNER;
        printf("  call %lu of %u.%u", (unsigned long)call, owner[0], owner[1]);
        for (place = 0; place < FIR_REGISTERS + FIR_NAMES; place++)
            show_place(call, place);
        printf("\n");
    }
}

/* How the run has ended. */
static void show_end(void)
{
    uint8_t words[FIR_ANSWER_TEXT_BYTES];
    size_t length = fir_answer_text(state.status, words, sizeof words);
    printf("%.*s", (int)length, (const char *)words);
    if (state.status == FIR_INTEGER)
        printf(", %" PRId64, state.value);
    if (state.status == FIR_VECTOR) {
        printf(", ");
        show_items(state.result, state.length);
    }
}

/* How many steps lie behind, where the run stands, and its live calls. */
static void show(void)
{
    fir_position at = fir_where(PROGRAM, &state);
    if (trail.past == 0)
        printf("%lu step%s behind: ", (unsigned long)trail.steps, trail.steps == 1 ? "" : "s");
    else
        printf("too many steps to go back: ");
    if (state.status != FIR_STEPS)
        show_end();
    if (state.status != FIR_STEPS && at.kind != FIR_NOWHERE)
        printf(", ");
    if (at.kind == FIR_AT_INSTRUCTION)
        printf("%u.%u, block %u, instruction %u", at.function, at.version, at.block, at.instruction);
    if (at.kind == FIR_AT_BLOCK_END)
        printf("%u.%u, block %u, its end", at.function, at.version, at.block);
    if (at.kind != FIR_NOWHERE)
        printf(", at %lu", (unsigned long)at.offset);
    printf("\n");
    show_calls();
}

/* Does what a line says; 0 where it is to leave. */
static int obey(const char *line)
{
    fir_entry back;
    char *end;
    unsigned long long steps;
    switch (line[0]) {
    case 'n':
        fir_trail_step(PROGRAM, &state, &trail);
        break;
    case 'b':
        back = fir_trail_back(PROGRAM, &state, &trail);
        if (back.question != FIR_ACCEPTED)
            refused(back.question, back.offset);
        break;
    case 'r':
        steps = strtoull(line + 1, &end, 10);
        if (end == line + 1 || steps > UINT32_MAX)
            steps = UINT32_MAX;
        fir_trail_budget(PROGRAM, &state, &trail, (uint32_t)steps, items, FIR_ITEMS);
        break;
    case 'q':
        return 0;
    default:
        printf("n a step, b a step back, r N runs, q leaves\n");
        return 1;
    }
    show();
    return 1;
}

/* Reads the image of a file. */
static int read_image(const char *name)
{
    FILE *file = fopen(name, "rb");
    if (file == NULL) {
        perror(name);
        return 0;
    }
    image = read_in;
    image_length = fread(read_in, 1, sizeof read_in, file);
    fclose(file);
    return 1;
}

/* Loads the image, begins the run, and keeps its start. The stepper is for the factory's own staff: it may enter every version. */
static int begin(const int64_t *words, size_t count)
{
    fir_loaded loaded = fir_load(image, image_length, table, sizeof table);
    fir_entry entry;
    if (loaded.code != FIR_LOADED)
        return refused(loaded.question, loaded.detail);
    entry = fir_begin(PROGRAM, FIR_FACTORY, 0, 0, words, count, items, FIR_ITEMS, &state);
    if (entry.question != FIR_ACCEPTED)
        return refused(entry.question, entry.offset);
    fir_trail_start(&state, &trail);
    return 0;
}

int main(int count, char **arguments)
{
    static int64_t words[WORDS];
    char line[KEYS];
    int i;
    fir_versions built = fir_version();
    if (built.interface_number != FIR_INTERFACE || built.state_layout != FIR_STATE_LAYOUT) {
        printf("the library is not the one of the header\n");
        return 2;
    }
    if (count - 2 > WORDS) {
        printf("more than %d words\n", WORDS);
        return 2;
    }
    if (count > 1 && !read_image(arguments[1]))
        return 2;
    for (i = 2; i < count; i++)
        words[i - 2] = strtoll(arguments[i], NULL, 10);
    if (begin(count > 1 ? words : pump_words, count > 1 ? (size_t)(count - 2) : sizeof pump_words / sizeof *pump_words) != 0)
        return 1;
    show();
    while (fgets(line, sizeof line, stdin) != NULL && obey(line))
        fflush(stdout);
    return 0;
}
