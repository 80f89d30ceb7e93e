/* The examples of the header, as they stand there: each is run, and what it does or prints is compared. */
#include <stdio.h>
#include <stdlib.h>

#include "images.h"

#include "examples.inc"

enum { PRINTED = 2048 };

/* The four arguments of an image with the table of the examples. */
#define TABLED(image) (image).bytes, (image).length, table, sizeof table

static unsigned tests;
static image tried;
static fir_state state;
static int64_t items[FIR_ITEMS];
static const int64_t words[] = {-1, 7};
static const int64_t vector[] = {2, 30, 40};

static void same(const char *what, size_t is, size_t wanted)
{
    tests++;
    if (is != wanted) {
        printf("examples: %s is %lu and not %lu\n", what, (unsigned long)is, (unsigned long)wanted);
        exit(1);
    }
}

static FILE *opened(void)
{
    FILE *file = tmpfile();
    if (file == NULL) {
        perror("examples");
        exit(2);
    }
    return file;
}

/* Asserts what an example has printed, and closes its file. */
static void printed(FILE *file, const char *wanted)
{
    static char text[PRINTED];
    size_t length;
    rewind(file);
    length = fread(text, 1, sizeof text - 1, file);
    text[length] = 0;
    fclose(file);
    tests++;
    if (strcmp(text, wanted) != 0) {
        printf("examples: an example prints\n%s\nand not\n%s\n", text, wanted);
        exit(1);
    }
}

/* Loads the image into the table of the examples, and begins a run. */
static void begins(const int64_t *arguments, size_t length)
{
    same("whether the image is loaded", (size_t)load_image(stdout, tried.bytes, tried.length), 1);
    same("a beginning's question",
         fir_begin(TABLED(tried), FIR_PORTAL, 0, 0, arguments, length, items, FIR_ITEMS, &state).question,
         FIR_ACCEPTED);
}

static void texts(void)
{
    FILE *file = opened();
    say_refusal(file, FIR_REFUSED_BUFFER, 0);
    printed(file, "refused by 13 at 0: the result buffer has fewer than 16 places\n");
    calling(&tried, FIR_PORTAL, FIR_PORTAL);
    file = opened();
    same("whether the image is loaded", (size_t)load_image(file, tried.bytes, tried.length), 1);
    say_answer(file, fir_run(TABLED(tried), FIR_PORTAL, 0, 0, words, 2, 2, items, FIR_ITEMS, &state));
    say_answer(file, fir_budget(TABLED(tried), &state, 100, items, FIR_ITEMS));
    printed(file, "the run goes on, steps taken: 2\nDONE with an integer, steps taken: 1\n");
    file = opened();
    print_report(file, tried.bytes, tried.length);
    printed(file, "0.0 1 1 0 0\n0.1 1 0 0 0\naccepted 2\n");
}

/* A run in two parts, between which its state is stored and read back; a state of another layout is not. */
static void stored(void)
{
    FILE *file = opened();
    calling(&tried, FIR_PORTAL, FIR_PORTAL);
    begins(words, 2);
    fir_step(TABLED(tried), &state);
    same("a state's being stored", (size_t)store_state(file, &state), 1);
    memset(&state, 0, sizeof state);
    rewind(file);
    same("a state's being read", (size_t)read_state(file, &state), 1);
    same("the steps that were left", run_by_slices(tried.bytes, tried.length, &state, items).steps, 2);
    same("the value", (size_t)state.value, 7);
    rewind(file);
    fputc(FIR_STATE_LAYOUT + 1, file);
    rewind(file);
    same("another layout's being read", (size_t)read_state(file, &state), 0);
    fclose(file);
}

/* A run by single steps that gives a vector. */
static void stepped(void)
{
    fir_said said;
    tried.length = 0;
    RECORD(&tried, VERSION, 0, 0, 1, 1, 3, 1, 3);
    RECORD(&tried, LEVEL, FIR_PORTAL);
    RECORD(&tried, BLOCK, 0, 0, 0);
    begins(vector, sizeof vector / sizeof *vector);
    said = step_to_the_end(tried.bytes, tried.length, &state, items);
    same("the code", said.code, FIR_VECTOR);
    same("the length", said.length, 2);
    same("the first item", (size_t)items[0], 30);
    same("the second item", (size_t)items[1], 40);
}

/* An image that is loaded, and one that is not. */
static void loading(void)
{
    FILE *file = opened();
    calling(&tried, FIR_PORTAL, FIR_PORTAL);
    same("whether an image is loaded", (size_t)load_image(file, tried.bytes, tried.length), 1);
    same("the place of the version 0.0", table[0], 2);
    same("whether a part of an image is loaded", (size_t)load_image(file, tried.bytes, tried.length - 1), 0);
    same("the place of the version 0.0", table[0], 0);
    printed(file, "refused by 2 at 48: a record has no full head, a length below 4, or an end behind the image\n");
}

/* A change of the image, refused while the version that differs has a live call, and accepted before. */
static void changing(void)
{
    static image other;
    calling(&tried, FIR_FACTORY, FIR_PORTAL);
    calling(&other, FIR_FACTORY, FIR_STAFF);
    same("whether the image is loaded", (size_t)load_image(stdout, tried.bytes, tried.length), 1);
    fir_begin(TABLED(tried), FIR_FACTORY, 0, 0, words, 2, items, FIR_ITEMS, &state);
    fir_step(TABLED(tried), &state);
    same("a change in the call", (size_t)change_image(tried.bytes, tried.length, other.bytes, other.length, &state), 0);
    same("the steps that were left", fir_budget(TABLED(tried), &state, 9, items, FIR_ITEMS).steps, 2);
    fir_begin(TABLED(tried), FIR_FACTORY, 0, 0, words, 2, items, FIR_ITEMS, &state);
    same("a change before the call", (size_t)change_image(tried.bytes, tried.length, other.bytes, other.length, &state), 1);
    same("the steps of the run", run_by_slices(other.bytes, other.length, &state, items).steps, 3);
}

/* A run of a version without parameters, and that one with a parameter is refused without words. */
static void without_words(void)
{
    tried.length = 0;
    RECORD(&tried, VERSION, 0, 0, 0, 1, 2, 1, 2);
    RECORD(&tried, LEVEL, FIR_PORTAL);
    RECORD(&tried, BLOCK, 0, 0, 1);
    RECORD(&tried, LIT, 0, 9, 0, 0, 0, 0, 0, 0, 0);
    same("whether the image is loaded", (size_t)load_image(stdout, tried.bytes, tried.length), 1);
    same("a beginning without words", begin_without_words(tried.bytes, tried.length, items, &state).question, FIR_ACCEPTED);
    run_by_slices(tried.bytes, tried.length, &state, items);
    same("the literal", (size_t)state.value, 9);
    calling(&tried, FIR_PORTAL, FIR_PORTAL);
    same("whether the image is loaded", (size_t)load_image(stdout, tried.bytes, tried.length), 1);
    same("a missing word", begin_without_words(tried.bytes, tried.length, items, &state).question, FIR_REFUSED_ARGUMENTS);
}

/* Asserts that the last checkpoint is in the state of so many steps, as far as its calls can see. */
static void at_point(uint32_t steps)
{
    static fir_state wanted;
    const fir_state *is = &points[last].state;
    const fir_position here = fir_where(TABLED(tried), is);
    fir_run(TABLED(tried), FIR_PORTAL, 0, 0, words, 2, steps, items, FIR_ITEMS, &wanted);
    same("the offset", here.offset, fir_where(TABLED(tried), &wanted).offset);
    same("the instruction", here.instruction, fir_where(TABLED(tried), &wanted).instruction);
    same("the calls", is->calls, wanted.calls);
    same("r2", (size_t)fir_look(is, is->calls - 1u, 2).number, (size_t)fir_look(&wanted, wanted.calls - 1u, 2).number);
}

/* A run forward and back over checkpoints: no step back takes more than as many steps as lie between two. */
static void checkpoints(void)
{
    uint32_t steps, forward = 3 * EACH + 7;
    chain(&tried, FIR_FUNCTIONS);
    begins(words, 2);
    keep_begun(&state);
    for (steps = 1; steps <= forward; steps++) {
        same("a step's code", one_forward(tried.bytes, tried.length).code, FIR_STEPS);
        at_point(steps);
    }
    same("the checkpoint", last, 3);
    for (steps = forward; steps > 0; steps--) {
        same("a step back's question", one_back(tried.bytes, tried.length).question, FIR_ACCEPTED);
        at_point(steps - 1);
        same("whether few steps lie behind", points[last].trail.steps <= EACH, 1);
    }
    same("the question at the start", one_back(tried.bytes, tried.length).question, FIR_REFUSED_BACK);
    for (steps = 0; steps < (CHECKPOINTS + 1) * EACH && one_forward(tried.bytes, tried.length).code == FIR_STEPS; steps++)
        ;
    same("the steps to the end", steps + 1, FIR_FUNCTIONS * 49u);
}

/* The topmost call, step by step: the second call's register, then the first one's again, and none at the end. */
static void watching(void)
{
    FILE *file = opened();
    calling(&tried, FIR_PORTAL, FIR_PORTAL);
    begins(words, 2);
    do {
        show_call(file, tried.bytes, tried.length, &state);
        fputc('-', file);
    } while (fir_step(TABLED(tried), &state).code == FIR_STEPS);
    show_call(file, tried.bytes, tried.length, &state);
    printed(file, "r0 7\n-r0 7\n-r0 7\n-");
}

/* Eight runs that hoard vectors, in a pool that keeps 8 for each: all come to VECTORS in their second round. */
static void one_by_one(void)
{
    static const uint8_t reserves[FIR_RUNS] = {8, 8, 8, 8, 8, 8, 8, 8};
    static fir_state states[FIR_RUNS];
    fir_pool pool;
    size_t number, rounds = 0;
    hoarding_vectors(&tried);
    same("whether the image is loaded", (size_t)load_image(stdout, tried.bytes, tried.length), 1);
    same("a pool's question", fir_pool_make(reserves, &pool).question, FIR_ACCEPTED);
    for (number = 0; number < FIR_RUNS; number++) {
        fir_pool_begin(TABLED(tried), FIR_PORTAL, 0, 0, words, 2, items, FIR_ITEMS, &states[number], &pool, number);
        same("what a run may have", may_have(&pool, number), 8);
    }
    while (one_round(tried.bytes, tried.length, states, &pool, 5) > 0)
        rounds++;
    same("the rounds that some run goes on after", rounds, 1);
    for (number = 0; number < FIR_RUNS; number++) {
        same("how a run ends", states[number].status, FIR_VECTORS);
        same("what it has then", pool.has[number], 0);
    }
    pool.has[1] = 20;
    same("what a run may have beside 20 of another", may_have(&pool, 0), 8);
    same("what that other may have", may_have(&pool, 1), 8);
}

static void positions(void)
{
    FILE *file = opened();
    calling(&tried, FIR_PORTAL, FIR_PORTAL);
    begins(words, 2);
    do
        say_position(file, tried.bytes, tried.length, &state);
    while (fir_step(TABLED(tried), &state).code == FIR_STEPS);
    say_position(file, tried.bytes, tried.length, &state);
    printed(file, "0.0, block 0, instruction 0, at 23\n"
                  "0.1, block 0, its end, at 48\n"
                  "0.0, block 0, its end, at 16\n"
                  "nowhere\n");
}

/* Two images joined, their functions counted, and the words where the second is refused or the two are too much. */
static void joining(void)
{
    static uint8_t out[FIR_IMAGE_BYTES];
    static image other;
    FILE *file = opened();
    size_t length;
    calling(&tried, FIR_PORTAL, FIR_PORTAL);
    leveled(&other);
    length = join_or_say_why(file, tried.bytes, tried.length, other.bytes, other.length, out);
    same("the joined length", length, tried.length + other.length);
    same("the first image's functions", functions_of_accepted(tried.bytes, tried.length), 1);
    same("the joined image's functions", functions_of_accepted(out, length), 3);
    calling(&other, FIR_PORTAL, FIR_STAFF);
    same("a refused length", join_or_say_why(file, tried.bytes, tried.length, other.bytes, other.length, out), 0);
    chain(&other, FIR_FUNCTIONS);
    same("a refused length", join_or_say_why(file, tried.bytes, tried.length, other.bytes, other.length, out), 0);
    printed(file, "the second image: refused by 18 at 23: a CALL goes to a version of a higher level\n"
                  "the two together: refused by 23 at 0: the joined image would break a bound of the layout, or does not fit "
                  "the buffer\n");
}

/* A mend that is offered, one that does not exist, and images that none is looked for. */
static void mending(void)
{
    FILE *file = opened();
    calling(&tried, FIR_PORTAL, FIR_PORTAL);
    offer_mend(file, tried.bytes, tried.length);
    offer_mend(file, tried.bytes, 0);
    tried.bytes[10] = 3;
    offer_mend(file, tried.bytes, tried.length);
    tried.bytes[8] = 3;
    offer_mend(file, tried.bytes, tried.length);
    printed(file, "byte 10: 2 in place of 3\n"
                  "no register type mends it\n");
}

static void bounds(void)
{
    calling(&tried, FIR_PORTAL, FIR_PORTAL);
    same("the most steps of 0.0", (size_t)most_steps(tried.bytes, tried.length, 0, 0), 3);
    same("the most steps of 0.1", (size_t)most_steps(tried.bytes, tried.length, 0, 1), 1);
    same("those of no version", most_steps(tried.bytes, tried.length, 1, 0) == FIR_NONE, 1);
    same("those of no image", most_steps(tried.bytes, 0, 0, 0) == FIR_NONE, 1);
    begins(words, 2);
    same("the steps that are taken", run_by_slices(tried.bytes, tried.length, &state, items).steps, 3);
}

int main(void)
{
    same("whether the library is the header's", (size_t)library_is_the_headers(), 1);
    texts();
    stored();
    loading();
    stepped();
    changing();
    without_words();
    checkpoints();
    one_by_one();
    watching();
    positions();
    joining();
    mending();
    bounds();
    printf("examples: %u passed\n", tests);
    return 0;
}
