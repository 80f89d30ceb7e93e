/* What each function of the interface costs: microseconds of the processor's time for a call, the median of some rounds of many calls,
 * with an image of one version and with the longest, of 64 such versions, and beside each how often that is what fir_check costs with
 * the same image. A run stands in the middle of its first version; for one search, which is of an image of its own, at a DISPATCH of
 * eight arguments that four versions do not fit. Then what a step back costs with many steps behind, beside a budget of as many. */
#include <stdio.h>
#include <stdlib.h>
#include <time.h>

#include "images.h"

#define ROUNDS 5
#define ROUND (CLOCKS_PER_SEC / 100) /* the least time of a round */
#define LITERALS 27 /* of a version, and beside them */
#define SUMS 17     /* so many sums: 512 bytes in all */
#define MIDWAY 24   /* steps of a run that takes more than 1,000 */
#define IMAGES 2
#define DOUBLED 20    /* functions of a run that takes more than a million steps */
#define MANY 1000000u /* steps behind the longest step back */

static image images[IMAGES];
static image narrow_images[IMAGES];
static image wrong_images[IMAGES]; /* with one wrong type, in the last version */
static size_t last_types[IMAGES];  /* where that type stands */
static fir_state midways[IMAGES];
static image dispatching; /* its DISPATCH looks at four versions, and none fits */
static fir_state waiting; /* a run of it that stands there */
static const image *tried;
static const image *narrow_tried;
static const image *wrong_tried;
static const fir_state *midway;
static fir_trail trails[IMAGES]; /* of runs from their beginning to their middle */
static const fir_trail *trailed;
static fir_state state;
static fir_trail trail;
static image doubled;
static fir_state doubled_start;
static int64_t buffer[FIR_ITEMS];
static const int64_t words[] = {-1, 40};
static uint8_t text[FIR_REPORT_BYTES];
static uint8_t out[FIR_IMAGE_BYTES];
static uint8_t table[FIR_TABLE_BYTES(FIR_IMAGE_BYTES)];
static uint8_t row_numbers[2 * FIR_ROWS];
static uint64_t row_steps[FIR_ROWS];
static volatile uint64_t seen; /* of each answer, so that no call is left out */

static void nothing(void) { seen++; }
static void check(void) { seen += fir_check(tried->bytes, tried->length).detail; }
static void loads(void) { seen += fir_load(tried->bytes, tried->length, table, sizeof table).detail; }
static void table_size(void) { seen += fir_table_size(tried->length); }
static void report(void) { seen += fir_report(tried->bytes, tried->length, text, sizeof text); }
static void change(void) { seen += fir_change(tried->bytes, tried->length, tried->bytes, tried->length, midway).question; }
static void look(void) { seen += (uint64_t)fir_look(midway, 0, 1).number; }
static fir_row rows[FIR_REGISTERS];
static void watch(void) { seen += fir_watch(LENT(*tried), midway, rows, FIR_REGISTERS).filled; }
static void search(void) { seen += fir_search(LENT(*tried), midway).versions; }
static void search_all(void) { seen += fir_search(LENT(dispatching), &waiting).versions; }
static void where(void) { seen += fir_where(LENT(*tried), midway).offset; }
static void question_text(void) { seen += fir_question_text(FIR_REFUSED_BOUNDS, text, sizeof text); }
static void answer_text(void) { seen += fir_answer_text(FIR_STUCK, text, sizeof text); }
static void narrow(void) { seen += fir_narrow(tried->bytes, tried->length, out, sizeof out).detail; }
static void join(void) { seen += fir_join(tried->bytes, tried->length, tried->bytes, tried->length, out, sizeof out).detail; }
static void bounds(void) { seen += fir_bounds(tried->bytes, tried->length, row_numbers, row_steps).detail; }
static void widen(void) { seen += fir_widen(narrow_tried->bytes, narrow_tried->length, out, sizeof out).detail; }
static void mend(void) { seen += fir_mend(wrong_tried->bytes, wrong_tried->length).place; }

static void begin(void)
{
    seen += fir_begin(LENT(*tried), FIR_PORTAL, 0, 0, words, 2, buffer, FIR_ITEMS, &state).question;
}

static void run(void)
{
    seen += fir_run(LENT(*tried), FIR_PORTAL, 0, 0, words, 2, 1, buffer, FIR_ITEMS, &state).steps;
}

/* The state brought back to the middle of the run: what a step and a budget cost besides. */
static void bring_back(void) { memcpy(&state, midway, sizeof state); }

static void step(void)
{
    bring_back();
    seen += fir_step(LENT(*tried), &state).code;
}

static void budget_of(uint32_t steps)
{
    bring_back();
    seen += fir_budget(LENT(*tried), &state, steps, buffer, FIR_ITEMS).steps;
}

/* In a pool of which nothing is reserved, and where the run may have all. */
static fir_pool pool;
static const uint8_t reserves[FIR_RUNS] = {0};
static void pool_make(void) { seen += fir_pool_make(reserves, &pool).question; }

static void pool_begin(void)
{
    seen += fir_pool_begin(LENT(*tried), FIR_FACTORY, 0, 0, words, 2, buffer, FIR_ITEMS, &state, &pool, 0).question;
}

static void pool_step(void)
{
    bring_back();
    seen += fir_pool_step(LENT(*tried), &state, &pool, 0).code;
}

static void pool_budget_of(uint32_t steps)
{
    bring_back();
    seen += fir_pool_budget(LENT(*tried), &state, &pool, 0, steps, buffer, FIR_ITEMS).steps;
}

static void pool_budget_1(void) { pool_budget_of(1); }
static void pool_budget_100(void) { pool_budget_of(100); }
static void pool_back(void) { seen += fir_pool_back(&pool, 0).question; }

static void pool_change(void)
{
    seen += fir_pool_change(tried->bytes, tried->length, tried->bytes, tried->length, midway, &pool, 0).question;
}

/* The trail brought back too. */
static void bring_both_back(void)
{
    bring_back();
    memcpy(&trail, trailed, sizeof trail);
}

static void trail_start(void)
{
    fir_trail_start(midway, &trail);
    seen += trail.steps;
}

static void trail_step(void)
{
    bring_both_back();
    seen += fir_trail_step(LENT(*tried), &state, &trail).code;
}

static void trail_budget_of(uint32_t steps)
{
    bring_both_back();
    seen += fir_trail_budget(LENT(*tried), &state, &trail, steps, buffer, FIR_ITEMS).steps;
}

static void trail_budget_1(void) { trail_budget_of(1); }
static void trail_budget_100(void) { trail_budget_of(100); }

static void trail_change(void)
{
    seen += fir_trail_change(tried->bytes, tried->length, tried->bytes, tried->length, midway, &trail).question;
}

/* A step back with so many steps behind: what the state holds makes no difference. */
static void back_from(uint32_t steps)
{
    bring_both_back();
    trail.steps = steps;
    seen += fir_trail_back(LENT(*tried), &state, &trail).question;
}

static void back_from_0(void) { back_from(0); }
static void back_from_1(void) { back_from(1); }
static void back_from_101(void) { back_from(101); }

static void many_forward(void)
{
    memcpy(&state, &doubled_start, sizeof state);
    seen += fir_budget(LENT(doubled), &state, MANY - 1, buffer, FIR_ITEMS).steps;
}

static void many_back(void)
{
    trail.steps = MANY;
    seen += fir_trail_back(LENT(doubled), &state, &trail).question;
}

static void budget_0(void) { budget_of(0); }
static void budget_1(void) { budget_of(1); }
static void budget_10(void) { budget_of(10); }
static void budget_100(void) { budget_of(100); }

/* Versions of literals and sums, the first of which calls itself at its end; where the last type of the last version stands. */
static size_t sums(image *to, unsigned versions)
{
    unsigned v, i;
    size_t last = 0;
    to->length = 0;
    for (v = 0; v < versions; v++) {
        RECORD(to, VERSION, (uint8_t)(v / FIR_VERSIONS), (uint8_t)(v % FIR_VERSIONS), 1, 3, 2, 1, 2, 2, 2);
        last = to->length - 1;
        RECORD(to, LEVEL, FIR_PORTAL);
        RECORD(to, BLOCK, 0, 2, v == 0 ? LITERALS - 5 + SUMS + 7 + 1 : LITERALS + SUMS);
        for (i = 0; i < (v == 0 ? LITERALS - 5 : LITERALS); i++)
            RECORD(to, LIT, 1, 1, 0, 0, 0, 0, 0, 0, 0);
        for (i = 0; i < (v == 0 ? SUMS + 7 : SUMS); i++)
            RECORD(to, ARITH, 2, 0, 0, 1);
        if (v == 0)
            RECORD(to, CALL, 2, 0, 0, 1, 0);
    }
    return last;
}

static int later(const void *one, const void *other)
{
    const double a = *(const double *)one, b = *(const double *)other;
    return (a > b) - (a < b);
}

/* The processor's time for so many calls. */
static clock_t time_of(void (*function)(void), unsigned long calls)
{
    const clock_t from = clock();
    for (; calls > 0; calls--)
        function();
    return clock() - from;
}

/* Microseconds of a call. */
static double cost(void (*function)(void))
{
    double rounds[ROUNDS];
    unsigned long calls = 1;
    int i;
    while (time_of(function, calls) < ROUND)
        calls *= 2;
    for (i = 0; i < ROUNDS; i++)
        rounds[i] = (double)time_of(function, calls) / CLOCKS_PER_SEC * 1e6 / (double)calls;
    qsort(rounds, ROUNDS, sizeof *rounds, later);
    return rounds[ROUNDS / 2];
}

/* Makes the images, and brings a run of each to its middle. */
static int prepare(void)
{
    int i;
    last_types[0] = sums(&images[0], 1);
    last_types[1] = sums(&images[1], FIR_PLACES);
    searching(&dispatching, FIR_VERSIONS, FIR_VERSIONS);
    if (load(&dispatching) != FIR_LOADED)
        return 0;
    fir_run(LENT(dispatching), FIR_PORTAL, 0, 0, words, 2, SEARCH_STEPS, buffer, FIR_ITEMS, &waiting);
    if (fir_search(LENT(dispatching), &waiting).looked != FIR_VERSIONS)
        return 0;
    for (i = 0; i < IMAGES; i++) {
        image *image = &images[i];
        const fir_verdict moved = fir_narrow(image->bytes, image->length, narrow_images[i].bytes, FIR_IMAGE_BYTES);
        narrow_images[i].length = moved.detail;
        if (load(image) != FIR_LOADED)
            return 0;
        fir_begin(LENT(*image), FIR_PORTAL, 0, 0, words, 2, buffer, FIR_ITEMS, &midways[i]);
        fir_trail_start(&midways[i], &trails[i]);
        fir_trail_budget(LENT(*image), &midways[i], &trails[i], MIDWAY, buffer, FIR_ITEMS);
        wrong_images[i] = *image;
        wrong_images[i].bytes[last_types[i]] = 3;
        if (fir_mend(wrong_images[i].bytes, image->length).mend != FIR_MENDED)
            return 0;
        if (moved.question != FIR_ACCEPTED || midways[i].status != FIR_STEPS || midways[i].calls != 1)
            return 0;
    }
    return 1;
}

/* Turns to one of the images. */
static void turn_to(size_t i)
{
    tried = &images[i];
    narrow_tried = &narrow_images[i];
    wrong_tried = &wrong_images[i];
    midway = &midways[i];
    trailed = &trails[i];
}

/* A step back with many steps behind, and a budget of as many: milliseconds; whether the run was as long. */
static int many(void)
{
    double forward, back;
    doubling(&doubled, DOUBLED);
    load(&doubled);
    fir_begin(LENT(doubled), FIR_PORTAL, 0, 0, words, 2, buffer, FIR_ITEMS, &doubled_start);
    fir_trail_start(&doubled_start, &trail);
    memcpy(&state, &doubled_start, sizeof state);
    fir_trail_budget(LENT(doubled), &state, &trail, MANY, buffer, FIR_ITEMS);
    if (trail.steps != MANY)
        return 0;
    forward = cost(many_forward);
    back = cost(many_back);
    printf("costs: fir_trail_back with %lu steps behind %.2f milliseconds, a budget of one step less %.2f\n",
           (unsigned long)MANY, back / 1e3, forward / 1e3);
    return 1;
}

/* The calls that are measured, each with what is done besides. */
static const struct {
    const char *name;
    void (*function)(void);
    void (*besides)(void);
} calls[] = {{"fir_check", check, nothing}, {"fir_load", loads, nothing}, {"fir_report", report, nothing},
             {"fir_change", change, nothing}, {"fir_widen", widen, nothing}, {"fir_narrow", narrow, nothing},
             {"fir_join, with itself", join, nothing}, {"fir_bounds", bounds, nothing}, {"fir_mend", mend, nothing},
             {"fir_begin", begin, nothing}, {"fir_run, 1 step", run, nothing}, {"fir_step", step, bring_back},
             {"fir_budget, 0 steps", budget_0, bring_back}, {"fir_budget, 1 step", budget_1, bring_back},
             {"fir_budget, 10 steps", budget_10, bring_back}, {"fir_budget, 100 steps", budget_100, bring_back},
             {"fir_trail_start", trail_start, nothing}, {"fir_trail_step", trail_step, bring_both_back},
             {"fir_trail_budget, 1", trail_budget_1, bring_both_back},
             {"fir_trail_budget, 100", trail_budget_100, bring_both_back},
             {"fir_trail_change", trail_change, nothing}, {"fir_trail_back, 20", back_from_0, bring_both_back},
             {"fir_trail_back, 1", back_from_1, bring_both_back},
             {"fir_trail_back, 101", back_from_101, bring_both_back},
             {"fir_pool_make", pool_make, nothing}, {"fir_pool_begin", pool_begin, nothing},
             {"fir_pool_step", pool_step, bring_back}, {"fir_pool_budget, 1", pool_budget_1, bring_back},
             {"fir_pool_budget, 100", pool_budget_100, bring_back}, {"fir_pool_change", pool_change, nothing},
             {"fir_pool_back", pool_back, nothing},
             {"fir_where", where, nothing}, {"fir_watch", watch, nothing}, {"fir_search", search, nothing},
             {"fir_search, 4 in vain", search_all, nothing}, {"fir_look", look, nothing},
             {"fir_table_size", table_size, nothing}, {"fir_question_text", question_text, nothing},
             {"fir_answer_text", answer_text, nothing}};

int main(void)
{
    double checked[IMAGES], taken;
    size_t i, k;
    if (!prepare()) {
        printf("costs: an image is refused\n");
        return 1;
    }
    printf("costs: microseconds of a call, and that by fir_check, with an image of %lu bytes and with one of %lu\n",
           (unsigned long)images[0].length, (unsigned long)images[1].length);
    for (k = 0; k < IMAGES; k++) {
        turn_to(k);
        checked[k] = cost(check) - cost(nothing);
    }
    for (i = 0; i < sizeof calls / sizeof *calls; i++) {
        printf("costs: %-22s", calls[i].name);
        for (k = 0; k < IMAGES; k++) {
            turn_to(k);
            taken = cost(calls[i].function) - cost(calls[i].besides);
            printf(" %9.2f %7.3f", taken, taken / checked[k]);
        }
        printf("\n");
    }
    if (!many()) {
        printf("costs: a run is too short\n");
        return 1;
    }
    return 0;
}
