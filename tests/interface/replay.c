/* The conformance kit: plays recorded cases with the library and compares all that it answers and leaves with what is recorded.
 * SPDX-License-Identifier: Apache-2.0
 *
 *     cc -std=c99 -O2 -I../include replay.c ../lib/libfir.a -o replay
 *     ./replay cases.bin
 *
 * It names the first difference of each case that differs, with the case, the event and the field, and ends with `N passed, M failed`,
 * which counts cases. The status is 0 where all pass, 1 where some fail, 2 where the file cannot be read, is cut or is damaged.
 * Of the C library it needs stdio alone.
 *
 *     ./replay --record SCRIPTS CASES
 *
 * is how cases are made: it plays SCRIPTS, which tests/generator writes, and writes them to CASES with what the library answered.
 *
 * A file of cases begins with the 8 bytes of `mark`. Each case is a length, so many bytes, and their sum in 8 bytes (FNV-1a of 64 bits,
 * the lowest byte first). Behind the last one stand the length 0 and how many cases and events there are. A number has 7 bits in each
 * byte, the lowest first, and the top bit where more follow; a signed one is folded, 0, -1, 1, -2. The bytes of a case are its title
 * and its events: the number of a row of `kinds`, what is asked, and then, in a script not yet, what was answered. Of memory that the
 * library is lent the differences to what was there before are recorded: runs of a length, a gap and bytes, or one repeated byte. */
#include <stdio.h>

#include "fir.h"

#define BLOCK 300000                  /* bytes of a case, at most */
#define IMAGE (2 * FIR_IMAGE_BYTES)   /* an image that is refused may be longer than one that is not */
#define TABLE FIR_TABLE_BYTES(FIR_IMAGE_BYTES)
#define IMAGES (FIR_RUNS + 2)         /* those of all runs, and the two that were put last */
#define WORDS 256
#define PLACES 64                     /* of a result buffer */
#define ROWS (FIR_REGISTERS + 1)
#define LOOKS (FIR_REGISTERS + FIR_NAMES + 1) /* places of a call, and one that is none */
#define TITLE 80
#define FILL 165                      /* what all lent memory holds as a case begins */
#define SHOWN 10                      /* failed cases whose difference is shown */
#define QUESTIONS 24                  /* FIR_ACCEPTED, and the refusals 1 to 23 */
#define CODES (FIR_REFUSED + 1)
#define LEAST_EVENTS 20000            /* of a kit that is recorded */
#define LEAST_EACH 5                  /* of each refusal and each answer */
#define MOST_BYTES 5000000

enum { PASSED, FAILED, UNREADABLE }; /* the status of the program */

static const uint8_t mark[8] = {'F', 'I', 'R', 'K', 'I', 'T', '1', '\n'};

/* ---- The case that is played ---- */

static int recording;
static uint8_t block[BLOCK]; /* its bytes */
static size_t block_length, block_at;
static uint8_t made[BLOCK]; /* those that are recorded */
static size_t made_length;
static char title[TITLE + 1];
static unsigned long cases, events, failed;
static unsigned long event;      /* its number in the case */
static const char *event_name;
static int broken;  /* the case has not what its events need */
static int differs; /* a difference was found in it */
static unsigned long refusals[QUESTIONS], codes[CODES];

static uint8_t next_byte(void)
{
    if (block_at == block_length) {
        broken = 1;
        return 0;
    }
    return block[block_at++];
}

static uint64_t next_number(void)
{
    uint64_t number = 0;
    unsigned shift = 0;
    uint8_t byte;
    do {
        byte = next_byte();
        number |= (uint64_t)(byte & 127) << shift;
        shift += 7;
    } while ((byte & 128) != 0 && shift < 64);
    return number;
}

static void make_byte(uint8_t byte)
{
    if (made_length == BLOCK)
        broken = 1;
    else
        made[made_length++] = byte;
}

static void make_number(uint64_t number)
{
    for (; number > 127; number >>= 7)
        make_byte((uint8_t)(number | 128));
    make_byte((uint8_t)number);
}

static uint64_t folded(int64_t number)
{
    return (uint64_t)number << 1 ^ (number < 0 ? UINT64_MAX : 0);
}

static int64_t unfolded(uint64_t number)
{
    return (number & 1) != 0 ? -(int64_t)(number >> 1) - 1 : (int64_t)(number >> 1);
}

/* A byte of what is asked. */
static uint8_t given_byte(void)
{
    const uint8_t byte = next_byte();
    if (recording)
        make_byte(byte);
    return byte;
}

/* A number of what is asked. */
static uint64_t given(void)
{
    const uint64_t number = next_number();
    if (recording)
        make_number(number);
    return number;
}

/* A number up to a bound. */
static size_t given_within(size_t most)
{
    const uint64_t number = given();
    if (number <= most)
        return (size_t)number;
    broken = 1;
    return 0;
}

/* Any number as a size: where that has 32 bits, a larger one is the largest. */
static size_t given_size(void)
{
    const uint64_t number = given();
    return number > SIZE_MAX ? SIZE_MAX : (size_t)number;
}

/* ---- What is compared ---- */

/* Says the first difference of a case: a field, and beside its name the number of its record and its own, where it has them. */
static void say(const char *area, long record, const char *field, long element, int64_t here, int64_t recorded)
{
    if (differs || broken)
        return;
    differs = 1;
    if (failed >= SHOWN)
        return;
    printf("replay: case %lu (%s), event %lu, %s: ", cases + 1, title, event, event_name);
    if (area[0] != '\0')
        printf("%s", area);
    if (record >= 0)
        printf("[%ld]", record);
    if (area[0] != '\0' && field[0] != '\0')
        printf(".");
    printf("%s", field);
    if (element >= 0)
        printf("[%ld]", element);
    printf(" is %lld, recorded is %lld\n", (long long)here, (long long)recorded);
    fflush(stdout);
}

/* A signed number that the library answered. */
static void answered_signed(const char *field, int64_t here)
{
    int64_t recorded;
    if (recording) {
        make_number(folded(here));
        return;
    }
    recorded = unfolded(next_number());
    if (recorded != here)
        say("", -1, field, -1, here, recorded);
}

static void answered(const char *field, uint64_t here)
{
    uint64_t recorded;
    if (recording) {
        make_number(here);
        return;
    }
    recorded = next_number();
    if (recorded != here)
        say("", -1, field, -1, (int64_t)here, (int64_t)recorded);
}

static void answered_question(uint8_t question)
{
    answered("question", question);
    if (question < QUESTIONS)
        refusals[question]++;
}

static void answered_code(uint8_t code)
{
    answered("code", code);
    if (code < CODES)
        codes[code]++;
}

/* A field of a struct: elements of so many bytes each. */
typedef struct field {
    const char *name;
    size_t offset, width, count;
} field;

#define ARRAY(type, name) {#name, offsetof(type, name), sizeof ((type *)0)->name[0], sizeof ((type *)0)->name / sizeof ((type *)0)->name[0]}
#define SCALAR(type, name) {#name, offsetof(type, name), sizeof ((type *)0)->name, 1}
#define NO_MORE {NULL, 0, 0, 0}

/* Memory that the library is lent, and what is to stand there. */
typedef struct area {
    const char *name;
    void *here;
    void *recorded;
    size_t length;
    size_t record; /* the length of a record, where it is a list of them; else 0 */
    size_t width;  /* of its elements, where it has no fields */
    const field *fields;
    int used; /* in this case */
} area;

/* The element at a place of an area, as a number. */
static int64_t element_at(const void *bytes, size_t at, size_t width)
{
    const uint8_t *byte = (const uint8_t *)bytes + at;
    uint64_t number = 0;
    size_t i;
    for (i = width; i-- > 0;)
        number = number << 8 | byte[i];
    return (int64_t)number;
}

/* Says which element of an area differs at a place. */
static void say_element(const area *area, size_t at)
{
    const size_t first = area->record == 0 ? 0 : at / area->record * area->record;
    const field *field = area->fields;
    size_t element, start, width = area->width;
    long record = area->record == 0 ? -1 : (long)(at / area->record);
    const char *name = "";
    long number;
    at -= first;
    if (field == NULL) {
        element = at / width;
        start = element * width;
        number = (long)element;
    } else {
        while (field[1].name != NULL && field[1].offset <= at)
            field++;
        width = field->width;
        element = (at - field->offset) / width;
        start = field->offset + element * width;
        name = field->name;
        number = field->count == 1 ? -1 : (long)element;
    }
    say(area->name, record, name, number, element_at(area->here, first + start, width), element_at(area->recorded, first + start, width));
}

#define WORTH 4 /* as many same bytes are recorded as one */

/* How many bytes from a place on are the same. */
static size_t repeated(const uint8_t *bytes, size_t at, size_t end)
{
    size_t next = at + 1;
    while (next < end && bytes[next] == bytes[at])
        next++;
    return next - at;
}

/* How many bytes from a place on are recorded as one run: those that are the same, where they are many; else those that differ, up to
 * some that are the same. */
static size_t run_from(const area *area, size_t at)
{
    const uint8_t *here = area->here, *recorded = area->recorded;
    size_t end = at;
    if (repeated(here, at, area->length) >= WORTH)
        return repeated(here, at, area->length);
    while (end < area->length && here[end] != recorded[end] && repeated(here, end, area->length) < WORTH)
        end++;
    return end - at;
}

/* Records how an area differs from what was there. */
static void make_differences(const area *area)
{
    const uint8_t *here = area->here;
    uint8_t *recorded = area->recorded;
    size_t at = 0, last = 0, length, same, i;
    while (at < area->length) {
        if (here[at] == recorded[at]) {
            at++;
            continue;
        }
        length = run_from(area, at);
        same = length >= WORTH && repeated(here, at, at + length) == length;
        make_number(length * 2 + same);
        make_number(at - last);
        for (i = 0; i < (same ? 1 : length); i++)
            make_byte(here[at + i]);
        for (i = 0; i < length; i++, at++)
            recorded[at] = here[at];
        last = at;
    }
    make_number(0);
}

/* Brings what is to stand in an area up to date. */
static void take_differences(const area *area)
{
    uint8_t *recorded = area->recorded;
    uint64_t head, gap;
    size_t at = 0, run;
    uint8_t byte = 0;
    for (head = next_number(); head != 0 && !broken; head = next_number()) {
        gap = next_number();
        if (gap > area->length - at || head / 2 == 0 || head / 2 > area->length - at - gap) {
            broken = 1;
            return;
        }
        at += (size_t)gap;
        run = (size_t)(head / 2);
        if (head % 2 != 0)
            byte = next_byte();
        for (; run > 0; run--)
            recorded[at++] = head % 2 != 0 ? byte : next_byte();
    }
}

/* Compares an area. */
static void left(area *area)
{
    const uint8_t *here = area->here, *recorded = area->recorded;
    size_t at = 0;
    area->used = 1;
    if (recording) {
        make_differences(area);
        return;
    }
    take_differences(area);
    while (at < area->length && here[at] == recorded[at])
        at++;
    if (at < area->length)
        say_element(area, at);
}

static void fill(void *bytes, size_t length)
{
    uint8_t *byte = bytes;
    while (length > 0)
        byte[--length] = FILL;
}

/* Fills what is behind the last field of a struct, which means nothing. */
static void fill_padding(void *bytes, size_t from, size_t to)
{
    fill((uint8_t *)bytes + from, to - from);
}

/* ---- What the library is lent ---- */

typedef struct image {
    size_t length, table_length;
    uint8_t bytes[IMAGE];
    uint8_t table[TABLE];
    uint8_t recorded_table[TABLE];
    area tables;
} image;

/* A run: its state, and the image that is in force. */
typedef struct run {
    image *in_force;
    fir_state state, recorded_state;
    area states;
} run;

/* What fir_look says of the places of a call. */
typedef struct looks {
    int64_t number[LOOKS];
    uint8_t kind[LOOKS], place[LOOKS];
} looks;

static const field state_fields[] = {
    ARRAY(fir_state, numbers), ARRAY(fir_state, items), ARRAY(fir_state, caches), ARRAY(fir_state, result), SCALAR(fir_state, value),
    ARRAY(fir_state, tags), ARRAY(fir_state, places), ARRAY(fir_state, stack), ARRAY(fir_state, promises), ARRAY(fir_state, lengths),
    SCALAR(fir_state, calls), SCALAR(fir_state, depth), SCALAR(fir_state, status), SCALAR(fir_state, length), ARRAY(fir_state, spare),
    NO_MORE};
static const field trail_fields[] = {ARRAY(fir_trail, numbers), ARRAY(fir_trail, bytes), SCALAR(fir_trail, steps), SCALAR(fir_trail, past),
                                     NO_MORE};
static const field pool_fields[] = {ARRAY(fir_pool, reserves), ARRAY(fir_pool, has), NO_MORE};
static const field row_fields[] = {SCALAR(fir_row, integer), ARRAY(fir_row, items), SCALAR(fir_row, declared), SCALAR(fir_row, holds),
                                   SCALAR(fir_row, length), SCALAR(fir_row, mark), NO_MORE};
static const field look_fields[] = {ARRAY(looks, number), ARRAY(looks, kind), ARRAY(looks, place), NO_MORE};

static image images[IMAGES];
static image *newest, *before; /* the image that was put last, and the one before it */
static run runs[FIR_RUNS];
static int64_t words[WORDS];

static uint8_t text[FIR_REPORT_BYTES], recorded_text[FIR_REPORT_BYTES];
static uint8_t out[IMAGE], recorded_out[IMAGE];
static int64_t buffer[PLACES], recorded_buffer[PLACES];
static uint8_t versions[2 * FIR_ROWS], recorded_versions[2 * FIR_ROWS];
static uint64_t bounds[FIR_ROWS], recorded_bounds[FIR_ROWS];
static fir_row rows[ROWS], recorded_rows[ROWS];
static looks looked, recorded_looks;
static fir_trail trail, recorded_trail;
static fir_pool pool, recorded_pool;

static area texts = {"text", text, recorded_text, sizeof text, 0, 1, NULL, 1};
static area outs = {"out", out, recorded_out, sizeof out, 0, 1, NULL, 1};
static area buffers = {"buffer", buffer, recorded_buffer, sizeof buffer, 0, sizeof *buffer, NULL, 1};
static area bound_versions = {"numbers", versions, recorded_versions, sizeof versions, 0, 1, NULL, 1};
static area bound_steps = {"steps", bounds, recorded_bounds, sizeof bounds, 0, sizeof *bounds, NULL, 1};
static area watched_rows = {"rows", rows, recorded_rows, sizeof rows, sizeof *rows, 0, row_fields, 1};
static area looked_at = {"look", &looked, &recorded_looks, sizeof looked, 0, 0, look_fields, 1};
static area trails = {"trail", &trail, &recorded_trail, sizeof trail, 0, 0, trail_fields, 1};
static area pools = {"pool", &pool, &recorded_pool, sizeof pool, 0, 0, pool_fields, 1};

static void refill(area *area)
{
    if (!area->used)
        return;
    fill(area->here, area->length);
    fill(area->recorded, area->length);
    area->used = 0;
}

/* Gives images and runs their areas. */
static void prepare(void)
{
    size_t i;
    for (i = 0; i < IMAGES; i++) {
        const area tables = {"table", images[i].table, images[i].recorded_table, TABLE, 0, 1, NULL, 1};
        images[i].tables = tables;
    }
    for (i = 0; i < FIR_RUNS; i++) {
        const area states = {"state", &runs[i].state, &runs[i].recorded_state, sizeof(fir_state), 0, 0, state_fields, 1};
        runs[i].states = states;
    }
}

/* All as it is before each case. */
static void clear(void)
{
    area *const areas[] = {&texts, &outs, &buffers, &bound_versions, &bound_steps, &watched_rows, &looked_at, &trails, &pools};
    size_t i;
    for (i = 0; i < sizeof areas / sizeof *areas; i++)
        refill(areas[i]);
    for (i = 0; i < IMAGES; i++) {
        refill(&images[i].tables);
        images[i].length = 0;
        images[i].table_length = 0;
    }
    newest = before = &images[0];
    for (i = 0; i < FIR_RUNS; i++) {
        refill(&runs[i].states);
        runs[i].in_force = newest;
    }
    broken = differs = 0;
    made_length = block_at = 0;
    event = 0;
}

/* The arguments of an image, and of an image with its table. */
#define BYTES(image) (image)->bytes, (image)->length
#define LENT(image) BYTES(image), (image)->table, (image)->table_length

static run *given_run(void)
{
    return &runs[given_within(FIR_RUNS - 1)];
}

/* The run of a number of a pool; of one that is none, the last. */
static run *run_of(size_t number)
{
    return &runs[number < FIR_RUNS ? number : FIR_RUNS - 1];
}

/* Where a run is to begin. */
typedef struct start {
    size_t level, function, version, count;
} start;

static start given_start(void)
{
    start start;
    size_t i;
    start.level = given_size();
    start.function = given_size();
    start.version = given_size();
    start.count = given_within(WORDS);
    for (i = 0; i < start.count; i++)
        words[i] = unfolded(given());
    return start;
}

/* ---- Answers ---- */

static void verdict(fir_verdict verdict)
{
    answered_question(verdict.question);
    answered("detail", verdict.detail);
}

static void entry(fir_entry entry)
{
    answered_question(entry.question);
    answered("offset", entry.offset);
}

static void said(fir_said said)
{
    answered_code(said.code);
    answered_signed("value", said.value);
    answered("length", said.length);
}

static void turn(fir_turn turn)
{
    answered_code(turn.code);
    answered_question(turn.question);
    answered("offset", turn.offset);
    answered_signed("value", turn.value);
    answered("length", turn.length);
}

static void answer(fir_answer answer)
{
    answered_code(answer.code);
    answered_question(answer.question);
    answered("offset", answer.offset);
    answered_signed("value", answer.value);
    answered("length", answer.length);
    answered("steps", answer.steps);
    left(&buffers);
}

/* The state of a run, where it stands, and what a search there comes to. */
static void state(run *run)
{
    fir_position at = fir_where(LENT(run->in_force), &run->state);
    fir_searched searched = fir_search(LENT(run->in_force), &run->state);
    left(&run->states);
    answered("where.kind", at.kind);
    answered("where.offset", at.offset);
    answered("where.function", at.function);
    answered("where.version", at.version);
    answered("where.block", at.block);
    answered("where.instruction", at.instruction);
    answered("search.dispatch", searched.dispatch);
    answered("search.looked", searched.looked);
    answered("search.versions", searched.versions);
}

static void trail_left(void)
{
    fill_padding(&trail, offsetof(fir_trail, past) + 1, sizeof trail);
    left(&trails);
}

/* ---- Events, one for each function of the header ---- */

/* Whether an image is in force, or was put last. */
static int taken(const image *image)
{
    size_t i;
    for (i = 0; i < FIR_RUNS; i++)
        if (runs[i].in_force == image)
            return 1;
    return image == newest;
}

/* No event: puts an image where it takes no other's place that is still asked for. */
static void put_image(void)
{
    image *to = images;
    size_t i;
    while (taken(to))
        to++;
    before = newest;
    newest = to;
    to->length = given_within(IMAGE);
    to->table_length = TABLE;
    for (i = 0; i < to->length; i++)
        to->bytes[i] = given_byte();
}

/* No event: writes a byte of the image that was put last, of a state or of the pool, as damage would. */
static void put_in_image(void)
{
    const size_t at = given_within(IMAGE - 1);
    newest->bytes[at] = given_byte();
}

static void put_in_state(void)
{
    run *run = given_run();
    const size_t at = given_within(sizeof run->state - 1);
    ((uint8_t *)&run->state)[at] = ((uint8_t *)&run->recorded_state)[at] = given_byte();
    run->states.used = 1;
}

static void put_in_pool(void)
{
    const size_t at = given_within(sizeof pool - 1);
    ((uint8_t *)&pool)[at] = ((uint8_t *)&recorded_pool)[at] = given_byte();
    pools.used = 1;
}

static void version(void)
{
    const fir_versions built = fir_version();
    answered("interface_number", built.interface_number);
    answered("state_layout", built.state_layout);
}

static void state_size(void) { answered("size", fir_state_size()); }
static void state_alignment(void) { answered("alignment", fir_state_alignment()); }

static void question_text(void)
{
    const uint8_t question = given_byte();
    const size_t places = given_within(sizeof text);
    answered("length", fir_question_text(question, text, places));
    left(&texts);
}

static void answer_text(void)
{
    const uint8_t code = given_byte();
    const size_t places = given_within(sizeof text);
    answered("length", fir_answer_text(code, text, places));
    left(&texts);
}

static void check(void) { verdict(fir_check(BYTES(newest))); }

static void report(void)
{
    const size_t places = given_within(sizeof text);
    answered("length", fir_report(BYTES(newest), text, places));
    left(&texts);
}

static void check_in(void)
{
    const uint8_t form = given_byte();
    verdict(fir_check_in(BYTES(newest), form));
}

static void report_in(void)
{
    const uint8_t form = given_byte();
    const size_t places = given_within(sizeof text);
    answered("length", fir_report_in(BYTES(newest), form, text, places));
    left(&texts);
}

static void widen(void)
{
    const size_t places = given_within(sizeof out);
    verdict(fir_widen(BYTES(newest), out, places));
    left(&outs);
}

static void narrow(void)
{
    const size_t places = given_within(sizeof out);
    verdict(fir_narrow(BYTES(newest), out, places));
    left(&outs);
}

static void join(void)
{
    const size_t places = given_within(sizeof out);
    const fir_joined joined = fir_join(BYTES(before), BYTES(newest), out, places);
    answered_question(joined.question);
    answered("image", joined.image);
    answered("detail", joined.detail);
    left(&outs);
}

static void mend(void)
{
    const fir_mended mended = fir_mend(BYTES(newest));
    answered_question(mended.question);
    answered("detail", mended.detail);
    answered("mend", mended.mend);
    answered("place", mended.place);
    answered("value", mended.value);
}

static void bound(void)
{
    verdict(fir_bounds(BYTES(newest), versions, bounds));
    left(&bound_versions);
    left(&bound_steps);
}

static void table_size(void) { answered("size", fir_table_size(given_size())); }

static void load(void)
{
    fir_loaded loaded;
    newest->table_length = given_within(TABLE);
    loaded = fir_load(LENT(newest));
    answered("code", loaded.code);
    answered_question(loaded.question);
    answered("detail", loaded.detail);
    left(&newest->tables);
}

static void begin(void)
{
    run *run = given_run();
    const start at = given_start();
    const size_t places = given_within(PLACES);
    const fir_entry begun = fir_begin(LENT(newest), at.level, at.function, at.version, words, at.count, buffer, places, &run->state);
    if (begun.question == FIR_ACCEPTED)
        run->in_force = newest;
    entry(begun);
    state(run);
}

static void step(void)
{
    run *run = given_run();
    said(fir_step(LENT(run->in_force), &run->state));
    state(run);
}

static void budget(void)
{
    run *run = given_run();
    const uint32_t most = (uint32_t)given_within(UINT32_MAX);
    const size_t places = given_within(PLACES);
    answer(fir_budget(LENT(run->in_force), &run->state, most, buffer, places));
    state(run);
}

static void whole(void)
{
    run *run = given_run();
    const start at = given_start();
    const uint32_t most = (uint32_t)given_within(UINT32_MAX);
    const size_t places = given_within(PLACES);
    const fir_answer end = fir_run(LENT(newest), at.level, at.function, at.version, words, at.count, most, buffer, places, &run->state);
    if (end.code != FIR_REFUSED)
        run->in_force = newest;
    answer(end);
    state(run);
}

static void change(void)
{
    run *run = given_run();
    const fir_entry changed = fir_change(BYTES(run->in_force), BYTES(newest), &run->state);
    if (changed.question == FIR_ACCEPTED)
        run->in_force = newest;
    entry(changed);
    state(run);
}

static void trail_start(void)
{
    fir_trail_start(&given_run()->state, &trail);
    trail_left();
}

static void trail_step(void)
{
    run *run = given_run();
    said(fir_trail_step(LENT(run->in_force), &run->state, &trail));
    state(run);
    trail_left();
}

static void trail_budget(void)
{
    run *run = given_run();
    const uint32_t most = (uint32_t)given_within(UINT32_MAX);
    const size_t places = given_within(PLACES);
    answer(fir_trail_budget(LENT(run->in_force), &run->state, &trail, most, buffer, places));
    state(run);
    trail_left();
}

static void trail_change(void)
{
    run *run = given_run();
    const fir_entry changed = fir_trail_change(BYTES(run->in_force), BYTES(newest), &run->state, &trail);
    if (changed.question == FIR_ACCEPTED)
        run->in_force = newest;
    entry(changed);
    state(run);
    trail_left();
}

static void trail_back(void)
{
    run *run = given_run();
    entry(fir_trail_back(LENT(run->in_force), &run->state, &trail));
    state(run);
    trail_left();
}

static void pool_make(void)
{
    uint8_t reserves[FIR_RUNS];
    size_t i;
    for (i = 0; i < FIR_RUNS; i++)
        reserves[i] = given_byte();
    entry(fir_pool_make(reserves, &pool));
    left(&pools);
}

static void pool_begin(void)
{
    const size_t number = given_size();
    run *run = run_of(number);
    const start at = given_start();
    const size_t places = given_within(PLACES);
    const fir_entry begun = fir_pool_begin(LENT(newest), at.level, at.function, at.version, words, at.count, buffer, places,
                                           &run->state, &pool, number);
    if (begun.question == FIR_ACCEPTED)
        run->in_force = newest;
    entry(begun);
    state(run);
    left(&pools);
}

static void pool_step(void)
{
    const size_t number = given_size();
    run *run = run_of(number);
    turn(fir_pool_step(LENT(run->in_force), &run->state, &pool, number));
    state(run);
    left(&pools);
}

static void pool_budget(void)
{
    const size_t number = given_size();
    run *run = run_of(number);
    const uint32_t most = (uint32_t)given_within(UINT32_MAX);
    const size_t places = given_within(PLACES);
    answer(fir_pool_budget(LENT(run->in_force), &run->state, &pool, number, most, buffer, places));
    state(run);
    left(&pools);
}

static void pool_whole(void)
{
    const size_t number = given_size();
    run *run = run_of(number);
    const start at = given_start();
    const uint32_t most = (uint32_t)given_within(UINT32_MAX);
    const size_t places = given_within(PLACES);
    const fir_answer end = fir_pool_run(LENT(newest), at.level, at.function, at.version, words, at.count, most, buffer, places,
                                        &run->state, &pool, number);
    if (end.code != FIR_REFUSED)
        run->in_force = newest;
    answer(end);
    state(run);
    left(&pools);
}

static void pool_change(void)
{
    const size_t number = given_size();
    run *run = run_of(number);
    const fir_entry changed = fir_pool_change(BYTES(run->in_force), BYTES(newest), &run->state, &pool, number);
    if (changed.question == FIR_ACCEPTED)
        run->in_force = newest;
    entry(changed);
    state(run);
    left(&pools);
}

static void pool_back(void)
{
    entry(fir_pool_back(&pool, given_size()));
    left(&pools);
}

static void look(void)
{
    const run *run = given_run();
    const size_t call = given_size();
    size_t place;
    for (place = 0; place < LOOKS; place++) {
        const fir_value value = fir_look(&run->state, call, place);
        looked.number[place] = value.number;
        looked.kind[place] = value.kind;
        looked.place[place] = value.place;
    }
    fill_padding(&looked, offsetof(looks, place) + LOOKS, sizeof looked);
    left(&looked_at);
}

static void watch(void)
{
    const run *run = given_run();
    const size_t length = given_within(ROWS);
    const fir_watched watched = fir_watch(LENT(run->in_force), &run->state, rows, length);
    size_t i;
    answered_question(watched.question);
    answered("filled", watched.filled);
    for (i = 0; i < ROWS; i++)
        fill_padding(&rows[i], offsetof(fir_row, mark) + 1, sizeof *rows);
    left(&watched_rows);
}

static void search_and_where(void) { state(given_run()); }

/* What an event is, by its number. Those without a name call nothing and do not count. */
typedef struct kind {
    const char *name;
    void (*play)(void);
} kind;

static const kind kinds[] = {
    {NULL, put_image}, {NULL, put_in_image}, {NULL, put_in_state}, {NULL, put_in_pool},
    {"fir_version", version}, {"fir_state_size", state_size}, {"fir_state_alignment", state_alignment},
    {"fir_question_text", question_text}, {"fir_answer_text", answer_text},
    {"fir_check", check}, {"fir_report", report}, {"fir_check_in", check_in}, {"fir_report_in", report_in},
    {"fir_widen", widen}, {"fir_narrow", narrow}, {"fir_join", join}, {"fir_mend", mend}, {"fir_bounds", bound},
    {"fir_table_size", table_size}, {"fir_load", load},
    {"fir_begin", begin}, {"fir_step", step}, {"fir_budget", budget}, {"fir_run", whole}, {"fir_change", change},
    {"fir_trail_start", trail_start}, {"fir_trail_step", trail_step}, {"fir_trail_budget", trail_budget},
    {"fir_trail_change", trail_change}, {"fir_trail_back", trail_back},
    {"fir_pool_make", pool_make}, {"fir_pool_begin", pool_begin}, {"fir_pool_step", pool_step}, {"fir_pool_budget", pool_budget},
    {"fir_pool_run", pool_whole}, {"fir_pool_change", pool_change}, {"fir_pool_back", pool_back},
    {"fir_look", look}, {"fir_watch", watch}, {"fir_search and fir_where", search_and_where}};

#define KINDS (sizeof kinds / sizeof *kinds)

static unsigned long met[KINDS];

/* Plays the case in the block, up to its first difference. */
static void play(void)
{
    size_t length, i, kind;
    clear();
    length = given_within(TITLE);
    for (i = 0; i < length; i++)
        title[i] = (char)given_byte();
    title[length] = '\0';
    while (block_at < block_length && !broken && !differs) {
        kind = given_within(KINDS - 1);
        met[kind]++;
        if (kinds[kind].name != NULL) {
            event_name = kinds[kind].name;
            event++;
            events++;
        }
        kinds[kind].play();
    }
}

/* ---- Files ---- */

enum { WHOLE, ENDED, CUT, DAMAGED };

static uint64_t sum_of(const uint8_t *bytes, size_t length)
{
    uint64_t sum = 14695981039346656037u;
    for (; length > 0; length--)
        sum = (sum ^ *bytes++) * 1099511628211u;
    return sum;
}

/* A number of a file; CUT where it ends first. */
static int read_number(FILE *from, uint64_t *number)
{
    unsigned shift;
    int byte;
    *number = 0;
    for (shift = 0; shift < 64; shift += 7) {
        byte = getc(from);
        if (byte == EOF)
            return CUT;
        *number |= (uint64_t)(byte & 127) << shift;
        if (byte < 128)
            return WHOLE;
    }
    return DAMAGED;
}

/* Reads a case into the block. */
static int read_case(FILE *from)
{
    uint8_t sum[8];
    uint64_t length;
    int got = read_number(from, &length);
    if (got != WHOLE)
        return got;
    if (length == 0)
        return ENDED;
    if (length > BLOCK)
        return DAMAGED;
    block_length = (size_t)length;
    if (fread(block, 1, block_length, from) != block_length || fread(sum, 1, sizeof sum, from) != sizeof sum)
        return CUT;
    return (uint64_t)element_at(sum, 0, sizeof sum) == sum_of(block, block_length) ? WHOLE : DAMAGED;
}

/* What stands behind the last case: how many cases and events there are, and nothing else. */
static int read_end(FILE *from)
{
    uint64_t counted_cases, counted_events;
    int got = read_number(from, &counted_cases);
    if (got == WHOLE)
        got = read_number(from, &counted_events);
    if (got != WHOLE)
        return got;
    if (counted_cases != cases || (failed == 0 && !recording && counted_events != events))
        return DAMAGED;
    return getc(from) == EOF ? ENDED : DAMAGED;
}

static int read_mark(FILE *from)
{
    uint8_t bytes[sizeof mark];
    size_t i;
    if (fread(bytes, 1, sizeof bytes, from) != sizeof bytes)
        return CUT;
    for (i = 0; i < sizeof mark; i++)
        if (bytes[i] != mark[i])
            return DAMAGED;
    return WHOLE;
}

static void write_number(FILE *to, uint64_t number)
{
    for (; number > 127; number >>= 7)
        putc((int)(number & 127) | 128, to);
    putc((int)number, to);
}

static void write_case(FILE *to)
{
    uint64_t sum = sum_of(made, made_length);
    size_t i;
    write_number(to, made_length);
    fwrite(made, 1, made_length, to);
    for (i = 0; i < 8; i++, sum >>= 8)
        putc((int)(sum & 255), to);
}

/* Plays all cases of a file, and writes them to another one, if there is one: ENDED, or what is wrong with the file. */
static int play_all(FILE *from, FILE *to)
{
    int got = read_mark(from);
    if (got != WHOLE)
        return got;
    prepare();
    for (got = read_case(from); got == WHOLE; got = read_case(from)) {
        play();
        if (broken)
            return DAMAGED;
        failed += (unsigned long)differs;
        cases++;
        if (to != NULL)
            write_case(to);
    }
    return got == ENDED ? read_end(from) : got;
}

/* Whether the file was played to its end; else says why not. */
static int whole_file(const char *name, int got)
{
    if (got == ENDED)
        return 1;
    printf("replay: %s is %s, behind case %lu\n", name, got == CUT ? "cut" : "damaged", cases);
    return 0;
}

static int replay(const char *name)
{
    FILE *from = fopen(name, "rb");
    int got;
    if (from == NULL) {
        printf("replay: %s cannot be read\n", name);
        return UNREADABLE;
    }
    got = play_all(from, NULL);
    fclose(from);
    if (!whole_file(name, got))
        return UNREADABLE;
    printf("replay: %lu events in %lu cases\n", events, cases);
    printf("%lu passed, %lu failed\n", cases - failed, failed);
    return failed == 0 ? PASSED : FAILED;
}

/* Whether what was recorded is a kit: enough events, each function, refusal and answer, and not too many bytes. */
static int all_met(long bytes)
{
    size_t i;
    int missing = 0;
    for (i = 0; i < KINDS; i++)
        if (met[i] == 0)
            missing += printf("replay: no event of kind %lu\n", (unsigned long)i) > 0;
    for (i = 0; i < QUESTIONS; i++)
        if (refusals[i] < LEAST_EACH)
            missing += printf("replay: too few refusals by %lu\n", (unsigned long)i) > 0;
    for (i = 0; i < CODES; i++)
        if (codes[i] < LEAST_EACH)
            missing += printf("replay: too few answers of code %lu\n", (unsigned long)i) > 0;
    if (events < LEAST_EVENTS)
        missing += printf("replay: fewer than %d events\n", LEAST_EVENTS) > 0;
    if (bytes < 0 || bytes >= MOST_BYTES)
        missing += printf("replay: not below %d bytes\n", MOST_BYTES) > 0;
    return missing == 0;
}

/* Says how often each thing was met. */
static void say_met(long bytes)
{
    size_t i;
    printf("replay: recorded %lu events in %lu cases, %ld bytes\nreplay: by function:", events, cases, bytes);
    for (i = 0; i < KINDS; i++)
        if (kinds[i].name != NULL)
            printf(" %s %lu,", kinds[i].name, met[i]);
    printf("\nreplay: refusals:");
    for (i = 1; i < QUESTIONS; i++)
        printf(" %lu by %lu,", refusals[i], (unsigned long)i);
    printf("\nreplay: answers:");
    for (i = 0; i < CODES; i++)
        printf(" %lu of code %lu,", codes[i], (unsigned long)i);
    printf("\n");
}

static int record(const char *scripts, const char *name)
{
    FILE *from = fopen(scripts, "rb"), *to = fopen(name, "wb");
    long bytes;
    int got;
    if (from == NULL || to == NULL) {
        printf("replay: %s cannot be read, or %s not be written\n", scripts, name);
        return UNREADABLE;
    }
    recording = 1;
    fwrite(mark, 1, sizeof mark, to);
    got = play_all(from, to);
    write_number(to, 0);
    write_number(to, cases);
    write_number(to, events);
    bytes = ftell(to);
    fclose(from);
    if (fclose(to) != 0 || !whole_file(scripts, got))
        return UNREADABLE;
    say_met(bytes);
    return all_met(bytes) ? PASSED : FAILED;
}

static int same(const char *one, const char *other)
{
    while (*one != '\0' && *one == *other) {
        one++;
        other++;
    }
    return *one == *other;
}

int main(int argc, char **argv)
{
    if (argc == 4 && same(argv[1], "--record"))
        return record(argv[2], argv[3]);
    if (argc > 2 || (argc == 2 && argv[1][0] == '-')) {
        printf("usage: replay [CASES]\n       replay --record SCRIPTS CASES\n");
        return UNREADABLE;
    }
    return replay(argc == 2 ? argv[1] : "cases.bin");
}
