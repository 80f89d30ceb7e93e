/* The interface of fir.h for other machines than x86-64, over the functions of the proved module as portable.sed and portable.awk make them known:
 * slices and answers stand behind pointers, and sizes have 64 bits. */
#include "fir.h"

/* A slice: where it begins, in 8 bytes, and how many elements it has. */
typedef struct slice {
    union {
        const void *pointer;
        uint64_t room;
    } first;
    uint64_t length;
} slice;

/* A fir_verdict, a fir_loaded, a fir_joined, a fir_mended and a fir_position with sizes of 64 bits. */
typedef struct wide_verdict {
    uint64_t detail;
    uint8_t question;
} wide_verdict;

typedef struct wide_loaded {
    uint64_t detail;
    uint8_t code;
    uint8_t question;
} wide_loaded;

typedef struct wide_joined {
    uint64_t detail;
    uint8_t question;
    uint8_t image;
} wide_joined;

typedef struct wide_mended {
    uint64_t detail;
    uint64_t place;
    uint8_t question;
    uint8_t mend;
    uint8_t value;
} wide_mended;

typedef struct wide_position {
    uint64_t offset;
    uint8_t kind;
    uint8_t function;
    uint8_t version;
    uint8_t block;
    uint8_t instruction;
} wide_position;

void fir_version_at(fir_versions *to);
uint64_t fir_question_text_at(uint8_t question, const slice *text);
uint64_t fir_answer_text_at(uint8_t code, const slice *text);
uint64_t fir_state_size_at(void);
uint64_t fir_state_alignment_at(void);
void fir_check_at(wide_verdict *to, const slice *image);
uint64_t fir_report_at(const slice *image, const slice *text);
void fir_check_in_at(wide_verdict *to, const slice *image, uint8_t form);
uint64_t fir_report_in_at(const slice *image, uint8_t form, const slice *text);
void fir_widen_at(wide_verdict *to, const slice *image, const slice *out);
void fir_narrow_at(wide_verdict *to, const slice *image, const slice *out);
void fir_join_at(wide_joined *to, const slice *first, const slice *second, const slice *out);
void fir_mend_at(wide_mended *to, const slice *image);
void fir_bounds_at(wide_verdict *to, const slice *image, uint8_t *numbers, uint64_t *steps);
uint64_t fir_table_size_at(uint64_t image_length);
void fir_load_at(wide_loaded *to, const slice *image, const slice *table);
void fir_begin_at(fir_entry *to, const slice *image, const slice *table, uint64_t level, uint64_t function, uint64_t version,
                  const slice *words, const slice *buffer, fir_state *state);
void fir_step_at(fir_said *to, const slice *image, const slice *table, fir_state *state);
void fir_budget_at(fir_answer *to, const slice *image, const slice *table, fir_state *state, uint32_t budget, const slice *buffer);
void fir_run_at(fir_answer *to, const slice *image, const slice *table, uint64_t level, uint64_t function, uint64_t version,
                const slice *words, uint32_t budget, const slice *buffer, fir_state *state);
void fir_change_at(fir_entry *to, const slice *old_image, const slice *new_image, const fir_state *state);
void fir_trail_start_at(const fir_state *state, fir_trail *trail);
void fir_trail_step_at(fir_said *to, const slice *image, const slice *table, fir_state *state, fir_trail *trail);
void fir_trail_budget_at(fir_answer *to, const slice *image, const slice *table, fir_state *state, fir_trail *trail, uint32_t budget,
                         const slice *buffer);
void fir_trail_change_at(fir_entry *to, const slice *old_image, const slice *new_image, const fir_state *state, fir_trail *trail);
void fir_trail_back_at(fir_entry *to, const slice *image, const slice *table, fir_state *state, fir_trail *trail);
void fir_pool_make_at(fir_entry *to, const uint8_t *reserves, fir_pool *pool);
void fir_pool_begin_at(fir_entry *to, const slice *image, const slice *table, uint64_t level, uint64_t function, uint64_t version,
                       const slice *words, const slice *buffer, fir_state *state, fir_pool *pool, uint64_t number);
void fir_pool_step_at(fir_turn *to, const slice *image, const slice *table, fir_state *state, fir_pool *pool, uint64_t number);
void fir_pool_budget_at(fir_answer *to, const slice *image, const slice *table, fir_state *state, fir_pool *pool, uint64_t number,
                        uint32_t budget, const slice *buffer);
void fir_pool_run_at(fir_answer *to, const slice *image, const slice *table, uint64_t level, uint64_t function, uint64_t version,
                     const slice *words, uint32_t budget, const slice *buffer, fir_state *state, fir_pool *pool, uint64_t number);
void fir_pool_change_at(fir_entry *to, const slice *old_image, const slice *new_image, const fir_state *state, const fir_pool *pool,
                        uint64_t number);
void fir_pool_back_at(fir_entry *to, const fir_pool *pool, uint64_t number);
void fir_look_at(fir_value *to, const fir_state *state, uint64_t call, uint64_t place);
void fir_watch_at(fir_watched *to, const slice *image, const slice *table, const fir_state *state, const slice *rows);
void fir_search_at(fir_searched *to, const slice *image, const slice *table, const fir_state *state);
void fir_where_at(wide_position *to, const slice *image, const slice *table, const fir_state *state);

static slice lent(const void *pointer, size_t length)
{
    slice slice;
    slice.first.room = 0;
    slice.first.pointer = pointer;
    slice.length = length;
    return slice;
}

static fir_verdict verdict(wide_verdict wide)
{
    fir_verdict verdict;
    verdict.detail = (size_t)wide.detail;
    verdict.question = wide.question;
    return verdict;
}

fir_versions fir_version(void)
{
    fir_versions to;
    fir_version_at(&to);
    return to;
}

size_t fir_question_text(uint8_t question, uint8_t *text, size_t text_length)
{
    const slice there = lent(text, text_length);
    return (size_t)fir_question_text_at(question, &there);
}

size_t fir_answer_text(uint8_t code, uint8_t *text, size_t text_length)
{
    const slice there = lent(text, text_length);
    return (size_t)fir_answer_text_at(code, &there);
}

size_t fir_state_size(void)
{
    return (size_t)fir_state_size_at();
}

size_t fir_state_alignment(void)
{
    return (size_t)fir_state_alignment_at();
}

fir_verdict fir_check(const uint8_t *image, size_t image_length)
{
    const slice bytes = lent(image, image_length);
    wide_verdict to;
    fir_check_at(&to, &bytes);
    return verdict(to);
}

size_t fir_report(const uint8_t *image, size_t image_length, uint8_t *text, size_t text_length)
{
    const slice bytes = lent(image, image_length);
    const slice there = lent(text, text_length);
    return (size_t)fir_report_at(&bytes, &there);
}

fir_verdict fir_check_in(const uint8_t *image, size_t image_length, uint8_t form)
{
    const slice bytes = lent(image, image_length);
    wide_verdict to;
    fir_check_in_at(&to, &bytes, form);
    return verdict(to);
}

size_t fir_report_in(const uint8_t *image, size_t image_length, uint8_t form, uint8_t *text, size_t text_length)
{
    const slice bytes = lent(image, image_length);
    const slice there = lent(text, text_length);
    return (size_t)fir_report_in_at(&bytes, form, &there);
}

fir_verdict fir_widen(const uint8_t *image, size_t image_length, uint8_t *out, size_t out_length)
{
    const slice bytes = lent(image, image_length);
    const slice there = lent(out, out_length);
    wide_verdict to;
    fir_widen_at(&to, &bytes, &there);
    return verdict(to);
}

fir_verdict fir_narrow(const uint8_t *image, size_t image_length, uint8_t *out, size_t out_length)
{
    const slice bytes = lent(image, image_length);
    const slice there = lent(out, out_length);
    wide_verdict to;
    fir_narrow_at(&to, &bytes, &there);
    return verdict(to);
}

fir_joined fir_join(const uint8_t *first, size_t first_length, const uint8_t *second, size_t second_length, uint8_t *out,
                    size_t out_length)
{
    const slice one = lent(first, first_length);
    const slice other = lent(second, second_length);
    const slice there = lent(out, out_length);
    wide_joined wide;
    fir_joined to;
    fir_join_at(&wide, &one, &other, &there);
    to.detail = (size_t)wide.detail;
    to.question = wide.question;
    to.image = wide.image;
    return to;
}

fir_mended fir_mend(const uint8_t *image, size_t image_length)
{
    const slice bytes = lent(image, image_length);
    wide_mended wide;
    fir_mended to;
    fir_mend_at(&wide, &bytes);
    to.detail = (size_t)wide.detail;
    to.place = (size_t)wide.place;
    to.question = wide.question;
    to.mend = wide.mend;
    to.value = wide.value;
    return to;
}

fir_verdict fir_bounds(const uint8_t *image, size_t image_length, uint8_t *numbers, uint64_t *steps)
{
    const slice bytes = lent(image, image_length);
    wide_verdict to;
    fir_bounds_at(&to, &bytes, numbers, steps);
    return verdict(to);
}

size_t fir_table_size(size_t image_length)
{
    return (size_t)fir_table_size_at(image_length);
}

fir_loaded fir_load(const uint8_t *image, size_t image_length, uint8_t *table, size_t table_length)
{
    const slice bytes = lent(image, image_length);
    const slice there = lent(table, table_length);
    wide_loaded wide;
    fir_loaded to;
    fir_load_at(&wide, &bytes, &there);
    to.detail = (size_t)wide.detail;
    to.code = wide.code;
    to.question = wide.question;
    return to;
}

fir_entry fir_begin(const uint8_t *image, size_t image_length, const uint8_t *table, size_t table_length, size_t level,
                    size_t function, size_t version, const int64_t *words, size_t words_length, const int64_t *buffer,
                    size_t buffer_length, fir_state *state)
{
    const slice bytes = lent(image, image_length);
    const slice places = lent(table, table_length);
    const slice given = lent(words, words_length);
    const slice there = lent(buffer, buffer_length);
    fir_entry to;
    fir_begin_at(&to, &bytes, &places, level, function, version, &given, &there, state);
    return to;
}

fir_said fir_step(const uint8_t *image, size_t image_length, const uint8_t *table, size_t table_length, fir_state *state)
{
    const slice bytes = lent(image, image_length);
    const slice places = lent(table, table_length);
    fir_said to;
    fir_step_at(&to, &bytes, &places, state);
    return to;
}

fir_answer fir_budget(const uint8_t *image, size_t image_length, const uint8_t *table, size_t table_length, fir_state *state,
                      uint32_t budget, int64_t *buffer, size_t buffer_length)
{
    const slice bytes = lent(image, image_length);
    const slice places = lent(table, table_length);
    const slice there = lent(buffer, buffer_length);
    fir_answer to;
    fir_budget_at(&to, &bytes, &places, state, budget, &there);
    return to;
}

fir_answer fir_run(const uint8_t *image, size_t image_length, const uint8_t *table, size_t table_length, size_t level,
                   size_t function, size_t version, const int64_t *words, size_t words_length, uint32_t budget,
                   int64_t *buffer, size_t buffer_length, fir_state *state)
{
    const slice bytes = lent(image, image_length);
    const slice places = lent(table, table_length);
    const slice given = lent(words, words_length);
    const slice there = lent(buffer, buffer_length);
    fir_answer to;
    fir_run_at(&to, &bytes, &places, level, function, version, &given, budget, &there, state);
    return to;
}

fir_entry fir_change(const uint8_t *old_image, size_t old_length, const uint8_t *new_image, size_t new_length,
                     const fir_state *state)
{
    const slice before = lent(old_image, old_length);
    const slice after = lent(new_image, new_length);
    fir_entry to;
    fir_change_at(&to, &before, &after, state);
    return to;
}

void fir_trail_start(const fir_state *state, fir_trail *trail)
{
    fir_trail_start_at(state, trail);
}

fir_said fir_trail_step(const uint8_t *image, size_t image_length, const uint8_t *table, size_t table_length, fir_state *state,
                        fir_trail *trail)
{
    const slice bytes = lent(image, image_length);
    const slice places = lent(table, table_length);
    fir_said to;
    fir_trail_step_at(&to, &bytes, &places, state, trail);
    return to;
}

fir_answer fir_trail_budget(const uint8_t *image, size_t image_length, const uint8_t *table, size_t table_length, fir_state *state,
                            fir_trail *trail, uint32_t budget, int64_t *buffer, size_t buffer_length)
{
    const slice bytes = lent(image, image_length);
    const slice places = lent(table, table_length);
    const slice there = lent(buffer, buffer_length);
    fir_answer to;
    fir_trail_budget_at(&to, &bytes, &places, state, trail, budget, &there);
    return to;
}

fir_entry fir_trail_change(const uint8_t *old_image, size_t old_length, const uint8_t *new_image, size_t new_length,
                           const fir_state *state, fir_trail *trail)
{
    const slice before = lent(old_image, old_length);
    const slice after = lent(new_image, new_length);
    fir_entry to;
    fir_trail_change_at(&to, &before, &after, state, trail);
    return to;
}

fir_entry fir_trail_back(const uint8_t *image, size_t image_length, const uint8_t *table, size_t table_length, fir_state *state,
                         fir_trail *trail)
{
    const slice bytes = lent(image, image_length);
    const slice places = lent(table, table_length);
    fir_entry to;
    fir_trail_back_at(&to, &bytes, &places, state, trail);
    return to;
}

fir_entry fir_pool_make(const uint8_t reserves[FIR_RUNS], fir_pool *pool)
{
    fir_entry to;
    fir_pool_make_at(&to, reserves, pool);
    return to;
}

fir_entry fir_pool_begin(const uint8_t *image, size_t image_length, const uint8_t *table, size_t table_length, size_t level,
                         size_t function, size_t version, const int64_t *words, size_t words_length, const int64_t *buffer,
                         size_t buffer_length, fir_state *state, fir_pool *pool, size_t number)
{
    const slice bytes = lent(image, image_length);
    const slice places = lent(table, table_length);
    const slice given = lent(words, words_length);
    const slice there = lent(buffer, buffer_length);
    fir_entry to;
    fir_pool_begin_at(&to, &bytes, &places, level, function, version, &given, &there, state, pool, number);
    return to;
}

fir_turn fir_pool_step(const uint8_t *image, size_t image_length, const uint8_t *table, size_t table_length, fir_state *state,
                       fir_pool *pool, size_t number)
{
    const slice bytes = lent(image, image_length);
    const slice places = lent(table, table_length);
    fir_turn to;
    fir_pool_step_at(&to, &bytes, &places, state, pool, number);
    return to;
}

fir_answer fir_pool_budget(const uint8_t *image, size_t image_length, const uint8_t *table, size_t table_length, fir_state *state,
                           fir_pool *pool, size_t number, uint32_t budget, int64_t *buffer, size_t buffer_length)
{
    const slice bytes = lent(image, image_length);
    const slice places = lent(table, table_length);
    const slice there = lent(buffer, buffer_length);
    fir_answer to;
    fir_pool_budget_at(&to, &bytes, &places, state, pool, number, budget, &there);
    return to;
}

fir_answer fir_pool_run(const uint8_t *image, size_t image_length, const uint8_t *table, size_t table_length, size_t level,
                        size_t function, size_t version, const int64_t *words, size_t words_length, uint32_t budget,
                        int64_t *buffer, size_t buffer_length, fir_state *state, fir_pool *pool, size_t number)
{
    const slice bytes = lent(image, image_length);
    const slice places = lent(table, table_length);
    const slice given = lent(words, words_length);
    const slice there = lent(buffer, buffer_length);
    fir_answer to;
    fir_pool_run_at(&to, &bytes, &places, level, function, version, &given, budget, &there, state, pool, number);
    return to;
}

fir_entry fir_pool_change(const uint8_t *old_image, size_t old_length, const uint8_t *new_image, size_t new_length,
                          const fir_state *state, const fir_pool *pool, size_t number)
{
    const slice before = lent(old_image, old_length);
    const slice after = lent(new_image, new_length);
    fir_entry to;
    fir_pool_change_at(&to, &before, &after, state, pool, number);
    return to;
}

fir_entry fir_pool_back(const fir_pool *pool, size_t number)
{
    fir_entry to;
    fir_pool_back_at(&to, pool, number);
    return to;
}

fir_value fir_look(const fir_state *state, size_t call, size_t place)
{
    fir_value to;
    fir_look_at(&to, state, call, place);
    return to;
}

fir_watched fir_watch(const uint8_t *image, size_t image_length, const uint8_t *table, size_t table_length, const fir_state *state,
                      fir_row *rows, size_t rows_length)
{
    const slice bytes = lent(image, image_length);
    const slice places = lent(table, table_length);
    const slice records = lent(rows, rows_length);
    fir_watched to;
    fir_watch_at(&to, &bytes, &places, state, &records);
    return to;
}

fir_searched fir_search(const uint8_t *image, size_t image_length, const uint8_t *table, size_t table_length,
                        const fir_state *state)
{
    const slice bytes = lent(image, image_length);
    const slice places = lent(table, table_length);
    fir_searched to;
    fir_search_at(&to, &bytes, &places, state);
    return to;
}

fir_position fir_where(const uint8_t *image, size_t image_length, const uint8_t *table, size_t table_length,
                       const fir_state *state)
{
    const slice bytes = lent(image, image_length);
    const slice places = lent(table, table_length);
    wide_position wide;
    fir_position to;
    fir_where_at(&wide, &bytes, &places, state);
    to.offset = (size_t)wide.offset;
    to.kind = wide.kind;
    to.function = wide.function;
    to.version = wide.version;
    to.block = wide.block;
    to.instruction = wide.instruction;
    return to;
}
