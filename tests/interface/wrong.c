/* Wrong libraries, by which kit.sh tries the conformance kit: one function of the header each, around the right one, which is had there
 * as right_.. . The fault is named as it is compiled, as -DSUM_WRAPS. */
#include "fir.h"

#define RECORD_KIND 2 /* of a record: where its kind stands, and its first field */
#define RECORD_BODY 4
#define LIT_32 16
#define ARITH 24
#define SUM 0

#ifdef SUM_WRAPS
/* A sum that does not fit goes on with its low 64 bits. */
fir_said right_fir_step(const uint8_t *image, size_t image_length, const uint8_t *table, size_t table_length, fir_state *state);

fir_said fir_step(const uint8_t *image, size_t image_length, const uint8_t *table, size_t table_length, fir_state *state)
{
    const fir_position at = fir_where(image, image_length, table, table_length, state);
    const unsigned going = state->status == FIR_STEPS && at.kind == FIR_AT_INSTRUCTION;
    fir_said said = right_fir_step(image, image_length, table, table_length, state);
    const uint8_t *body = image + at.offset + RECORD_BODY;
    if (going && said.code == FIR_UNDEF && image[at.offset + RECORD_KIND] == ARITH && body[1] == SUM) {
        uint8_t *activation = state->stack + 8 * (state->depth - 1);
        int64_t *registers = state->numbers + FIR_STRIDE * activation[3];
        registers[body[0]] = (int64_t)((uint64_t)registers[body[2]] + (uint64_t)registers[body[3]]);
        state->tags[FIR_STRIDE * activation[3] + body[0]] = FIR_IS_INTEGER;
        activation[5]++;
        state->status = FIR_STEPS;
        said.code = FIR_STEPS;
    }
    return said;
}
#endif

#if defined STATE_BYTE_ORDER || defined HEAD_OF_32_BITS
fir_entry right_fir_begin(const uint8_t *image, size_t image_length, const uint8_t *table, size_t table_length, size_t level,
                          size_t function, size_t version, const int64_t *words, size_t words_length, const int64_t *buffer,
                          size_t buffer_length, fir_state *state);

#ifdef STATE_BYTE_ORDER
/* A state has the integers of its registers with the highest byte first. */
static void turn_round(int64_t *number)
{
    uint64_t from = (uint64_t)*number, to = 0;
    int i;
    for (i = 0; i < 8; i++, from >>= 8)
        to = to << 8 | (from & 255);
    *number = (int64_t)to;
}

fir_entry fir_begin(const uint8_t *image, size_t image_length, const uint8_t *table, size_t table_length, size_t level,
                    size_t function, size_t version, const int64_t *words, size_t words_length, const int64_t *buffer,
                    size_t buffer_length, fir_state *state)
{
    const fir_entry entry = right_fir_begin(image, image_length, table, table_length, level, function, version, words, words_length,
                                            buffer, buffer_length, state);
    int i;
    for (i = 0; entry.question == FIR_ACCEPTED && i < FIR_REGISTERS; i++)
        turn_round(&state->numbers[i]);
    return entry;
}
#else
/* Of the first argument word the low 32 bits alone count. */
fir_entry fir_begin(const uint8_t *image, size_t image_length, const uint8_t *table, size_t table_length, size_t level,
                    size_t function, size_t version, const int64_t *words, size_t words_length, const int64_t *buffer,
                    size_t buffer_length, fir_state *state)
{
    static int64_t cut[256];
    size_t i;
    for (i = 0; i < words_length; i++)
        cut[i] = i == 0 ? (int32_t)words[i] : words[i];
    return right_fir_begin(image, image_length, table, table_length, level, function, version, cut, words_length, buffer,
                           buffer_length, state);
}
#endif
#endif

#ifdef IMAGE_BYTE_ORDER
/* A literal is moved with its highest byte first. */
fir_verdict right_fir_narrow(const uint8_t *image, size_t image_length, uint8_t *out, size_t out_length);

fir_verdict fir_narrow(const uint8_t *image, size_t image_length, uint8_t *out, size_t out_length)
{
    const fir_verdict moved = right_fir_narrow(image, image_length, out, out_length);
    size_t at = 0;
    while (moved.question == FIR_ACCEPTED && at < moved.detail) {
        uint8_t *number = out + at + RECORD_BODY + 1;
        if (out[at + RECORD_KIND] == LIT_32) {
            const uint8_t turned[4] = {number[3], number[2], number[1], number[0]};
            int i;
            for (i = 0; i < 4; i++)
                number[i] = turned[i];
        }
        at += (size_t)out[at] + 256 * (size_t)out[at + 1];
    }
    return moved;
}
#endif

#ifdef VALUE_OF_32_BITS
/* An integer is answered with its low 32 bits. */
fir_answer right_fir_budget(const uint8_t *image, size_t image_length, const uint8_t *table, size_t table_length, fir_state *state,
                            uint32_t budget, int64_t *buffer, size_t buffer_length);

fir_answer fir_budget(const uint8_t *image, size_t image_length, const uint8_t *table, size_t table_length, fir_state *state,
                      uint32_t budget, int64_t *buffer, size_t buffer_length)
{
    fir_answer answer = right_fir_budget(image, image_length, table, table_length, state, budget, buffer, buffer_length);
    answer.value = (int32_t)answer.value;
    return answer;
}
#endif

#ifdef BOUND_OF_32_BITS
/* A bound is given by its low 32 bits. */
fir_verdict right_fir_bounds(const uint8_t *image, size_t image_length, uint8_t *numbers, uint64_t *steps);

fir_verdict fir_bounds(const uint8_t *image, size_t image_length, uint8_t *numbers, uint64_t *steps)
{
    const fir_verdict listed = right_fir_bounds(image, image_length, numbers, steps);
    size_t i;
    for (i = 0; listed.question == FIR_ACCEPTED && i < listed.detail; i++)
        steps[i] = (uint32_t)steps[i];
    return listed;
}
#endif

#ifdef BACK_NOT_COUNTED
/* A step back does not lower the number of steps behind. */
fir_entry right_fir_trail_back(const uint8_t *image, size_t image_length, const uint8_t *table, size_t table_length, fir_state *state,
                               fir_trail *trail);

fir_entry fir_trail_back(const uint8_t *image, size_t image_length, const uint8_t *table, size_t table_length, fir_state *state,
                         fir_trail *trail)
{
    const uint32_t steps = trail->steps;
    const fir_entry back = right_fir_trail_back(image, image_length, table, table_length, state, trail);
    trail->steps = steps;
    return back;
}
#endif

#ifdef POOL_NOT_WRITTEN
/* A step does not write down what the run has. */
fir_turn right_fir_pool_step(const uint8_t *image, size_t image_length, const uint8_t *table, size_t table_length, fir_state *state,
                             fir_pool *pool, size_t number);

fir_turn fir_pool_step(const uint8_t *image, size_t image_length, const uint8_t *table, size_t table_length, fir_state *state,
                       fir_pool *pool, size_t number)
{
    fir_pool written = *pool;
    return right_fir_pool_step(image, image_length, table, table_length, state, &written, number);
}
#endif
