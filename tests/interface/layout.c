/* The layout of what crosses the interface, as this compiler has it, against what the header says and the library was built
 * with. The size of each field is that of its type; each field of a state follows on the one before it, and no byte is left over.
 * The first bytes of a trail are those of the state that it was started at. */
#include <stdio.h>
#include <stdlib.h>
#include <string.h>

#include "fir.h"

static unsigned tests;
static uint8_t table[FIR_TABLE_BYTES(FIR_IMAGE_BYTES)];
static const uint8_t identity[] = {11, 0, 1, 0, 0, 0, 1, 1, 2, 1, 2, 5, 0, 3, 0, 0, 7, 0, 2, 0, 0, 0, 0};

static void same(const char *what, size_t is, size_t wanted)
{
    tests++;
    if (is != wanted) {
        printf("layout: %s is %lu and not %lu\n", what, (unsigned long)is, (unsigned long)wanted);
        exit(1);
    }
}

#define AT(type, field, offset) same(#type "." #field, offsetof(struct type, field), offset)
#define ALIGNMENT(type) \
    offsetof(struct { char before; struct type it; }, it)

/* A trail begins with the bytes of its start, and no step lies behind, whatever it held before. */
static void start_first(const fir_state *state)
{
    static fir_trail trail;
    memset(&trail, 0xa5, sizeof trail);
    fir_trail_start(state, &trail);
    same("the start of a trail", memcmp(&trail, state, sizeof *state) != 0, 0);
    same("its steps", trail.steps, 0);
    same("whether more were taken", trail.past, 0);
}

/* The lowest byte of a number stands first in a state, and an integer is in two's complement. */
static void byte_order(void)
{
    static const uint8_t wanted[] = {0xfe, 0xff, 0xff, 0xff, 0xff, 0xff, 0xff, 0xff};
    static const int64_t words[] = {-1, -2};
    static int64_t buffer[FIR_ITEMS];
    static fir_state state;
    const uint8_t *bytes = (const uint8_t *)&state;
    same("the load", fir_load(identity, sizeof identity, table, sizeof table).code, FIR_LOADED);
    fir_begin(identity, sizeof identity, table, sizeof table, FIR_PORTAL, 0, 0, words, 2, buffer, FIR_ITEMS, &state);
    same("the bytes of r0", memcmp(bytes + offsetof(fir_state, numbers), wanted, sizeof wanted) != 0, 0);
    same("the tag of r0", bytes[offsetof(fir_state, tags)], FIR_IS_INTEGER);
    start_first(&state);
}

int main(void)
{
    const size_t size = sizeof(size_t); /* 8, or 4 where pointers have 32 bits */
    same("fir_state_size", fir_state_size(), sizeof(fir_state));
    same("fir_state_alignment", fir_state_alignment(), ALIGNMENT(fir_state));
    same("sizeof fir_state", sizeof(fir_state), 19664);
    AT(fir_state, numbers, 0);
    AT(fir_state, items, 8192);
    AT(fir_state, caches, 16384);
    AT(fir_state, result, 16896);
    AT(fir_state, value, 17024);
    AT(fir_state, tags, 17032);
    AT(fir_state, places, 18056);
    AT(fir_state, stack, 19080);
    AT(fir_state, promises, 19336);
    AT(fir_state, lengths, 19592);
    AT(fir_state, calls, 19656);
    AT(fir_state, depth, 19657);
    AT(fir_state, status, 19658);
    AT(fir_state, length, 19659);
    AT(fir_state, spare, 19660);
    same("sizeof fir_trail", sizeof(fir_trail), 19672);
    AT(fir_trail, numbers, 0);
    AT(fir_trail, bytes, offsetof(fir_state, tags));
    AT(fir_trail, steps, sizeof(fir_state));
    AT(fir_trail, past, sizeof(fir_state) + 4);
    same("sizeof fir_pool", sizeof(fir_pool), 16);
    same("alignment of fir_pool", ALIGNMENT(fir_pool), 1);
    AT(fir_pool, reserves, 0);
    AT(fir_pool, has, FIR_RUNS);
    same("FIR_TABLE_BYTES", FIR_TABLE_BYTES(FIR_IMAGE_BYTES), 45992);
    same("sizeof fir_loaded", sizeof(fir_loaded), 2 * size);
    AT(fir_loaded, detail, 0);
    AT(fir_loaded, code, size);
    AT(fir_loaded, question, size + 1);
    same("sizeof fir_verdict", sizeof(fir_verdict), 2 * size);
    AT(fir_verdict, question, size);
    same("sizeof fir_joined", sizeof(fir_joined), 2 * size);
    AT(fir_joined, detail, 0);
    AT(fir_joined, question, size);
    AT(fir_joined, image, size + 1);
    same("sizeof fir_mended", sizeof(fir_mended), 3 * size);
    AT(fir_mended, detail, 0);
    AT(fir_mended, place, size);
    AT(fir_mended, question, 2 * size);
    AT(fir_mended, mend, 2 * size + 1);
    AT(fir_mended, value, 2 * size + 2);
    same("sizeof fir_entry", sizeof(fir_entry), 4);
    AT(fir_entry, question, 2);
    same("sizeof fir_said", sizeof(fir_said), 16);
    AT(fir_said, code, 8);
    AT(fir_said, length, 9);
    same("sizeof fir_turn", sizeof(fir_turn), 16);
    AT(fir_turn, value, 0);
    AT(fir_turn, offset, 8);
    AT(fir_turn, code, 10);
    AT(fir_turn, length, 11);
    AT(fir_turn, question, 12);
    same("sizeof fir_answer", sizeof(fir_answer), 24);
    AT(fir_answer, value, 8);
    AT(fir_answer, offset, 16);
    AT(fir_answer, code, 18);
    AT(fir_answer, length, 19);
    AT(fir_answer, question, 20);
    same("sizeof fir_value", sizeof(fir_value), 16);
    AT(fir_value, kind, 8);
    AT(fir_value, place, 9);
    same("sizeof fir_row", sizeof(fir_row), 144);
    AT(fir_row, integer, 0);
    AT(fir_row, items, 8);
    AT(fir_row, declared, 136);
    AT(fir_row, holds, 137);
    AT(fir_row, length, 138);
    AT(fir_row, mark, 139);
    same("sizeof fir_watched", sizeof(fir_watched), 2);
    AT(fir_watched, filled, 0);
    AT(fir_watched, question, 1);
    same("sizeof fir_searched", sizeof(fir_searched), 3);
    AT(fir_searched, dispatch, 0);
    AT(fir_searched, looked, 1);
    AT(fir_searched, versions, 2);
    same("sizeof fir_position", sizeof(fir_position), size + 8);
    AT(fir_position, offset, 0);
    AT(fir_position, kind, size);
    AT(fir_position, function, size + 1);
    AT(fir_position, version, size + 2);
    AT(fir_position, block, size + 3);
    AT(fir_position, instruction, size + 4);
    same("sizeof fir_versions", sizeof(fir_versions), 8);
    AT(fir_versions, interface_number, 0);
    AT(fir_versions, state_layout, 4);
    same("FIR_LARGE", FIR_LARGE == (uint64_t)UINT32_MAX + 1, 1);
    same("FIR_NONE", FIR_NONE == FIR_LARGE + 1, 1);
    same("fir_version().interface_number", fir_version().interface_number, FIR_INTERFACE);
    same("fir_version().state_layout", fir_version().state_layout, FIR_STATE_LAYOUT);
    byte_order();
    printf("layout: %u passed\n", tests);
    return 0;
}
