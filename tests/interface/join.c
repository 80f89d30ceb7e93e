/* A host that joins two images: the bytes, the answers, which image is refused, each bound of 23, that every place of the buffer
 * stays but those of the joined image, and that each entry runs as it does alone. */
#include <stdio.h>
#include <stdlib.h>

#include "images.h"

enum { MARGIN = 8, UNTOUCHED = 0xa5, VERSIONS = 64, BUDGET = 100 };

static unsigned tests;
static uint8_t out[FIR_IMAGE_BYTES + 2 * MARGIN];
static image joined; /* what is wanted */

static void same(const char *what, size_t is, size_t wanted)
{
    tests++;
    if (is != wanted) {
        printf("join: %s is %lu and not %lu\n", what, (unsigned long)is, (unsigned long)wanted);
        exit(1);
    }
}

/* Asserts what joining into a buffer of so many places answers and leaves; the bytes are those of `joined` with FIR_ACCEPTED. */
static void joins(const image *first, const image *second, size_t places, fir_joined wanted)
{
    fir_joined is;
    size_t at, written = wanted.question == FIR_ACCEPTED ? wanted.detail : 0, changed = 0;
    memset(out, UNTOUCHED, sizeof out);
    is = fir_join(first->bytes, first->length, second->bytes, second->length, out + MARGIN, places);
    same("the question", is.question, wanted.question);
    same("the detail", is.detail, wanted.detail);
    same("the image", is.image, wanted.image);
    same("the joined image's difference", memcmp(out + MARGIN, joined.bytes, written) != 0, 0);
    for (at = 0; at < sizeof out; at++)
        if (at < MARGIN || at >= MARGIN + written)
            changed += out[at] != UNTOUCHED;
    same("how many places beside the joined image are changed", changed, 0);
}

static void goes(const image *first, const image *second, size_t places)
{
    const fir_joined wanted = {joined.length, FIR_ACCEPTED, 0};
    joins(first, second, places, wanted);
}

static void refused(const image *first, const image *second, size_t places, uint8_t question, size_t offset, uint8_t which)
{
    const fir_joined wanted = {offset, question, which};
    joins(first, second, places, wanted);
}

/* Makes `joined`: the first image, and the second with its functions raised by so many. */
static void follow(const image *first, const image *second, unsigned functions)
{
    size_t at = first->length;
    memcpy(joined.bytes, first->bytes, first->length);
    memcpy(joined.bytes + at, second->bytes, second->length);
    joined.length = first->length + second->length;
    while (at < joined.length) {
        uint8_t *bytes = joined.bytes + at;
        if (bytes[2] == VERSION)
            bytes[4] = (uint8_t)(bytes[4] + functions);
        if (bytes[2] == CALL || bytes[2] == DISPATCH)
            bytes[5] = (uint8_t)(bytes[5] + functions);
        at += bytes[0];
    }
}

static void bytes_and_buffers(void)
{
    static image first, second;
    leveled(&first); /* functions 0 and 1 */
    chain(&second, 3);
    follow(&first, &second, 2);
    goes(&first, &second, FIR_IMAGE_BYTES);
    goes(&first, &second, joined.length);
    refused(&first, &second, joined.length - 1, FIR_REFUSED_JOIN, 0, 0);
    refused(&first, &second, 0, FIR_REFUSED_JOIN, 0, 0);
    follow(&second, &first, 3);
    goes(&second, &first, joined.length + 1);
    follow(&first, &first, 2);
    goes(&first, &first, joined.length);
}

static void images_that_are_refused(void)
{
    static image sound, high, nothing;
    const size_t at_call = 11 + 5 + 7;
    calling(&sound, FIR_STAFF, FIR_PORTAL);
    calling(&high, FIR_PORTAL, FIR_STAFF);
    nothing.length = 0;
    refused(&high, &sound, FIR_IMAGE_BYTES, FIR_REFUSED_CALLS, at_call, FIR_FIRST_IMAGE);
    refused(&sound, &high, FIR_IMAGE_BYTES, FIR_REFUSED_CALLS, at_call, FIR_SECOND_IMAGE);
    refused(&sound, &nothing, FIR_IMAGE_BYTES, FIR_REFUSED_SIZE, 0, FIR_SECOND_IMAGE);
    refused(&nothing, &high, FIR_IMAGE_BYTES, FIR_REFUSED_SIZE, 0, FIR_FIRST_IMAGE);
    refused(&high, &nothing, 0, FIR_REFUSED_CALLS, at_call, FIR_FIRST_IMAGE);
}

/* Adds a register to the first version of an image, which makes it a byte longer. */
static void longer(image *one)
{
    const size_t types = 10;
    memmove(one->bytes + types + 1, one->bytes + types, one->length - types);
    one->bytes[0]++;
    one->bytes[7]++;
    one->length++;
}

static void bounds(void)
{
    static image first, second;
    /* exactly 32 functions, and one more */
    chain(&first, 17);
    chain(&second, FIR_FUNCTIONS - 17);
    follow(&first, &second, 17);
    goes(&first, &second, FIR_IMAGE_BYTES);
    same("the second image's first function", joined.bytes[first.length + 4], 17);
    chain(&second, FIR_FUNCTIONS - 16);
    refused(&first, &second, FIR_IMAGE_BYTES, FIR_REFUSED_JOIN, 0, 0);
    /* exactly 64 versions, and one more */
    literals(&first, FIR_FORM_64, 40, 1);
    literals(&second, FIR_FORM_64, VERSIONS - 40, 2);
    follow(&first, &second, 10);
    goes(&first, &second, FIR_IMAGE_BYTES);
    literals(&second, FIR_FORM_64, VERSIONS - 39, 2);
    refused(&first, &second, FIR_IMAGE_BYTES, FIR_REFUSED_JOIN, 0, 0);
    /* exactly 32,768 bytes, and one more in a buffer that has a place for it */
    literals(&first, FIR_FORM_64, VERSIONS / 2, 37);
    second = first;
    follow(&first, &second, 8);
    same("the longest image", joined.length, FIR_IMAGE_BYTES);
    goes(&first, &second, FIR_IMAGE_BYTES);
    longer(&second);
    same("the longer image's question", fir_check(second.bytes, second.length).question, FIR_ACCEPTED);
    refused(&first, &second, FIR_IMAGE_BYTES + MARGIN, FIR_REFUSED_JOIN, 0, 0);
    refused(&second, &first, FIR_IMAGE_BYTES + MARGIN, FIR_REFUSED_JOIN, 0, 0);
}

/* Asserts that a function of an image runs at every level as the joined one does under another number. */
static void runs_alike(const image *alone, size_t function, size_t number)
{
    static const int64_t words[] = {-1, 7};
    static int64_t items[FIR_ITEMS];
    static fir_state state, other;
    size_t level, version;
    for (level = FIR_PORTAL; level <= FIR_FACTORY; level++)
        for (version = 0; version < FIR_VERSIONS; version++) {
            fir_answer is, wanted;
            wanted = fir_run(LENT(*alone), level, function, version, words, 2, BUDGET, items, FIR_ITEMS, &state);
            is = fir_run(LENT(joined), level, number, version, words, 2, BUDGET, items, FIR_ITEMS, &other);
            same("the code of a run", is.code, wanted.code);
            same("its question", is.question, wanted.question);
            same("its steps", is.steps, wanted.steps);
            same("its value", (size_t)is.value, (size_t)wanted.value);
        }
}

static void runs(void)
{
    static image first, second;
    static fir_state state;
    static int64_t items[FIR_ITEMS];
    leveled(&first);
    calling(&second, FIR_STAFF, FIR_PORTAL);
    joined.length = fir_join(first.bytes, first.length, second.bytes, second.length, joined.bytes, FIR_IMAGE_BYTES).detail;
    same("the versions", fir_check(joined.bytes, joined.length).detail, 8);
    same("the loads", load(&first) + load(&second) + load(&joined), FIR_LOADED);
    runs_alike(&first, 0, 0);
    runs_alike(&first, 1, 1);
    runs_alike(&second, 0, 2);
    same("a number behind both", fir_begin(LENT(joined), FIR_FACTORY, 3, 0, items, 0, items, FIR_ITEMS, &state).question,
         FIR_REFUSED_ENTRY);
}

int main(void)
{
    bytes_and_buffers();
    images_that_are_refused();
    bounds();
    runs();
    printf("join: %u passed\n", tests);
    return 0;
}
