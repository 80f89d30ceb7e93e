/* A host that moves an image from the form of 32 bits to that of 64 and back: the bytes, the answers, and that every place of
 * the buffer stays but those of the moved image. */
#include <stdio.h>
#include <stdlib.h>

#include "images.h"

enum { MARGIN = 8, UNTOUCHED = 0xa5 };

typedef fir_verdict moving(const uint8_t *image, size_t image_length, uint8_t *out, size_t out_length);

static unsigned tests;
static uint8_t out[FIR_IMAGE_BYTES + 2 * MARGIN];

static void same(const char *what, size_t is, size_t wanted)
{
    tests++;
    if (is != wanted) {
        printf("moves: %s is %lu and not %lu\n", what, (unsigned long)is, (unsigned long)wanted);
        exit(1);
    }
}

/* Asserts what a move into a buffer of so many places answers and leaves; nothing is written where `bytes` is NULL. */
static void moves(moving *move, const image *from, size_t places, unsigned question, size_t detail, const uint8_t *bytes)
{
    fir_verdict is;
    size_t at, written = bytes == NULL ? 0 : detail;
    memset(out, UNTOUCHED, sizeof out);
    is = move(from->bytes, from->length, out + MARGIN, places);
    same("the question", is.question, question);
    same("the detail", is.detail, detail);
    if (written != 0)
        same("the moved image's difference", memcmp(out + MARGIN, bytes, written) != 0, 0);
    for (at = 0; at < MARGIN; at++)
        same("a place before the buffer", out[at], UNTOUCHED);
    for (at = MARGIN + written; at < sizeof out; at++)
        if (out[at] != UNTOUCHED)
            same("a place past the moved image", out[at], UNTOUCHED);
    tests++;
}

/* Asserts what a form says of an image. */
static void asked(const image *of, uint8_t form, unsigned question, size_t detail)
{
    fir_verdict is = fir_check_in(of->bytes, of->length, form);
    same("the question of a form", is.question, question);
    same("the detail of a form", is.detail, detail);
}

/* Asserts that both forms report the same text. */
static void reports(const image *narrow, const image *wide)
{
    static uint8_t before[4096], now[4096];
    size_t length = fir_report(wide->bytes, wide->length, now, sizeof now);
    same("a text's length", fir_report_in(narrow->bytes, narrow->length, FIR_FORM_32, before, sizeof before), length);
    same("a text's difference", memcmp(before, now, length) != 0, 0);
    same("a text that is too long", fir_report_in(narrow->bytes, narrow->length, FIR_FORM_32, before, length - 1), 0);
    same("a text of 64 bits", fir_report_in(wide->bytes, wide->length, FIR_FORM_64, before, length), length);
}

int main(void)
{
    static image narrow, wide, beyond;
    size_t first = 11 + 5 + 7;
    literals(&narrow, FIR_FORM_32, 3, 2);
    literals(&wide, FIR_FORM_64, 3, 2);
    asked(&narrow, FIR_FORM_32, FIR_ACCEPTED, 3);
    asked(&narrow, FIR_FORM_64, FIR_REFUSED_KINDS, first);
    asked(&wide, FIR_FORM_32, FIR_REFUSED_KINDS, first);
    asked(&wide, FIR_FORM_64, FIR_ACCEPTED, 3);
    asked(&wide, 200, FIR_ACCEPTED, 3);
    reports(&narrow, &wide);

    moves(fir_widen, &narrow, FIR_IMAGE_BYTES, FIR_ACCEPTED, wide.length, wide.bytes);
    moves(fir_widen, &narrow, wide.length, FIR_ACCEPTED, wide.length, wide.bytes);
    moves(fir_widen, &narrow, wide.length - 1, FIR_REFUSED_ROOM, 0, NULL);
    moves(fir_widen, &wide, FIR_IMAGE_BYTES, FIR_REFUSED_KINDS, first, NULL);
    moves(fir_narrow, &wide, FIR_IMAGE_BYTES, FIR_ACCEPTED, narrow.length, narrow.bytes);
    moves(fir_narrow, &wide, narrow.length, FIR_ACCEPTED, narrow.length, narrow.bytes);
    moves(fir_narrow, &wide, narrow.length - 1, FIR_REFUSED_ROOM, 0, NULL);
    moves(fir_narrow, &narrow, FIR_IMAGE_BYTES, FIR_REFUSED_KINDS, first, NULL);

    /* the second literal does not fit; 16 before 17 */
    beyond = wide;
    beyond.bytes[first + 13 + 9] = 0;
    moves(fir_narrow, &beyond, FIR_IMAGE_BYTES, FIR_REFUSED_LITERAL, first + 13, NULL);
    moves(fir_narrow, &beyond, 0, FIR_REFUSED_LITERAL, first + 13, NULL);

    /* 64 versions of 37 literals have 32,768 bytes, of 38 more */
    literals(&narrow, FIR_FORM_32, 64, 37);
    literals(&wide, FIR_FORM_64, 64, 37);
    same("the longest image", wide.length, FIR_IMAGE_BYTES);
    moves(fir_widen, &narrow, FIR_IMAGE_BYTES, FIR_ACCEPTED, FIR_IMAGE_BYTES, wide.bytes);
    moves(fir_narrow, &wide, FIR_IMAGE_BYTES, FIR_ACCEPTED, narrow.length, narrow.bytes);
    literals(&narrow, FIR_FORM_32, 64, 38);
    moves(fir_widen, &narrow, FIR_IMAGE_BYTES, FIR_REFUSED_ROOM, 0, NULL);

    /* nothing at all, and no literal */
    narrow.length = 0;
    moves(fir_widen, &narrow, FIR_IMAGE_BYTES, FIR_REFUSED_SIZE, 0, NULL);
    nested(&narrow);
    moves(fir_widen, &narrow, narrow.length, FIR_ACCEPTED, narrow.length, narrow.bytes);
    moves(fir_narrow, &narrow, narrow.length, FIR_ACCEPTED, narrow.length, narrow.bytes);
    printf("moves: %u passed\n", tests);
    return 0;
}
