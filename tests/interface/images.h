/* Images for the hosts of the interface, put together record by record. */
#ifndef IMAGES_H
#define IMAGES_H

#include <string.h>

#include "fir.h"

typedef struct image {
    uint8_t bytes[FIR_IMAGE_BYTES];
    size_t length;
    uint8_t table[FIR_TABLE_BYTES(FIR_IMAGE_BYTES)];
} image;

/* The four arguments of an image and its table. */
#define LENT(image) (image).bytes, (image).length, (image).table, sizeof (image).table

/* Loads an image into its own table; the code of the answer. */
static inline unsigned load(image *image)
{
    return fir_load(image->bytes, image->length, image->table, sizeof image->table).code;
}

static inline void record(image *to, unsigned kind, const uint8_t *body, size_t length)
{
    uint8_t *at = to->bytes + to->length;
    at[0] = (uint8_t)((length + 4) & 255);
    at[1] = (uint8_t)((length + 4) >> 8);
    at[2] = (uint8_t)kind;
    at[3] = 0;
    memcpy(at + 4, body, length);
    to->length += length + 4;
}

#define RECORD(to, kind, ...)                        \
    do {                                             \
        const uint8_t body[] = {__VA_ARGS__};        \
        record(to, kind, body, sizeof body);         \
    } while (0)

enum {
    VERSION = 1,
    BLOCK = 2,
    LEVEL = 3,
    LIT_32 = 16, /* of the form of 32 bits */
    MOVE = 17,
    USE = 18,
    VEC = 20,
    LEN = 21,
    ARITH = 24,
    SELECT = 25,
    PROM = 29,
    FORCE = 30,
    CALL = 33,
    DISPATCH = 34,
    SKIP = 35,
    LIT = 36
};

/* r0 counted down to 0 by a call of itself through an arithmetic of `busy` instructions: long runs, deep calls. */
static inline void countdown(image *to, unsigned busy)
{
    unsigned i;
    to->length = 0;
    RECORD(to, VERSION, 0, 0, 1, 4, 2, 1, 2, 2, 2, 2);
    RECORD(to, LEVEL, FIR_PORTAL);
    RECORD(to, BLOCK, 0, 3, (uint8_t)(busy + 3));
    RECORD(to, LIT, 1, 1, 0, 0, 0, 0, 0, 0, 0);
    RECORD(to, ARITH, 2, 1, 0, 1);
    for (i = 0; i < busy; i++)
        RECORD(to, ARITH, 3, 0, 0, 1);
    RECORD(to, CALL, 3, 0, 0, 1, 2);
}

/* Straight arithmetic of 47 instructions in each of `functions` functions, each calling the next. */
static inline void chain(image *to, unsigned functions)
{
    unsigned f, i;
    to->length = 0;
    for (f = 0; f < functions; f++) {
        RECORD(to, VERSION, (uint8_t)f, 0, 1, 3, 2, 1, 2, 2, 2);
        RECORD(to, LEVEL, FIR_PORTAL);
        RECORD(to, BLOCK, 0, 2, 48);
        RECORD(to, LIT, 1, 1, 0, 0, 0, 0, 0, 0, 0);
        for (i = 0; i < 46; i++)
            RECORD(to, ARITH, 2, 0, 0, 1);
        if (f + 1 < functions)
            RECORD(to, CALL, 2, (uint8_t)(f + 1), 0, 1, 0);
        else
            RECORD(to, ARITH, 2, 0, 0, 1);
    }
}

/* Functions that each call the next one twice: a run of them takes 2^(functions + 1) steps, less 3. */
static inline void doubling(image *to, unsigned functions)
{
    unsigned f;
    to->length = 0;
    for (f = 0; f < functions; f++) {
        RECORD(to, VERSION, (uint8_t)f, 0, 1, 1, 2, 1, 2);
        RECORD(to, LEVEL, FIR_PORTAL);
        RECORD(to, BLOCK, 0, 0, f + 1 < functions ? 2 : 0);
        if (f + 1 < functions) {
            RECORD(to, CALL, 0, (uint8_t)(f + 1), 0, 1, 0);
            RECORD(to, CALL, 0, (uint8_t)(f + 1), 0, 1, 0);
        }
    }
}

/* 0.0 makes 15 vectors and calls itself, until a 65th is needed. */
static inline void hoarding_vectors(image *to)
{
    unsigned r;
    to->length = 0;
    RECORD(to, VERSION, 0, 0, 1, FIR_REGISTERS, 2, 1, /* and the types: */
           2, 3, 3, 3, 3, 3, 3, 3, 3, 3, 3, 3, 3, 3, 3, 3);
    RECORD(to, LEVEL, FIR_PORTAL);
    RECORD(to, BLOCK, 0, 0, FIR_REGISTERS);
    for (r = 1; r < FIR_REGISTERS; r++)
        RECORD(to, VEC, (uint8_t)r, 1, 0);
    RECORD(to, CALL, 0, 0, 0, 1, 0);
}

/* 0.0 makes 7 promises and calls itself, until a 65th is needed. */
static inline void hoarding_promises(image *to)
{
    unsigned b;
    to->length = 0;
    RECORD(to, VERSION, 0, 0, 1, 8, 2, 8, 2, 4, 4, 4, 4, 4, 4, 4);
    RECORD(to, LEVEL, FIR_PORTAL);
    RECORD(to, BLOCK, 0, 0, 8);
    for (b = 1; b < 8; b++)
        RECORD(to, PROM, (uint8_t)b, (uint8_t)b);
    RECORD(to, CALL, 0, 0, 0, 1, 0);
    for (b = 1; b < 8; b++)
        RECORD(to, BLOCK, 0, 0, 0);
}

/* Seven promise blocks, each made and forced by the one before it, and a dispatch at the end. */
static inline void nested(image *to)
{
    unsigned b;
    to->length = 0;
    RECORD(to, VERSION, 0, 0, 1, 16, 2, 8, 2, 4, 4, 4, 4, 4, 4, 4, 2, 2, 2, 2, 2, 2, 2, 2);
    RECORD(to, LEVEL, FIR_FACTORY);
    for (b = 0; b < 8; b++) {
        RECORD(to, BLOCK, 0, (uint8_t)(8 + b), b < 7 ? 2 : 1);
        if (b < 7) {
            RECORD(to, PROM, (uint8_t)(1 + b), (uint8_t)(b + 1));
            RECORD(to, FORCE, (uint8_t)(8 + b), (uint8_t)(1 + b));
        } else {
            RECORD(to, DISPATCH, 15, 1, 0, 2, 1, 2, 0);
        }
    }
    RECORD(to, VERSION, 1, 0, 1, 1, 2, 1, 2);
    RECORD(to, LEVEL, FIR_PORTAL);
    RECORD(to, BLOCK, 0, 0, 0);
}

/* Versions of `count` literals each, at either end of 32 bits, in a form, and an ARITH; their levels go round. */
static inline void literals(image *to, unsigned form, unsigned versions, unsigned count)
{
    unsigned v, i;
    to->length = 0;
    for (v = 0; v < versions; v++) {
        RECORD(to, VERSION, (uint8_t)(v / 4), (uint8_t)(v % 4), 0, 1, 2, 1, 2);
        RECORD(to, LEVEL, (uint8_t)(v % (FIR_FACTORY + 1)));
        RECORD(to, BLOCK, 0, 0, (uint8_t)(count + 1));
        for (i = 0; i < count; i++) {
            const uint8_t low = i % 2 == 0 ? 255 : 0, high = i % 2 == 0 ? 127 : 128, sign = i % 2 == 0 ? 0 : 255;
            if (form == FIR_FORM_32)
                RECORD(to, LIT_32, 0, low, low, low, high);
            else
                RECORD(to, LIT, 0, low, low, low, high, sign, sign, sign, sign);
        }
        RECORD(to, ARITH, 0, 4, 0, 0);
    }
}

#define SEARCH_STEPS 2 /* the steps of 0.0 of `searching` before its DISPATCH */

/* 0.0 dispatches a literal and 7 promises on function 1. Of its `versions` versions all but `fitting` take a vector in
 * place of the last promise; none fits where `fitting` is as many. */
static inline void searching(image *to, unsigned versions, unsigned fitting)
{
    unsigned v;
    to->length = 0;
    RECORD(to, VERSION, 0, 0, 1, 2, 2, 2, 2, 4);
    RECORD(to, LEVEL, FIR_PORTAL);
    RECORD(to, BLOCK, 0, 0, 3);
    RECORD(to, LIT, 0, 1, 0, 0, 0, 0, 0, 0, 0);
    RECORD(to, PROM, 1, 1);
    RECORD(to, DISPATCH, 0, 1, 0, 2, 8, 2, 0, 0, 1, 0, 1, 0, 1, 0, 1, 0, 1, 0, 1, 0, 1);
    RECORD(to, BLOCK, 0, 0, 0);
    for (v = 0; v < versions; v++) {
        RECORD(to, VERSION, 1, (uint8_t)v, 8, 8, 2, 1, 2, 4, 4, 4, 4, 4, 4, v == fitting ? 4 : 3);
        RECORD(to, LEVEL, FIR_PORTAL);
        RECORD(to, BLOCK, 0, 0, 0);
    }
}

#define ALL_LEVELS (FIR_FACTORY + 1)

/* 0.0 to 0.2, of the portal, site staff and the factory, dispatch on function 1; its versions 1.0 to 1.2 are of the factory,
 * site staff and the portal, and give 10 to 12. */
static inline void leveled(image *to)
{
    unsigned v;
    to->length = 0;
    for (v = 0; v < ALL_LEVELS; v++) {
        RECORD(to, VERSION, 0, (uint8_t)v, 1, 1, 2, 1, 2);
        RECORD(to, LEVEL, (uint8_t)v);
        RECORD(to, BLOCK, 0, 0, 1);
        RECORD(to, DISPATCH, 0, 1, 0, 2, 1, 2, 0);
    }
    for (v = 0; v < ALL_LEVELS; v++) {
        RECORD(to, VERSION, 1, (uint8_t)v, 1, 1, 2, 1, 2);
        RECORD(to, LEVEL, (uint8_t)(FIR_FACTORY - v));
        RECORD(to, BLOCK, 0, 0, 1);
        RECORD(to, LIT, 0, (uint8_t)(10 + v), 0, 0, 0, 0, 0, 0, 0);
    }
}

/* 0.0 of a level calls 0.1 of a level. The CALL stands at 23. */
static inline void calling(image *to, unsigned own, unsigned called)
{
    to->length = 0;
    RECORD(to, VERSION, 0, 0, 1, 1, 2, 1, 2);
    RECORD(to, LEVEL, (uint8_t)own);
    RECORD(to, BLOCK, 0, 0, 1);
    RECORD(to, CALL, 0, 0, 1, 1, 0);
    RECORD(to, VERSION, 0, 1, 1, 1, 2, 1, 2);
    RECORD(to, LEVEL, (uint8_t)called);
    RECORD(to, BLOCK, 0, 0, 0);
}

/* `versions` versions of 16 registers. Each calls the next function's, in which the last owns a vector that it takes out of
 * its register three times: refused by 10 at its VERSION, and no other type mends it. */
static inline void taken_again(image *to, unsigned versions)
{
    unsigned v, i;
    to->length = 0;
    for (v = 0; v < versions; v++) {
        uint8_t body[6 + FIR_REGISTERS] = {(uint8_t)(v / 4), (uint8_t)(v % 4), 1, FIR_REGISTERS, 19, 1, 19};
        for (i = 1; i < FIR_REGISTERS; i++)
            body[6 + i] = 19;
        record(to, VERSION, body, sizeof body);
        RECORD(to, LEVEL, FIR_PORTAL);
        RECORD(to, BLOCK, 0, 1, v + 1 < versions ? 2 : 3);
        RECORD(to, USE, 1, 0);
        if (v + 1 < versions) {
            RECORD(to, CALL, 1, (uint8_t)((v + 1) / 4), (uint8_t)((v + 1) % 4), 1, 1);
        } else {
            RECORD(to, USE, 2, 0);
            RECORD(to, USE, 3, 0);
        }
    }
}

#endif
