/* A host that asks for a correction of images with one wrong type, two, or none that a type mends: the byte, its value, the
 * refusal beside it, that the changed image is accepted, that no lower byte and no lower value would do, and that the image stays. */
#include <stdio.h>
#include <stdlib.h>

#include "images.h"

enum {
    ANY = 0,
    INT = 2,
    VECTOR = 3,
    QUIET = 4,
    REFLECTIVE = 5,
    OWN_INT = 0x12,
    OWN_VECTOR = 0x13,
    BORROW_VECTOR = 0x23,
    VALUES = 256
};

static unsigned tests;
static image made;
static image before;

static void same(const char *what, size_t is, size_t wanted)
{
    tests++;
    if (is != wanted) {
        printf("mend: %s is %lu and not %lu\n", what, (unsigned long)is, (unsigned long)wanted);
        exit(1);
    }
}

/* What is answered for the image, which stays as it is. */
static fir_mended asked(void)
{
    fir_mended found;
    memcpy(&before, &made, sizeof made);
    found = fir_mend(made.bytes, made.length);
    same("whether a byte of the image is another", (size_t)(memcmp(&before, &made, sizeof made) != 0), 0);
    return found;
}

/* How many changes of the register type bytes below a place, and of the byte there to values below one, are accepted. */
static size_t lower(size_t place, size_t value)
{
    size_t at = 0, i, accepted = 0;
    unsigned x;
    for (; at < made.length; at += made.bytes[at] + 256u * made.bytes[at + 1]) {
        if (made.bytes[at + 2] != VERSION)
            continue;
        for (i = at + 10; i < at + 10 + made.bytes[at + 7] && i <= place; i++) {
            const uint8_t was = made.bytes[i];
            for (x = 0; x < (i == place ? value : VALUES); x++) {
                made.bytes[i] = (uint8_t)x;
                accepted += fir_check(made.bytes, made.length).question == FIR_ACCEPTED;
            }
            made.bytes[i] = was;
        }
    }
    return accepted;
}

/* Asserts that a question refuses the image at an offset, and that the byte at a place mends it by a value. */
static void mended(unsigned question, size_t offset, size_t place, unsigned value)
{
    const fir_mended found = asked();
    uint8_t was;
    same("the question", found.question, question);
    same("the offset", found.detail, offset);
    same("the mend", found.mend, FIR_MENDED);
    same("the place", found.place, place);
    same("the value", found.value, value);
    same("lower changes that do", lower(place, value), 0);
    was = made.bytes[place];
    same("whether the value is the present one", was == value, 0);
    made.bytes[place] = (uint8_t)value;
    same("the question after the change", fir_check(made.bytes, made.length).question, FIR_ACCEPTED);
    made.bytes[place] = was;
}

/* Asserts that a question refuses the image at an offset, and whether a mend was looked for, which is none. */
static void unmended(unsigned question, size_t offset, unsigned mend)
{
    const fir_mended found = asked();
    same("the question", found.question, question);
    same("the offset", found.detail, offset);
    same("the mend", found.mend, mend);
    same("the place", found.place, 0);
    same("the value", found.value, 0);
    if (mend == FIR_NOT_MENDED)
        same("changes that do", lower(made.length, 0), 0);
}

/* 0.0(r0: int, r1) -> int, whose instructions stand from 24 on. */
static void opening(unsigned parameter, unsigned other, unsigned count)
{
    made.length = 0;
    RECORD(&made, VERSION, 0, 0, 1, 2, INT, 1, (uint8_t)parameter, (uint8_t)other);
    RECORD(&made, LEVEL, FIR_PORTAL);
    RECORD(&made, BLOCK, 0, 1, (uint8_t)count);
}

/* Refusals by 6 at the VERSION, and by 8 at an instruction or at the BLOCK whose result does not fit. */
static void types(void)
{
    opening(OWN_INT, INT, 1);
    RECORD(&made, ARITH, 1, 0, 0, 0);
    mended(FIR_REFUSED_TYPE_BYTES, 0, 10, INT);
    opening(OWN_INT, BORROW_VECTOR, 1);
    RECORD(&made, ARITH, 1, 0, 0, 0);
    unmended(FIR_REFUSED_TYPE_BYTES, 0, FIR_NOT_MENDED);
    opening(INT, VECTOR, 1);
    RECORD(&made, ARITH, 1, 0, 0, 0);
    mended(FIR_REFUSED_TYPES, 17, 11, INT);
    opening(VECTOR, INT, 1);
    RECORD(&made, ARITH, 1, 0, 0, 0);
    mended(FIR_REFUSED_TYPES, 24, 10, INT);
    opening(INT, INT, 1);
    RECORD(&made, LEN, 1, 0);
    mended(FIR_REFUSED_TYPES, 24, 10, VECTOR);
    opening(VECTOR, VECTOR, 1);
    RECORD(&made, ARITH, 1, 0, 0, 0);
    unmended(FIR_REFUSED_TYPES, 17, FIR_NOT_MENDED);
}

/* A quiet block that forces a reflective promise: refused by 9 at the BLOCK. */
static void effects(void)
{
    opening(REFLECTIVE, INT, 1);
    RECORD(&made, FORCE, 1, 0);
    mended(FIR_REFUSED_EFFECTS, 17, 10, QUIET);
    made.length = 0;
    RECORD(&made, VERSION, 0, 0, 2, 3, INT, 1, REFLECTIVE, REFLECTIVE, INT);
    RECORD(&made, LEVEL, FIR_PORTAL);
    RECORD(&made, BLOCK, 0, 2, 2);
    RECORD(&made, FORCE, 2, 0);
    RECORD(&made, FORCE, 2, 1);
    unmended(FIR_REFUSED_EFFECTS, 18, FIR_NOT_MENDED);
}

/* 0.0 gives its vector to 0.1, which only looks at it, and then asks for its length: the parameter of 0.1 is mended. */
static void flow(unsigned parameter)
{
    made.length = 0;
    RECORD(&made, VERSION, 0, 0, 1, 2, INT, 1, OWN_VECTOR, INT);
    RECORD(&made, LEVEL, FIR_PORTAL);
    RECORD(&made, BLOCK, 0, 1, 2);
    RECORD(&made, CALL, 1, 0, 1, 1, 0);
    RECORD(&made, LEN, 1, 0);
    RECORD(&made, VERSION, 0, 1, 1, 2, INT, 1, (uint8_t)parameter, INT);
    RECORD(&made, LEVEL, FIR_PORTAL);
    RECORD(&made, BLOCK, 0, 1, 1);
    RECORD(&made, LEN, 1, 0);
}

int main(void)
{
    fir_mended found;
    types();
    effects();
    flow(BORROW_VECTOR);
    found = asked();
    same("the question of an accepted image", found.question, FIR_ACCEPTED);
    same("its versions", found.detail, 2);
    same("its mend", found.mend, FIR_NOT_SOUGHT);
    same("its place", found.place, 0);
    same("its value", found.value, 0);
    flow(OWN_VECTOR);
    mended(FIR_REFUSED_FLOW, 0, 49, BORROW_VECTOR);
    taken_again(&made, 2);
    unmended(FIR_REFUSED_FLOW, 53, FIR_NOT_MENDED);
    made.length = 0;
    unmended(FIR_REFUSED_SIZE, 0, FIR_NOT_SOUGHT);
    calling(&made, FIR_PORTAL, FIR_STAFF);
    unmended(FIR_REFUSED_CALLS, 23, FIR_NOT_SOUGHT);
    opening(INT, INT, 1);
    RECORD(&made, SKIP, 0, 1);
    unmended(FIR_REFUSED_SKIPS, 24, FIR_NOT_SOUGHT);
    opening(INT, INT, 1);
    RECORD(&made, ARITH, 2, 0, 0, 0);
    unmended(FIR_REFUSED_EXISTENCE, 24, FIR_NOT_SOUGHT);
    printf("mend: %u passed\n", tests);
    return 0;
}
