/* Texts: the words of each question and of each answer, and the reports of images, with buffers that are long enough, exactly so, and one place
 * short; and that FIR_QUESTION_TEXT_BYTES, FIR_ANSWER_TEXT_BYTES and FIR_REPORT_BYTES are room for all of them. */
#include <stdio.h>
#include <stdlib.h>

#include "images.h"

enum {
    QUESTIONS = 24, /* 0, accepted, to 23 */
    CODES = FIR_REFUSED + 1,
    NUMBERS = 256,
    MARGIN = 8,
    UNTOUCHED = 0xa5,
    VERSIONS = 64,       /* of an image */
    SHORT_FUNCTIONS = 10 /* functions whose number has one digit */
};

static unsigned tests;
static image tried;
static uint8_t text[FIR_REPORT_BYTES + 2 * MARGIN];

static void same(const char *what, size_t is, size_t wanted)
{
    tests++;
    if (is != wanted) {
        printf("texts: %s is %lu and not %lu\n", what, (unsigned long)is, (unsigned long)wanted);
        exit(1);
    }
}

/* Asserts that all places of the text stay but so many behind the margin. */
static void stays(size_t written)
{
    size_t at, changed = 0;
    for (at = 0; at < sizeof text; at++)
        if (at < MARGIN || at >= MARGIN + written)
            changed += text[at] != UNTOUCHED;
    same("how many places beside the text are changed", changed, 0);
}

/* The length of a question's words, with so many places; what is not written stays. */
static size_t question_text(unsigned question, size_t places)
{
    size_t length;
    memset(text, UNTOUCHED, sizeof text);
    length = fir_question_text((uint8_t)question, text + MARGIN, places);
    stays(length);
    return length;
}

/* The same of an answer's words. */
static size_t answer_text(unsigned code, size_t places)
{
    size_t length;
    memset(text, UNTOUCHED, sizeof text);
    length = fir_answer_text((uint8_t)code, text + MARGIN, places);
    stays(length);
    return length;
}

/* The same of the report of the image. */
static size_t report(size_t places)
{
    size_t length;
    memset(text, UNTOUCHED, sizeof text);
    length = fir_report(tried.bytes, tried.length, text + MARGIN, places);
    stays(length);
    return length;
}

static void questions(void)
{
    static const char *const buffer = "the result buffer has fewer than 16 places";
    static const char *const pool = "the reserves of a pool sum above 64, or the number of a run is above 7";
    unsigned number;
    size_t length;
    for (number = 0; number < NUMBERS; number++) {
        length = question_text(number, FIR_QUESTION_TEXT_BYTES);
        same("whether a number has words", length != 0, number < QUESTIONS);
        if (length == 0)
            continue;
        same("the length with no place left", question_text(number, length), length);
        same("the length with a place too few", question_text(number, length - 1), 0);
    }
    same("the length of 13", question_text(FIR_REFUSED_BUFFER, FIR_QUESTION_TEXT_BYTES), strlen(buffer));
    same("the words of 13", memcmp(text + MARGIN, buffer, strlen(buffer)) != 0, 0);
    same("the length of 21", question_text(FIR_REFUSED_POOL, FIR_QUESTION_TEXT_BYTES), strlen(pool));
    same("the words of 21", memcmp(text + MARGIN, pool, strlen(pool)) != 0, 0);
}

static void answers(void)
{
    static const char *const words[CODES] = {
        "the run goes on",
        "DONE with an integer",
        "DONE with a vector",
        "UNDEF: an operation has no result",
        "DEEP: a 33rd activation is needed",
        "VECTORS: a 65th vector is needed, or one more than a pool gives",
        "PROMISES: a 65th promise is needed",
        "stuck: the state is none of a run of this image",
        "refused",
    };
    unsigned code;
    for (code = 0; code < CODES; code++) {
        const size_t length = strlen(words[code]);
        same("the length of an answer's words", answer_text(code, FIR_ANSWER_TEXT_BYTES), length);
        same("an answer's words", memcmp(text + MARGIN, words[code], length) != 0, 0);
        same("the length with no place left", answer_text(code, length), length);
        same("the length with a place too few", answer_text(code, length - 1), 0);
    }
    for (; code < NUMBERS; code++)
        same("whether another number has words", answer_text(code, FIR_ANSWER_TEXT_BYTES), 0);
}

/* A version whose line is as long as any of its function: 16 registers assigned and 15 captured. Without literals it reads a
 * register that nothing assigned. */
static void wide_version(unsigned function, unsigned version, int literals)
{
    unsigned r, promise = FIR_REGISTERS - 1;
    RECORD(&tried, VERSION, (uint8_t)function, (uint8_t)version, 0, FIR_REGISTERS, 2, 2, /* and the types: */
           2, 2, 2, 2, 2, 2, 2, 2, 2, 2, 2, 2, 2, 2, 2, 4);
    RECORD(&tried, LEVEL, FIR_PORTAL);
    RECORD(&tried, BLOCK, 0, 0, (uint8_t)(literals ? promise + 1 : 1));
    for (r = 0; literals && r < promise; r++)
        RECORD(&tried, LIT, (uint8_t)r, 0, 0, 0, 0, 0, 0, 0, 0);
    RECORD(&tried, PROM, (uint8_t)promise, 1);
    RECORD(&tried, BLOCK, 0, 0, (uint8_t)promise);
    for (r = 0; r < promise; r++)
        RECORD(&tried, ARITH, (uint8_t)r, 0, 0, 0);
}

/* As many versions as an image may have, as few of them as may be in functions of one digit. */
static void wide_image(int last_is_sound)
{
    unsigned v, function = 0, version = 0;
    tried.length = 0;
    for (v = 0; v < VERSIONS; v++) {
        wide_version(function, version, v + 1 < VERSIONS || last_is_sound);
        if (function < SHORT_FUNCTIONS || version + 1 == FIR_VERSIONS) {
            function++;
            version = 0;
        } else {
            version++;
        }
    }
}

static void reports(void)
{
    static const char *const first = "0.0 0 16 0 15\n";
    static const char *const eleventh = "10.0 0 16 0 15\n";
    static const char *const refusal = "refused 10 at ";
    static const char *const last = "accepted 64\n";
    size_t whole = SHORT_FUNCTIONS * strlen(first) + (VERSIONS - SHORT_FUNCTIONS) * strlen(eleventh) + strlen(last);
    wide_image(1);
    same("the longest report", report(FIR_REPORT_BYTES), whole);
    same("its first line", memcmp(text + MARGIN, first, strlen(first)) != 0, 0);
    same("its eleventh line", memcmp(text + MARGIN + SHORT_FUNCTIONS * strlen(first), eleventh, strlen(eleventh)) != 0, 0);
    same("its last line", memcmp(text + MARGIN + whole - strlen(last), last, strlen(last)) != 0, 0);
    same("the report with no place left", report(whole), whole);
    same("the report with a place too few", report(whole - 1), 0);
    wide_image(0);
    whole = strlen(refusal) + strlen("12345\n");
    same("the longest refusal", report(FIR_REPORT_BYTES), whole);
    same("its words", memcmp(text + MARGIN, refusal, strlen(refusal)) != 0, 0);
}

int main(void)
{
    questions();
    answers();
    reports();
    printf("texts: %u passed\n", tests);
    return 0;
}
