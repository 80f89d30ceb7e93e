/*
 * fir.h: the interface of the Hegbaluwe engine, for C99 and C++.
 * SPDX-License-Identifier: Apache-2.0
 *
 * The library checks FIR images and runs them. It keeps nothing between two calls: it has no global state, allocates
 * nothing and calls nothing back. The caller lends all memory and keeps the state of a run between calls.
 *
 * What the caller owes, in every call:
 *   - A pointer with a length points to that many elements, aligned for their type; where the length is 0 it need not
 *     point to anything, but it is not NULL.
 *   - A pointer to a fir_state points to one, aligned as fir_state_alignment says, a pointer to a fir_trail to one, and a pointer
 *     to a fir_pool to one. The content of all three may be anything.
 *   - What a call writes (a state, a trail, a pool, a table, a text, a result buffer, a moved or joined image, rows) overlaps
 *     nothing else that the call is lent.
 *   - Until the call returns, nobody else writes what is lent, and nobody else reads what the call writes.
 *   - An image that is lent with a table was loaded into it: fir_load answered FIR_LOADED, and neither was written since.
 *   - A step, forward or back, a budget, fir_watch, fir_search and fir_where are lent the image in force, and its table; fir_change,
 *     fir_trail_change and fir_pool_change, as their old image, the image in force. That is the one that the run was begun with, or
 *     the last one that such a change accepted for it. The caller keeps it, byte for byte, until another is accepted or the run is
 *     given up.
 *   - A trail is lent with its own state: the one that it was started at, as the calls with this trail have left it.
 *   - A pool is lent with a number and the state of that number: the one that the last start, step or budget under it in this pool
 *     has left. Nobody but the functions of the pool writes the pool.
 * Nothing of this can be tested by the library. All else is: every image, table, entry, argument list, budget, buffer, state, trail,
 * pool and number gets an answer that is listed here, and nothing outside the lent memory is read or written.
 *
 * Threads: every function may be called from several threads at once, each with its own states, trails, pools, texts, buffers and
 * rows. What calls only read they may share: an image, its table once it is loaded, and a state behind a pointer to const. One pool
 * is one writer: calls on one pool do not overlap, also under different numbers.
 *
 * Linking: the archive that tools/dist/library.sh makes is for x86-64 and its calling convention of System V; tools/dist makes it for
 * aarch64, ARMv7 and riscv64 too. It needs three functions of the C library, memcpy, memmove and memset, on ARMv7 also libgcc,
 * and nothing else.
 *
 * Costs: fir_check, fir_load, fir_change, fir_widen, fir_narrow and fir_bounds put an image to its questions and read all of it;
 * fir_join does so with two; fir_report and fir_mend take longer. The calls with a table look up what they need, so that what they
 * cost does not grow with the image: fir_begin writes a state, a step or a budget costs something of its own beside the steps
 * taken, and a step back as much as the steps that lie behind. So an image is loaded once, and one budget costs less than as many
 * single steps. tests/interface/costs.c measures all of these. On a machine of 2026 for x86-64, microseconds, with an image of 512
 * bytes and with the longest:
 *   fir_check, which reads the image         2.8    158      fir_begin                            0.20   0.19
 *   fir_load, once for an image              3.1    175      fir_step; fir_budget of 0, 1 steps   0.06   0.09
 *   fir_change, the new image                3.4    171      fir_budget of 10 steps               0.10   0.13
 *   fir_join, with itself                    5.8    315      fir_budget of 100 steps              0.54   0.58
 *   fir_report, fir_mend, at most            4.3    799      fir_pool_step                        0.08   0.11
 *   fir_where, fir_look                      0.01   0.01     fir_pool_budget of 100 steps         0.59   0.63
 *   fir_search, four versions in vain        0.16   0.16     fir_trail_back of one step           0.35   0.36
 *
 * The examples below are compiled and run by the tests, as they stand, behind <stdio.h> and this header.
 */
#ifndef FIR_H
#define FIR_H

#include <stddef.h>
#include <stdint.h>

#ifdef __cplusplus
extern "C" {
#endif

/* ---- Which library this is ---- */

/* The number of the interface: it is another one where a host that was compiled with the header before would go wrong. */
#define FIR_INTERFACE 2

/* The number of the layout of a stored state: it is another one where bytes that were stored before mean something else. */
#define FIR_STATE_LAYOUT 2

typedef struct fir_versions {
    uint32_t interface_number; /* FIR_INTERFACE */
    uint32_t state_layout;     /* FIR_STATE_LAYOUT */
} fir_versions;

/* The numbers that the library was built with. A host compares them, once, with those of the header it was compiled with.
 *
 * Example:
 *
 *     static int library_is_the_headers(void)
 *     {
 *         fir_versions built = fir_version();
 *         return built.interface_number == FIR_INTERFACE && built.state_layout == FIR_STATE_LAYOUT;
 *     }
 */
fir_versions fir_version(void);

/* ---- Integers ---- */

/* Integers have 64 bits: in registers, vectors, argument words, result buffers and answers, -9,223,372,036,854,775,808 to
 * 9,223,372,036,854,775,807. An operation whose result is out of that range is UNDEF, and no result wraps. A literal in an
 * image is a record of kind 36 with a number of 8 bytes.
 *
 * Integers once had 32 bits, and a literal was a record of kind 16 with a number of 4 bytes. An image of that form is refused
 * by question 3 at its first literal; fir_widen moves it to the form in force. (Both forms carry levels, and an image without
 * them is refused by 4 in both: its versions need LEVEL records first.) A state that the library of that time stored is
 * not read, as none of another layout is: such a run is begun anew. */

/* ---- Bounds ---- */

#define FIR_IMAGE_BYTES 32768 /* the longest image */
#define FIR_FUNCTIONS 32      /* functions 0 to 31 */
#define FIR_VERSIONS 4        /* versions 0 to 3 of each */
#define FIR_REGISTERS 16      /* registers of a call */
#define FIR_NAMES 8           /* names of a call */
#define FIR_ACTIVATIONS 32    /* calls and forces that live at once */
#define FIR_ITEMS 16          /* items of a vector, and the fewest places of a result buffer */
#define FIR_PLACES 64         /* places for vectors, and for promises */
#define FIR_STRIDE 32         /* places of a call in a state: 16 registers, 8 names, and 8 that are for neither */

/* ---- Levels of staff ---- */

/* Tenants' portal, site staff and factory share one image. Each version states its level, by a LEVEL record right behind its
 * VERSION record: kind 3, one body byte. A run states a level as it begins, in fir_begin or fir_run. */
#define FIR_PORTAL 0
#define FIR_STAFF 1
#define FIR_FACTORY 2 /* the highest: a run that states a number above it counts as this one */

/* A version CALLs versions of its own level or lower ones alone (18); a DISPATCH passes over versions above the level of
 * the version that it stands in, also where a lower version forces the block; and a run begins at a version of its level
 * or a lower one alone (19). So no version above the run's level is ever entered, whatever the arguments, steps, budgets,
 * changes of the image and steps back are. At each higher level the run is the same: nothing of its level is kept in the state.
 *
 * What that protects from: somebody who chooses entry, arguments and budgets, and for whom the controller states the level,
 * reaches nothing above it. What it does not protect from:
 *   - Who may state which level is the controller's business: the library takes the number as it is given.
 *   - A state that was begun is stepped without a level, by whoever has it. Where somebody may not go on with a run that
 *     others began, the controller does not lend them its state.
 *   - Whoever may write an image, or a stored image or state, writes its levels and its calls too. The questions ask whether
 *     an image keeps to the levels that it states, not who stated them. fir_change compares the levels of versions with a
 *     live call, which are among their bytes, and no others.
 *   - Levels part no data. A version gives arguments, vectors and promises to those that it calls. Whoever is given a
 *     promise, of a lower level too, may force it, which executes its block with the rights of the version that it stands
 *     in, and by PEEK and POKE read and write the names of its call. fir_look shows all.
 *   - A host that was compiled for a library before levels, and is not compiled again, passes other arguments than the
 *     library takes. */

/* ---- Refusals: the question that says no ---- */

/* To an image 1 to 7, 14, 8, 18, 9 and 10 are put, in this order; to a run that begins 11, 19, 12 and 13; in a pool 21 comes before
 * everything that the call asks. A new image is asked 15 behind its own questions, a moved one 16 and 17, two that are joined 23. */

#define FIR_ACCEPTED 0           /* none does */
#define FIR_REFUSED_SIZE 1       /* the image has 1 to 32,768 bytes */
#define FIR_REFUSED_RECORDS 2    /* each record has a full head, a length of at least 4, and ends inside the image */
#define FIR_REFUSED_KINDS 3      /* each kind is known, its length the one its fields make */
#define FIR_REFUSED_BOUNDS 4     /* numbers, counts, marks, levels, op and n are in bounds, records in order */
#define FIR_REFUSED_NUMBERING 5  /* the first version is 0.0, each next one follows on it */
#define FIR_REFUSED_TYPE_BYTES 6 /* each type byte is allowed at its place */
#define FIR_REFUSED_EXISTENCE 7  /* what is named exists, and every block but 0 is named by exactly one PROM */
#define FIR_REFUSED_SKIPS 14     /* no SKIP goes past the end of its block, or of a skipped part that it stands in */
#define FIR_REFUSED_TYPES 8      /* types fit */
#define FIR_REFUSED_CALLS 18     /* no CALL names a version of a higher level */
#define FIR_REFUSED_EFFECTS 9    /* each block's mark covers its effect */
#define FIR_REFUSED_FLOW 10      /* flow holds */
#define FIR_REFUSED_ENTRY 11     /* the entry exists */
#define FIR_REFUSED_LEVEL 19     /* the entry is of the run's level or lower */
#define FIR_REFUSED_ARGUMENTS 12 /* the argument words are used up, each argument matching its parameter */
#define FIR_REFUSED_BUFFER 13    /* the result buffer has at least 16 places */
#define FIR_REFUSED_CHANGE 15    /* every version with a live call has the same bytes and number in both images */
#define FIR_REFUSED_LITERAL 16   /* every literal of an image that is moved fits 32 bits */
#define FIR_REFUSED_ROOM 17      /* the moved image has at most 32,768 bytes and fits the buffer */
#define FIR_REFUSED_BACK 20      /* a step lies behind the state */
#define FIR_REFUSED_POOL 21      /* the reserves of the pool sum to at most 64, and the number is 0 to 7 */
#define FIR_REFUSED_ROWS 22      /* the list has a record for each register of the topmost call */
#define FIR_REFUSED_JOIN 23      /* the joined image has at most 32,768 bytes, 32 functions and 64 versions and fits the buffer */

#define FIR_QUESTION_TEXT_BYTES 128 /* room for the words of every question */

/* Writes in words what a refusal by a question says, without a 0 behind it, and gives the length; for FIR_ACCEPTED the word
 * is `accepted`. A buffer that is too short is left as it was, and the answer is 0; so it is for a number that is no
 * question's. The words are for people and may change; a program goes by the numbers.
 *
 * Example:
 *
 *     static void say_refusal(FILE *to, uint8_t question, size_t offset)
 *     {
 *         uint8_t text[FIR_QUESTION_TEXT_BYTES];
 *         size_t length = fir_question_text(question, text, sizeof text);
 *         fprintf(to, "refused by %u at %lu: ", (unsigned)question, (unsigned long)offset);
 *         fwrite(text, 1, length, to);
 *         fputc('\n', to);
 *     }
 */
size_t fir_question_text(uint8_t question, uint8_t *text, size_t text_length);

/* A verdict on an image: FIR_ACCEPTED and its number of versions, or the question that refuses it and the offset of the
 * first record that fails. Of a move: FIR_ACCEPTED and the length of the moved image, or the question and the offset. Of
 * bounds: FIR_ACCEPTED and the number of rows, or the question and the offset. */
typedef struct fir_verdict {
    size_t detail;
    uint8_t question;
} fir_verdict;

/* Whether a run has begun, goes on under a new image or has gone back, or a pool is made: FIR_ACCEPTED, or the question that refuses
 * it and the offset. A run is refused by 11, 19, 12 or 13, a new image by 1 to 10, 14, 15 or 18, a step back by 20, and all of these
 * in a pool by 21 first. With FIR_ACCEPTED, 11 to 13 and 19 to 21 the offset is 0. */
typedef struct fir_entry {
    uint16_t offset;
    uint8_t question;
} fir_entry;

/* ---- Answers of a step or a budget ---- */

/* The code of an answer says what else it holds. A field that the line of its code does not name is 0; only the steps of a
 * fir_answer go with every code. */
#define FIR_STEPS 0     /* the run goes on: the step was taken, or the budget is used up */
#define FIR_INTEGER 1   /* DONE with the integer `value` */
#define FIR_VECTOR 2    /* DONE with a vector of `length` items */
#define FIR_UNDEF 3     /* UNDEF */
#define FIR_DEEP 4      /* DEEP: a 33rd activation is needed */
#define FIR_VECTORS 5   /* VECTORS: a 65th vector is needed, or one more than the pool gives */
#define FIR_PROMISES 6  /* PROMISES: a 65th promise is needed */
#define FIR_STUCK 7     /* the state is none of a begun run that this image is in force for; a stuck step leaves it as it was */
#define FIR_REFUSED 8   /* refused by `question` at `offset`; state and buffer are as they were */

#define FIR_ANSWER_TEXT_BYTES 64 /* room for the words of every answer */

/* Writes in words what an answer of this code says, without a 0 behind it, and gives the length. A buffer that is too short is
 * left as it was, and the answer is 0; so it is for a number that is no code. The words are for people and may change; a
 * program goes by the numbers.
 *
 * Example:
 *
 *     static void say_answer(FILE *to, fir_answer answer)
 *     {
 *         uint8_t text[FIR_ANSWER_TEXT_BYTES];
 *         fwrite(text, 1, fir_answer_text(answer.code, text, sizeof text), to);
 *         fprintf(to, ", steps taken: %lu\n", (unsigned long)answer.steps);
 *     }
 */
size_t fir_answer_text(uint8_t code, uint8_t *text, size_t text_length);

/* A run that has ended gives its end again: each further step says the same code, value and length, and each further budget,
 * of 0 steps too, answers them with 0 steps and writes the items of a vector to its buffer as before. The state stays, byte for
 * byte. Only the length of the buffer is still asked (FIR_REFUSED_BUFFER). A step back alone leads to before the end. */

/* What a single step says: FIR_STEPS to FIR_STUCK. */
typedef struct fir_said {
    int64_t value;
    uint8_t code;
    uint8_t length;
} fir_said;

/* The answer to a budget, and the steps taken under it: FIR_STEPS to FIR_REFUSED. */
typedef struct fir_answer {
    uint32_t steps;
    int64_t value;
    uint16_t offset;
    uint8_t code;
    uint8_t length;
    uint8_t question;
} fir_answer;

/* ---- The state of a run ---- */

/* Numbers alone, without padding: it may be copied, stored and compared as bytes, whole. Write it by the functions below only; its
 * fields are here so that it can be declared and read. What lies above a count means nothing.
 *
 * What is promised of its bytes:
 *   - The bytes that fir_begin leaves depend on what it was given alone, and not on what the memory held before, where it
 *     does not refuse.
 *   - Equal calls on equal bytes leave equal bytes. So two boxes that get the same calls compare their states by memcmp. No
 *     contract says so: it rests on the language, in which no function keeps anything between calls.
 *   - A stuck step, a step or a budget of a run that has ended, a budget of 0 steps, and a refusal leave every byte as it was.
 *     Where a budget gets stuck, the steps before it stay taken.
 *   - Into however many steps and budgets a run is divided, the same state is stood for, and all that the functions below say of
 *     it is the same. Bytes that mean nothing may differ then.
 *
 * A stored state is these fir_state_size() bytes, kept anywhere and read back at any time, by another program too whose
 * library has the same FIR_STATE_LAYOUT. There are no bytes that cannot be gone on from: all of them stand for some state. So
 * damage is not noticed, and a damaged state may answer any code: whoever may lose bytes stores a checksum over state and image,
 * and compares it. A state does not hold its image, nor the table: whoever stores it stores the image in force with it, or knows
 * which one that was. The table need not be stored; it is made again from the image (fir_load).
 *
 * Where the image was exchanged without an accepted change, every step and budget still gives an answer that is listed
 * here and keeps to the lent memory, but nothing that is promised of a begun run holds any more: a step may be stuck, and
 * what registers hold may be of other types than the image declares.
 *
 * The call k has the places 32 k to 32 k + 31 in `numbers`, `tags` and `places`: 32 k + r is register r, 32 k + 16 + x the name
 * x. Tag 1 is the integer in `numbers`, 2 the vector whose number stands in `places`, 3 the promise whose number stands there;
 * all else is nothing. The tags at 32 k + 24 and 32 k + 25 are the function and the version of the call. */
typedef struct fir_state {
    int64_t numbers[FIR_ACTIVATIONS * FIR_STRIDE]; /* the integers of registers and names */
    int64_t items[FIR_PLACES * FIR_ITEMS];         /* 16 items of each vector */
    int64_t caches[FIR_PLACES];                    /* the integer of each promise that was forced */
    int64_t result[FIR_ITEMS];                     /* the items of a vector that the run is DONE with */
    int64_t value;                                 /* the integer that the run is DONE with */
    uint8_t tags[FIR_ACTIVATIONS * FIR_STRIDE];    /* what registers and names hold, and the version of each call */
    uint8_t places[FIR_ACTIVATIONS * FIR_STRIDE];  /* which vector or promise they hold */
    uint8_t stack[FIR_ACTIVATIONS * 8];            /* of each activation: 0 call, else force, the promise, d, its call, block, next
                                                    * instruction, and two spare */
    uint8_t promises[FIR_PLACES * 4];              /* of each promise: its call, its block, 0 where it was not forced, one spare */
    uint8_t lengths[FIR_PLACES];                   /* of each vector */
    uint8_t calls;                                 /* how many calls are live */
    uint8_t depth;                                 /* how many activations are live */
    uint8_t status;                                /* FIR_STEPS while the run goes on, else its end: FIR_INTEGER to FIR_PROMISES */
    uint8_t length;                                /* of the vector that the run is DONE with */
    uint8_t spare[4];
} fir_state;

/* The bytes of a state, 19,664, in the layout that FIR_STATE_LAYOUT 2 names: the fields stand in the order above, at the offsets
 *
 *       0 numbers     16896 result     18056 places       19592 lengths    19658 status
 *    8192 items       17024 value      19080 stack        19656 calls      19659 length
 *   16384 caches      17032 tags       19336 promises     19657 depth      19660 spare
 *
 * with each number's lowest byte first, and integers in two's complement. No field says the layout: whoever stores a state
 * stores that number with it, and compares it before the state is read back. A state of layout 1, which had 17,040 bytes, is not
 * read: its fields stand elsewhere, and bytes do not show which library wrote them. Such a run is begun anew.
 *
 * Example:
 *
 *     static int store_state(FILE *to, const fir_state *state)
 *     {
 *         const uint32_t layout = FIR_STATE_LAYOUT;
 *         return fwrite(&layout, sizeof layout, 1, to) == 1 && fwrite(state, sizeof *state, 1, to) == 1;
 *     }
 *
 *     static int read_state(FILE *from, fir_state *state)
 *     {
 *         uint32_t layout;
 *         if (fread(&layout, sizeof layout, 1, from) != 1 || layout != FIR_STATE_LAYOUT)
 *             return 0;
 *         return fread(state, sizeof *state, 1, from) == 1;
 *     }
 */

/* The size and the alignment of a state in bytes, as the library was built. */
size_t fir_state_size(void);
size_t fir_state_alignment(void);

/* ---- Checking ---- */

/* Checks an image. */
fir_verdict fir_check(const uint8_t *image, size_t image_length);

/* Room for every report: 64 lines of at most 17 bytes (`31.3 16 16 16 16` would be one) and the 12 of `accepted 64`, each
 * with its newline. A refusal takes at most 20, as `refused 18 at 32767` does. */
#define FIR_REPORT_BYTES 1100

/* Writes the text that `check` prints, without a 0 behind it, and gives its length. A buffer that is too short is left as
 * it was, and the answer is 0.
 *
 * Example:
 *
 *     static void print_report(FILE *to, const uint8_t *image, size_t image_length)
 *     {
 *         uint8_t text[FIR_REPORT_BYTES];
 *         fwrite(text, 1, fir_report(image, image_length, text, sizeof text), to);
 *     }
 */
size_t fir_report(const uint8_t *image, size_t image_length, uint8_t *text, size_t text_length);

/* ---- Stored images: the form of 32 bits ---- */

/* The two forms of an image differ in their literals alone: kind 36 with 8 bytes, or kind 16 with 4. A form knows its own
 * literal and refuses the other's by 3. An image without literals is of both forms. All else is asked of both alike. */
#define FIR_FORM_64 0 /* the form in force, that all other functions ask for; so is every other number but 1 */
#define FIR_FORM_32 1 /* the form before */

/* Checks an image in a form; fir_check is for FIR_FORM_64. */
fir_verdict fir_check_in(const uint8_t *image, size_t image_length, uint8_t form);

/* Writes the text of an image in a form, as fir_report does. */
size_t fir_report_in(const uint8_t *image, size_t image_length, uint8_t form, uint8_t *text, size_t text_length);

/* Moves an image from the form of 32 bits to that of 64, or back: each literal is written in the other form with the same
 * number, and all else stays byte for byte. The moved image stands in the buffer from place 0 on, and `detail` is its length.
 * It passes the questions of its form, with the same text; moved back it is the same image again, byte for byte.
 *
 * The image is first put to the questions of the form that it comes from, 1 to 10, 14 and 18. Then 16, at the first literal
 * that does not fit 32 bits, which only fir_narrow meets; then 17, at 0. A buffer of FIR_IMAGE_BYTES is always long enough for
 * what the bound lets through, and for fir_narrow one as long as the image. A refusal writes nothing; places of the buffer past
 * the moved image stay. */
fir_verdict fir_widen(const uint8_t *image, size_t image_length, uint8_t *out, size_t out_length);
fir_verdict fir_narrow(const uint8_t *image, size_t image_length, uint8_t *out, size_t out_length);

/* ---- Two images into one ---- */

#define FIR_FIRST_IMAGE 1  /* the first image is refused */
#define FIR_SECOND_IMAGE 2 /* the second image is refused */

/* What joining two images comes to: FIR_ACCEPTED and the length of the joined image, or the question that refuses. */
typedef struct fir_joined {
    size_t detail;    /* the length of the joined image, or the offset of the refusal */
    uint8_t question; /* FIR_ACCEPTED, or the question that refuses */
    uint8_t image;    /* FIR_FIRST_IMAGE or FIR_SECOND_IMAGE where that image is refused by its own questions; 0 with
                       * FIR_ACCEPTED and FIR_REFUSED_JOIN */
} fir_joined;

/* Joins two images, so that one box runs what two offices wrote. The joined image is the first one, byte for byte, and behind
 * it the second, whose functions are renumbered to follow those of the first: where the first has the functions 0 to k - 1,
 * function f of the second has the number k + f. Changed are the function bytes of the second's VERSION, CALL and DISPATCH
 * records, and nothing else. It stands in the buffer from place 0 on, and `detail` is its length, that of both together.
 *
 * The joined image is accepted. Each entry of the first under its own number, and each of the second under its new one, at
 * every level, with every argument list, budget and buffer, is refused or begins as it does alone, and then gives the same
 * answers after as many steps; its state is the same but for the function numbers of live calls. Functions behind those of
 * both are refused by 11. How many functions an image has is the function of its last version plus 1; the example counts
 * them.
 *
 * Each image is put to its own questions, 1 to 10, 14 and 18, the first image before the second; `image` says which one is
 * refused, and `detail` is an offset in it. Then 23, at 0, which names neither image: the joined image would have more than
 * FIR_IMAGE_BYTES bytes, FIR_FUNCTIONS functions or 64 versions, or more bytes than the buffer has places. A buffer of
 * FIR_IMAGE_BYTES is long enough for every joined image. A refusal writes nothing; places of the buffer past the joined image
 * stay. The buffer overlaps neither image; an image may be joined with itself, and a joined image with a third.
 *
 * Example:
 *
 *     static size_t join_or_say_why(FILE *to, const uint8_t *first, size_t first_length, const uint8_t *second,
 *                                   size_t second_length, uint8_t *out)
 *     {
 *         static const char *const refused[] = {"the two together", "the first image", "the second image"};
 *         fir_joined joined = fir_join(first, first_length, second, second_length, out, FIR_IMAGE_BYTES);
 *         if (joined.question == FIR_ACCEPTED)
 *             return joined.detail;
 *         fprintf(to, "%s: ", refused[joined.image]);
 *         say_refusal(to, joined.question, joined.detail);
 *         return 0;
 *     }
 *
 *     static size_t functions_of_accepted(const uint8_t *image, size_t image_length)
 *     {
 *         size_t at = 0, functions = 0;
 *         while (at < image_length) {
 *             if (image[at + 2] == 1)
 *                 functions = (size_t)image[at + 4] + 1;
 *             at += (size_t)image[at] + 256 * (size_t)image[at + 1];
 *         }
 *         return functions;
 *     }
 */
fir_joined fir_join(const uint8_t *first, size_t first_length, const uint8_t *second, size_t second_length, uint8_t *out,
                    size_t out_length);

/* ---- The smallest mend ---- */

#define FIR_NOT_SOUGHT 0 /* no mend is looked for: the image is accepted, or refused by another question than 6, 8, 9 and 10 */
#define FIR_MENDED 1     /* the byte at `place`, changed to `value`, makes the image accepted */
#define FIR_NOT_MENDED 2 /* no register type byte does */

/* What can be done for an image. */
typedef struct fir_mended {
    size_t detail;    /* the number of versions of an accepted image, or the offset of the refusal */
    size_t place;     /* with FIR_MENDED the offset of the byte, else 0 */
    uint8_t question; /* FIR_ACCEPTED, or the question that refuses */
    uint8_t mend;     /* FIR_NOT_SOUGHT, FIR_MENDED or FIR_NOT_MENDED */
    uint8_t value;    /* with FIR_MENDED its new value, else 0 */
} fir_mended;

/* Finds a correction for an image that is refused by 6, 8, 9 or 10: the one register type byte of a VERSION record whose
 * change makes the image accepted. The bytes of parameters count among them; the return type does not, nor do the types of a
 * DISPATCH. Named is the byte of the lowest offset that any value mends, and its lowest such value; FIR_NOT_MENDED says that no
 * register type byte mends with any value. The refusal stands beside it, as fir_check gives it. It is a correction, and need
 * not be the one that the author has in mind.
 *
 * An accepted image is named accepted. Every other refusal, by 14 and 18 too, is returned as it is, with FIR_NOT_SOUGHT. The
 * image stays untouched: the library tries changes in a copy, so that the call takes 42,848 bytes of stack, 35,088 more than
 * fir_check (on x86-64).
 *
 * Example:
 *
 *     static void offer_mend(FILE *to, const uint8_t *image, size_t image_length)
 *     {
 *         fir_mended found = fir_mend(image, image_length);
 *         if (found.mend == FIR_MENDED)
 *             fprintf(to, "byte %lu: %u in place of %u\n", (unsigned long)found.place, (unsigned)found.value,
 *                     (unsigned)image[found.place]);
 *         else if (found.mend == FIR_NOT_MENDED)
 *             fprintf(to, "no register type mends it\n");
 *     }
 */
fir_mended fir_mend(const uint8_t *image, size_t image_length);

/* ---- How long at most ---- */

#define FIR_ROWS 64             /* rows that are lent: one for each version that an image may have */
#define FIR_LARGE 4294967296ULL /* in place of a bound: it is above 4,294,967,295 */
#define FIR_NONE 4294967297ULL  /* in place of a bound: none is given */

/* Lists the versions of an image with the most steps that a run of each can take. Whatever its level, its arguments and its
 * buffer are, and into however many steps and budgets it is divided: a run never takes more steps than a bound given for its
 * entry, as long as no change of its image was taken (fir_change), and no step back (fir_trail_back), behind which steps are taken
 * again; nor does one in a pool. A bound need not be met: skipped parts, promises that are never forced and the longest version that
 * a DISPATCH may enter all count.
 *
 * The row i is the version numbers[2 * i].numbers[2 * i + 1], and steps[i] its bound: its instructions and block ends in all
 * blocks, promise bodies too, and for each CALL and DISPATCH the largest bound that it may reach, 0 where nothing fits. A
 * DISPATCH may reach each version of its function that its signature and the level of its own version allow, whatever the
 * kinds of the arguments are. FIR_NONE stands exactly where the version may come to itself, or to one that does; such runs
 * end too, since a 33rd activation is DEEP, but no bound is given.
 *
 * Versions with a bound, or FIR_LARGE, stand behind all that they may reach, and among those that could stand at a place the
 * one of the lowest function, then of the lowest version. Those with FIR_NONE come last, in order of number.
 *
 * The image is put to its questions first, so that no fir_check need come before it. `detail` is the number of rows, as many
 * as the image has versions, or the offset of the refusal that fir_check gives. Both arrays are lent whole, 2 * FIR_ROWS and
 * FIR_ROWS elements, however few versions the image has. Rows past the last stay as they were; a refusal writes nothing.
 *
 * Example:
 *
 *     static uint64_t most_steps(const uint8_t *image, size_t image_length, uint8_t function, uint8_t version)
 *     {
 *         uint8_t numbers[2 * FIR_ROWS];
 *         uint64_t steps[FIR_ROWS];
 *         fir_verdict listed = fir_bounds(image, image_length, numbers, steps);
 *         size_t i;
 *         if (listed.question == FIR_ACCEPTED)
 *             for (i = 0; i < listed.detail; i++)
 *                 if (numbers[2 * i] == function && numbers[2 * i + 1] == version)
 *                     return steps[i];
 *         return FIR_NONE;
 *     }
 */
fir_verdict fir_bounds(const uint8_t *image, size_t image_length, uint8_t *numbers, uint64_t *steps);

/* ---- Loading ---- */

/* The table of an image says where its versions, blocks and instructions stand, and holds the short ones. The caller lends it as
 * bytes, of any alignment, and keeps it beside the image, which stays as it is and may stand in read-only memory. A table that is
 * long enough for every image has 45,992 bytes; that of an image of 2,000 bytes needs 4,968.
 *
 * It need not be stored: fir_load makes it again from the image, also after a power cut. No other call writes it, so that several
 * runs, in several threads too, share one. */
#define FIR_TABLE_BYTES(image_length) (2304 + (image_length) / 6 * 8) /* for an image of so many bytes */

/* The same number as a function. A longer image than FIR_IMAGE_BYTES is refused with any table: for it, what the longest needs. */
size_t fir_table_size(size_t image_length);

/* What became of a load: FIR_LOADED, FIR_REFUSED by `question` at the offset `detail`, or FIR_SHORT. A field that the line of its
 * code does not name is 0. */
#define FIR_LOADED 0 /* the table is filled; the image has `detail` versions */
#define FIR_SHORT 9  /* the image is accepted, but the table is too short: it needs `detail` bytes */

typedef struct fir_loaded {
    size_t detail;
    uint8_t code;
    uint8_t question;
} fir_loaded;

/* Puts an image to its questions, 1 to 10, 14 and 18, and fills its table. With FIR_LOADED, and until image or table is written,
 * the calls that are lent both do what the paper says of the image's program. With FIR_REFUSED and FIR_SHORT the table has no
 * version, whatever it held before: its first 256 bytes, or as many as there are, are 0, and every run is refused by 11.
 *
 * Every content of a table has an answer: image and table together stand for a program, whatever they hold, and the calls that are
 * lent both go by that one. Where it is not the table that fir_load left, nothing that is promised of an accepted image holds.
 *
 * Example:
 *
 *     static uint8_t table[FIR_TABLE_BYTES(FIR_IMAGE_BYTES)];
 *
 *     static int load_image(FILE *to, const uint8_t *image, size_t image_length)
 *     {
 *         fir_loaded loaded = fir_load(image, image_length, table, sizeof table);
 *         if (loaded.code == FIR_REFUSED)
 *             say_refusal(to, loaded.question, loaded.detail);
 *         return loaded.code == FIR_LOADED;
 *     }
 */
fir_loaded fir_load(const uint8_t *image, size_t image_length, uint8_t *table, size_t table_length);

/* ---- Running ---- */

/* Begins a run of a version of a function at a level and writes its state, every byte of it. The image was loaded, and is not put
 * to its questions again: asked are 11, 19, 12 and 13. Argument words are -1 and an integer, or 0 to 16 and that many integers, for
 * each parameter; a head word counts with all of its 64 bits, as a level does. The buffer is asked for its length only. Where the
 * run is refused, the state is as it was.
 *
 * A version without parameters is lent no words: the length is 0, and the pointer, to anything, is still not NULL. Here and below
 * the examples use the table of the one before.
 *
 * Example:
 *
 *     static fir_entry begin_without_words(const uint8_t *image, size_t image_length, const int64_t *buffer, fir_state *state)
 *     {
 *         const int64_t none = 0;
 *         return fir_begin(image, image_length, table, sizeof table, FIR_PORTAL, 0, 0, &none, 0, buffer, FIR_ITEMS, state);
 *     }
 */
fir_entry fir_begin(const uint8_t *image, size_t image_length, const uint8_t *table, size_t table_length, size_t level,
                    size_t function, size_t version, const int64_t *words, size_t words_length, const int64_t *buffer,
                    size_t buffer_length, fir_state *state);

/* Takes a single step. It is lent no buffer: the items of a vector that the run is DONE with are written by a budget of 0.
 *
 * Example:
 *
 *     static fir_said step_to_the_end(const uint8_t *image, size_t image_length, fir_state *state, int64_t *items)
 *     {
 *         fir_said said;
 *         do
 *             said = fir_step(image, image_length, table, sizeof table, state);
 *         while (said.code == FIR_STEPS);
 *         if (said.code == FIR_VECTOR)
 *             fir_budget(image, image_length, table, sizeof table, state, 0, items, FIR_ITEMS);
 *         return said;
 *     }
 */
fir_said fir_step(const uint8_t *image, size_t image_length, const uint8_t *table, size_t table_length, fir_state *state);

/* Takes at most `budget` steps. A vector that the run is DONE with is written to the buffer from place 0 on; all else in
 * the buffer stays. Budgets add up: it makes no difference into how many a run is divided, but for time, since each call costs
 * something of its own. It refuses by 13 alone.
 *
 * Example:
 *
 *     static fir_answer run_by_slices(const uint8_t *image, size_t image_length, fir_state *state, int64_t *items)
 *     {
 *         const uint32_t slice = 1000;
 *         fir_answer answer;
 *         do
 *             answer = fir_budget(image, image_length, table, sizeof table, state, slice, items, FIR_ITEMS);
 *         while (answer.code == FIR_STEPS);
 *         return answer;
 *     }
 */
fir_answer fir_budget(const uint8_t *image, size_t image_length, const uint8_t *table, size_t table_length, fir_state *state,
                      uint32_t budget, int64_t *buffer, size_t buffer_length);

/* Begins a run at a level and takes at most `budget` steps. Where it is refused, state and buffer are as they were. */
fir_answer fir_run(const uint8_t *image, size_t image_length, const uint8_t *table, size_t table_length, size_t level,
                   size_t function, size_t version, const int64_t *words, size_t words_length, uint32_t budget,
                   int64_t *buffer, size_t buffer_length, fir_state *state);

/* ---- A new image for a run that goes on ---- */

/* Whether the run of a state, ended or not, may go on under a new image in place of the one in force: FIR_ACCEPTED, or the
 * question that refuses it and its offset. Put are the questions to the new image, 1 to 10, 14 and 18, and then 15; the
 * old image is not asked again, and no level is stated. 15 is at the new image's first version with a live call that
 * differs, or at the new image's length if none differs and one is missing. A run that is DONE has no live call and may go
 * on under any accepted image.
 *
 * It is lent the two images, and no table. Nothing is written and no step is taken: the state is carried over whole, and the
 * answer alone says under which image it goes on. With FIR_ACCEPTED the new image is in force from then on: the caller loads it,
 * before or after, and the old one need not be kept; else the old image stays in force, and the new one need not be kept. Where
 * the state is none of a run under the old image, FIR_ACCEPTED promises nothing of its steps.
 *
 * Example:
 *
 *     static int change_image(const uint8_t *old_image, size_t old_length, const uint8_t *new_image, size_t new_length,
 *                             const fir_state *state)
 *     {
 *         if (fir_change(old_image, old_length, new_image, new_length, state).question != FIR_ACCEPTED)
 *             return 0;
 *         return fir_load(new_image, new_length, table, sizeof table).code == FIR_LOADED;
 *     }
 */
fir_entry fir_change(const uint8_t *old_image, size_t old_length, const uint8_t *new_image, size_t new_length,
                     const fir_state *state);

/* ---- Stepping back ---- */

#define FIR_TRAIL_NUMBERS 2129 /* the integers of a state: its `numbers`, `items`, `caches`, `result` and `value` */
#define FIR_TRAIL_BYTES 2632   /* its bytes behind them: `tags` to `spare` */

/* A state with its start kept: the start, and how many steps lie behind the state. The caller keeps state and trail side by side,
 * and makes every step, budget and change by the functions below: then a step back leads to the state before the last step, and
 * further back up to the start, names, caches and counts included.
 *
 * The steps that count are those that a budget counts: each that goes on, and the one that makes DONE or UNDEF. One that DEEP,
 * VECTORS or PROMISES stops does not, nor does one that is stuck or refused, or one of a run that has ended. A step back lowers
 * the number. Once more than 4,294,967,295 lie between the start and the state, none lies behind any more, until a new start.
 *
 * What the caller owes: a trail belongs to one state, and both go together where they are copied or stored. A state that is
 * stepped without its trail leaves the trail behind, and nothing is promised of the two: a step back gives the state of one step
 * less than the trail has counted. So does one whose image is changed by fir_change alone; fir_trail_start behind it puts that right.
 *
 * A trail may be stored as a state is, under the same FIR_STATE_LAYOUT: its first fir_state_size() bytes are the start, laid out as
 * a state is; `steps` stands at 19664, `past` at 19668, and the three bytes behind it mean nothing. So memcpy(state, trail, sizeof
 * *state), and then fir_trail_start, brings a state back to its start. Every content of a trail has an answer, as every content of
 * a state has: its first two fields stand for a state, and its last two for a count. */
typedef struct fir_trail {
    int64_t numbers[FIR_TRAIL_NUMBERS]; /* the start */
    uint8_t bytes[FIR_TRAIL_BYTES];
    uint32_t steps;                     /* how many steps lie behind, where `past` is 0 */
    uint8_t past;                       /* all else than 0: more than 4,294,967,295 lie between, and none behind */
} fir_trail;

/* Keeps a state as the start, with no step behind it. The state is mostly one that fir_begin has written; it may be any other, and
 * then the run goes back to that one and no further. */
void fir_trail_start(const fir_state *state, fir_trail *trail);

/* Takes a single step as fir_step does, with the same answer and the same state, and counts it where it counts. */
fir_said fir_trail_step(const uint8_t *image, size_t image_length, const uint8_t *table, size_t table_length, fir_state *state,
                        fir_trail *trail);

/* Takes at most `budget` steps as fir_budget does, with the same answer, the same state and the same buffer, and counts those that
 * the answer counts. */
fir_answer fir_trail_budget(const uint8_t *image, size_t image_length, const uint8_t *table, size_t table_length, fir_state *state,
                            fir_trail *trail, uint32_t budget, int64_t *buffer, size_t buffer_length);

/* Asks what fir_change asks. With FIR_ACCEPTED the new image is in force, and the state is a new start with no step behind it: a
 * run goes back no further than a change. Any refusal writes nothing, and leaves the steps behind the state. */
fir_entry fir_trail_change(const uint8_t *old_image, size_t old_length, const uint8_t *new_image, size_t new_length,
                           const fir_state *state, fir_trail *trail);

/* Takes a step back: with n steps behind the state, n from 1 to 4,294,967,295, the state that n - 1 steps give from the start, and
 * n - 1 steps behind it. A run that has ended goes on from there: after DONE and UNDEF its last step is taken back, and after DEEP,
 * VECTORS and PROMISES the step before the one that was stopped. With no step behind, 20 at 0: state and trail are as they were,
 * and an end stays. The trail knows where the state came from: what the state held makes no difference.
 *
 * It costs a copy of the start and a budget of n - 1 steps: 21 milliseconds for n = 1,000,000, on a busy machine. Where that is
 * too slow, keep checkpoints: below, each of them is a state with a trail of its own, which was started at the state of the one
 * before, so that no step back takes EACH steps or more while there are checkpoints left. Where its trail has no step behind, the run
 * goes back in the one before. After a change that is taken, the checkpoints of before belong to the old image and are given up.
 *
 * Example:
 *
 *     enum { CHECKPOINTS = 20, EACH = 100 };
 *
 *     static struct {
 *         fir_state state;
 *         fir_trail trail;
 *     } points[CHECKPOINTS];
 *     static size_t last;
 *
 *     static void keep_begun(const fir_state *state)
 *     {
 *         last = 0;
 *         points[0].state = *state;
 *         fir_trail_start(state, &points[0].trail);
 *     }
 *
 *     static fir_said one_forward(const uint8_t *image, size_t image_length)
 *     {
 *         if (points[last].trail.steps == EACH && last + 1 < CHECKPOINTS) {
 *             points[last + 1].state = points[last].state;
 *             last++;
 *             fir_trail_start(&points[last].state, &points[last].trail);
 *         }
 *         return fir_trail_step(image, image_length, table, sizeof table, &points[last].state, &points[last].trail);
 *     }
 *
 *     static fir_entry one_back(const uint8_t *image, size_t image_length)
 *     {
 *         fir_entry back = fir_trail_back(image, image_length, table, sizeof table, &points[last].state, &points[last].trail);
 *         if (back.question == FIR_REFUSED_BACK && last > 0) {
 *             last--;
 *             back = fir_trail_back(image, image_length, table, sizeof table, &points[last].state, &points[last].trail);
 *         }
 *         return back;
 *     }
 */
fir_entry fir_trail_back(const uint8_t *image, size_t image_length, const uint8_t *table, size_t table_length, fir_state *state,
                         fir_trail *trail);

/* ---- Eight runs, one store of vectors ---- */

#define FIR_RUNS 8 /* the numbers of runs in a pool: 0 to 7 */

/* A box with eight stairwells runs eight states, which share the places for 64 vectors. The pool says how many of them each number
 * reserves, and how many its run has: vectors that count in its state while the run has not ended, else 0. The reserves are fixed when
 * the pool is made, and a number without a live run keeps its whole reserve as unused.
 *
 * A run always gets vectors up to its reserve. Above it, it gets one exactly when those in use, its own among them, plus other runs'
 * unused reserves are below 64; else the step stops with FIR_VECTORS, which does not count. So the run i may have the larger of
 * reserves[i] and 64 less the sum, over all other numbers j, of the larger of reserves[j] and has[j]; that is the same all through a
 * budget, since no other run moves meanwhile. Asked are VEC and DUP alone, whose operands are there, and the arguments of a start.
 * All eight together never have more than 64.
 *
 * A run under a number with the reserve 64 is the run without a pool: answers, steps, buffers and states. In company only when
 * FIR_VECTORS comes may differ: up to there a run gives the answers that it gives without a pool.
 *
 * What the caller owes: one pool, eight states and their images belong together. Each number goes on with the state, and under the
 * image, that the last start, step, budget or change under it gave, and nobody else writes the pool. A state that is stepped without
 * its pool leaves the pool behind, and nothing is promised then of how many vectors there are together. Every content of a pool has
 * an answer all the same.
 *
 * A pool may be stored with its states: its 16 bytes are the reserves, by number, and behind them what each run has. */
typedef struct fir_pool {
    uint8_t reserves[FIR_RUNS]; /* of 64 vectors, by number; together at most 64 */
    uint8_t has[FIR_RUNS];      /* how many the run of each number has */
} fir_pool;

/* What a single step in a pool says: FIR_STEPS to FIR_REFUSED. */
typedef struct fir_turn {
    int64_t value;
    uint16_t offset;
    uint8_t code;
    uint8_t length;
    uint8_t question;
} fir_turn;

/* Makes a pool with these reserves, in which no number has a run; or 21, where they sum above 64, and the pool is as it was.
 *
 * 21 is asked by each function of the pool, before all else and at 0: the reserves of the lent pool sum above FIR_PLACES, or the
 * number is above 7. Then nothing is written: pool, state and buffer are as they were. */
fir_entry fir_pool_make(const uint8_t reserves[FIR_RUNS], fir_pool *pool);

/* Begins a run under a number, as fir_begin does: 21, then 11, 19, 12 and 13. Where it is refused, state and pool are as they were, and
 * the run that had the number goes on. Else that run has ended, and its vectors count for nobody.
 *
 * A start whose arguments need more vectors than it may have is answered FIR_ACCEPTED too: its state has no live call and has ended,
 * and each step and each budget, of 0 steps too, answers FIR_VECTORS with 0 steps. */
fir_entry fir_pool_begin(const uint8_t *image, size_t image_length, const uint8_t *table, size_t table_length, size_t level,
                         size_t function, size_t version, const int64_t *words, size_t words_length, const int64_t *buffer,
                         size_t buffer_length, fir_state *state, fir_pool *pool, size_t number);

/* Takes a single step of the run of a number, as fir_step does, and writes down what the run has, whatever the step says: where the
 * pool and its states belong together, a stuck step and one of an ended run leave the pool as it was. Refused by 21, it writes
 * nothing. */
fir_turn fir_pool_step(const uint8_t *image, size_t image_length, const uint8_t *table, size_t table_length, fir_state *state,
                       fir_pool *pool, size_t number);

/* Takes at most `budget` steps of the run of a number, as fir_budget does, and writes down what the run has, with a budget of 0 too.
 * Refused by 21 or 13, it writes nothing.
 *
 * Example:
 *
 *     static uint8_t may_have(const fir_pool *pool, size_t number)
 *     {
 *         unsigned others = 0;
 *         size_t j;
 *         for (j = 0; j < FIR_RUNS; j++)
 *             if (j != number)
 *                 others += pool->reserves[j] > pool->has[j] ? pool->reserves[j] : pool->has[j];
 *         others = others < FIR_PLACES ? FIR_PLACES - others : 0;
 *         return (uint8_t)(others > pool->reserves[number] ? others : pool->reserves[number]);
 *     }
 *
 *     static size_t one_round(const uint8_t *image, size_t image_length, fir_state states[FIR_RUNS], fir_pool *pool, uint32_t slice)
 *     {
 *         static int64_t items[FIR_RUNS][FIR_ITEMS];
 *         size_t number, going = 0;
 *         for (number = 0; number < FIR_RUNS; number++) {
 *             fir_answer answer = fir_pool_budget(image, image_length, table, sizeof table, &states[number], pool, number, slice,
 *                                                 items[number], FIR_ITEMS);
 *             going += answer.code == FIR_STEPS;
 *         }
 *         return going;
 *     }
 */
fir_answer fir_pool_budget(const uint8_t *image, size_t image_length, const uint8_t *table, size_t table_length, fir_state *state,
                           fir_pool *pool, size_t number, uint32_t budget, int64_t *buffer, size_t buffer_length);

/* Begins a run under a number and takes at most `budget` steps: fir_pool_begin, and where that is not refused fir_pool_budget. */
fir_answer fir_pool_run(const uint8_t *image, size_t image_length, const uint8_t *table, size_t table_length, size_t level,
                        size_t function, size_t version, const int64_t *words, size_t words_length, uint32_t budget,
                        int64_t *buffer, size_t buffer_length, fir_state *state, fir_pool *pool, size_t number);

/* Whether the run of a number may go on under a new image: 21, then as fir_change. Nothing is written: the state is carried over
 * whole, and so what the run has stays. */
fir_entry fir_pool_change(const uint8_t *old_image, size_t old_length, const uint8_t *new_image, size_t new_length,
                          const fir_state *state, const fir_pool *pool, size_t number);

/* A step back of the run of a number: 21, else 20, at 0. A state in a pool has no start kept, and no step lies behind it. */
fir_entry fir_pool_back(const fir_pool *pool, size_t number);

/* ---- Looking at a state ---- */

#define FIR_NOTHING 0 /* an empty register or an unset name */
#define FIR_IS_INTEGER 1
#define FIR_IS_VECTOR 2
#define FIR_IS_PROMISE 3
#define FIR_OUTSIDE 4 /* no such place of a live call */

/* What a register or a name holds: an integer `number`, or the vector or promise at `place`; what it does not hold is 0. */
typedef struct fir_value {
    int64_t number;
    uint8_t kind;
    uint8_t place;
} fir_value;

/* What the place of a live call holds: registers are the places 0 to 15, names the places 16 to 23; calls are numbered from
 * the oldest, 0. */
fir_value fir_look(const fir_state *state, size_t call, size_t place);

/* ---- Watching a call ---- */

/* A register of the topmost call, for a service screen: the type that the image declares for it, and what it holds. */
typedef struct fir_row {
    int64_t integer;          /* FIR_IS_INTEGER: the integer */
    int64_t items[FIR_ITEMS]; /* FIR_IS_VECTOR: its items, from 0 on */
    uint8_t declared;         /* the type: its kind in the low four bits, above them 0 shared, 1 owned, 2 borrowed */
    uint8_t holds;            /* FIR_NOTHING to FIR_IS_PROMISE */
    uint8_t length;           /* FIR_IS_VECTOR: how many items it has */
    uint8_t mark;             /* FIR_IS_PROMISE: the mark of its block, 0 quiet, 1 reflective */
} fir_row;                    /* what a record does not tell is 0, items past the length too; the last four bytes are padding */

/* How many records were filled; or 0, and the question that refuses. */
typedef struct fir_watched {
    uint8_t filled;
    uint8_t question; /* FIR_ACCEPTED, or FIR_REFUSED_ROWS */
} fir_watched;

/* Fills a list with the registers of the topmost call, a record for each that its version declares, in order, from 0 on: 16 at
 * most. The topmost call is the newest, also while a block of an older one is forced. Records past the last register stay as they
 * were, and the state is not written. With no live call none is filled, and the whole list stays, an empty one too. After UNDEF,
 * DEEP, VECTORS and PROMISES the newest call is shown as the run left it. Where the list is too short, 22 at 0: then all of it stays.
 *
 * In a run that was begun and is lent its image, each record shows a value of the declared type, or nothing. It may be called
 * between any two budgets, from another thread too while nobody writes the state.
 *
 * Example:
 *
 *     static void show_call(FILE *to, const uint8_t *image, size_t image_length, const fir_state *state)
 *     {
 *         fir_row rows[FIR_REGISTERS];
 *         fir_watched watched = fir_watch(image, image_length, table, sizeof table, state, rows, FIR_REGISTERS);
 *         unsigned r, i;
 *         for (r = 0; r < watched.filled; r++) {
 *             fprintf(to, "r%u", r);
 *             if (rows[r].holds == FIR_IS_INTEGER)
 *                 fprintf(to, " %ld", (long)rows[r].integer);
 *             if (rows[r].holds == FIR_IS_PROMISE)
 *                 fprintf(to, " promise, %s", rows[r].mark ? "reflective" : "quiet");
 *             for (i = 0; i < rows[r].length; i++)
 *                 fprintf(to, " %ld", (long)rows[r].items[i]);
 *             fputc('\n', to);
 *         }
 *     }
 */
fir_watched fir_watch(const uint8_t *image, size_t image_length, const uint8_t *table, size_t table_length, const fir_state *state,
                      fir_row *rows, size_t rows_length);

/* ---- Where a run stands ---- */

/* What the search of a DISPATCH comes to: how many versions it looks at, and how many the function has. */
typedef struct fir_searched {
    uint8_t dispatch; /* 1 where the state stands at a DISPATCH; else 0, and the others are 0 */
    uint8_t looked;   /* the number of the first version that fits plus 1, or all of the function where none does; those
                       * that are passed over for their level are among them */
    uint8_t versions; /* how many versions the function has */
} fir_searched;

/* What the search of the DISPATCH comes to that the state stands at, ended or not: where its next step is one, where it was
 * UNDEF since no version fits, or stopped with DEEP. A run that is DONE stands nowhere. Nothing is written and no step is
 * taken. Where the state is none of a run under this image, `dispatch` is 0 for a DISPATCH with an argument that is not
 * there. */
fir_searched fir_search(const uint8_t *image, size_t image_length, const uint8_t *table, size_t table_length,
                        const fir_state *state);

#define FIR_NOWHERE 0        /* no call is live, or the state is none of a run under this image */
#define FIR_AT_INSTRUCTION 1 /* at an instruction, `offset` its record's */
#define FIR_AT_BLOCK_END 2   /* at the end of a block, `offset` that of its BLOCK record */

/* Where a state stands in its image. With FIR_NOWHERE all else is 0. */
typedef struct fir_position {
    size_t offset;
    uint8_t kind;
    uint8_t function;    /* of the call that is worked on */
    uint8_t version;
    uint8_t block;
    uint8_t instruction; /* its number in the block; at the end of the block how many the block has */
} fir_position;

/* Where the state stands, ended or not: at what its next step executes, and after UNDEF, DEEP, VECTORS or PROMISES at the
 * instruction or block end that made it. A run that is DONE stands nowhere. While a block of an older call is forced, that
 * call's version is named. Nothing is written and no step is taken.
 *
 * Example:
 *
 *     static void say_position(FILE *to, const uint8_t *image, size_t image_length, const fir_state *state)
 *     {
 *         fir_position at = fir_where(image, image_length, table, sizeof table, state);
 *         if (at.kind == FIR_NOWHERE) {
 *             fprintf(to, "nowhere\n");
 *             return;
 *         }
 *         fprintf(to, "%u.%u, block %u, ", (unsigned)at.function, (unsigned)at.version, (unsigned)at.block);
 *         if (at.kind == FIR_AT_INSTRUCTION)
 *             fprintf(to, "instruction %u", (unsigned)at.instruction);
 *         else
 *             fprintf(to, "its end");
 *         fprintf(to, ", at %lu\n", (unsigned long)at.offset);
 *     }
 */
fir_position fir_where(const uint8_t *image, size_t image_length, const uint8_t *table, size_t table_length,
                       const fir_state *state);

#ifdef __cplusplus
}
#endif

#endif
