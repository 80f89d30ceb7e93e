/*
 * A controller whose script is updated while it runs, and whose power may be cut at any time. After each tick it stores the
 * state of its run and the image that the run goes on under; what is stored is all that a power cut leaves, and the table of the
 * image is made again from it. A new image is
 * tried by fir_change until it is accepted: where a version with a live call differs, the run goes on under the old image,
 * and the new one is tried again after the next tick.
 *
 * The images are those of pump.fir and pump_later.fir.
 */
#include <stdio.h>
#include <string.h>

#include "fir.h"

#define BUDGET 4

/* The speed that three rooms ask of the pump: 0.0 asks each of them by 1.0, and adds up. */
static const uint8_t pump[] = {
    15, 0, 1, 0, 0, 0, 2, 5, 2, 1, 2, 3, 2, 2, 2, /* VERSION 0.0: r0 wanted, r1 the rooms */
    5, 0, 3, 0, 0,                                /* LEVEL, the portal */
    7, 0, 2, 0, 0, 4, 11,                         /* BLOCK, its result in r4 */
    13, 0, 36, 0, 2, 0, 0, 0, 0, 0, 0, 0, 0,      /* LIT r2 = 0 */
    7, 0, 22, 0, 3, 1, 2,                         /* GET r3 = r1[r2] */
    10, 0, 33, 0, 4, 1, 0, 2, 0, 3,               /* CALL r4 = 1.0(r0, r3) */
    13, 0, 36, 0, 2, 1, 0, 0, 0, 0, 0, 0, 0,      /* LIT r2 = 1 */
    7, 0, 22, 0, 3, 1, 2,                         /* GET r3 = r1[r2] */
    10, 0, 33, 0, 3, 1, 0, 2, 0, 3,               /* CALL r3 = 1.0(r0, r3) */
    8, 0, 24, 0, 4, 0, 4, 3,                      /* r4 = r4 + r3 */
    13, 0, 36, 0, 2, 2, 0, 0, 0, 0, 0, 0, 0,      /* LIT r2 = 2 */
    7, 0, 22, 0, 3, 1, 2,                         /* GET r3 = r1[r2] */
    10, 0, 33, 0, 3, 1, 0, 2, 0, 3,               /* CALL r3 = 1.0(r0, r3) */
    8, 0, 24, 0, 4, 0, 4, 3,                      /* r4 = r4 + r3 */
    12, 0, 1, 0, 1, 0, 2, 2, 2, 1, 2, 2,          /* VERSION 1.0: r0 wanted, r1 the room */
    5, 0, 3, 0, 0,                                /* LEVEL, the portal */
    7, 0, 2, 0, 0, 0, 1,                          /* BLOCK, its result in r0 */
    8, 0, 24, 0, 0, 1, 0, 1,                      /* r0 = r0 - r1 */
};

/* The same with another 1.0, of 66 bytes in place of 32: a room that is too warm asks for nothing. */
static const uint8_t later[] = {
    15, 0, 1, 0, 0, 0, 2, 5, 2, 1, 2, 3, 2, 2, 2, /* VERSION 0.0, as before */
    5, 0, 3, 0, 0,                                /* */
    7, 0, 2, 0, 0, 4, 11,                         /* */
    13, 0, 36, 0, 2, 0, 0, 0, 0, 0, 0, 0, 0,      /* */
    7, 0, 22, 0, 3, 1, 2,                         /* */
    10, 0, 33, 0, 4, 1, 0, 2, 0, 3,               /* */
    13, 0, 36, 0, 2, 1, 0, 0, 0, 0, 0, 0, 0,      /* */
    7, 0, 22, 0, 3, 1, 2,                         /* */
    10, 0, 33, 0, 3, 1, 0, 2, 0, 3,               /* */
    8, 0, 24, 0, 4, 0, 4, 3,                      /* */
    13, 0, 36, 0, 2, 2, 0, 0, 0, 0, 0, 0, 0,      /* */
    7, 0, 22, 0, 3, 1, 2,                         /* */
    10, 0, 33, 0, 3, 1, 0, 2, 0, 3,               /* */
    8, 0, 24, 0, 4, 0, 4, 3,                      /* */
    13, 0, 1, 0, 1, 0, 2, 3, 2, 1, 2, 2, 2,       /* VERSION 1.0: r0 wanted, r1 the room */
    5, 0, 3, 0, 0,                                /* LEVEL, the portal */
    7, 0, 2, 0, 0, 0, 5,                          /* BLOCK, its result in r0 */
    8, 0, 24, 0, 0, 1, 0, 1,                      /* r0 = r0 - r1 */
    13, 0, 36, 0, 2, 0, 0, 0, 0, 0, 0, 0, 0,      /* LIT r2 = 0 */
    8, 0, 24, 0, 1, 4, 0, 2,                      /* r1 = r0 < r2 */
    6, 0, 35, 0, 1, 1,                            /* SKIP 1 unless r1 */
    6, 0, 17, 0, 0, 2,                            /* MOVE r0 = r2 */
};

/* What the controller works with: the number of the layout of states, the state of its run, and the image in force. */
static struct {
    uint32_t layout;
    fir_state state;
    size_t length;
    uint8_t image[FIR_IMAGE_BYTES];
} memory;

/* The table of the image in force. It is not stored. */
static uint8_t table[FIR_TABLE_BYTES(FIR_IMAGE_BYTES)];

/* What a power cut leaves. One copy will do here; a plant keeps two and writes them in turn, since a cut may come while it
 * writes. */
static FILE *stored;

static int store(void)
{
    memory.layout = FIR_STATE_LAYOUT;
    rewind(stored);
    return fwrite(&memory, sizeof memory, 1, stored) == 1 && fflush(stored) == 0;
}

/* Loads the image in force. */
static int load(void)
{
    return fir_load(memory.image, memory.length, table, sizeof table).code == FIR_LOADED;
}

static int restore(void)
{
    rewind(stored);
    return fread(&memory, sizeof memory, 1, stored) == 1 && memory.layout == FIR_STATE_LAYOUT && load();
}

static void lose_power(void)
{
    memset(&memory, 0xa5, sizeof memory);
    memset(table, 0xa5, sizeof table);
}

/* Puts an image in force. */
static int put(const uint8_t *image, size_t length)
{
    memcpy(memory.image, image, length);
    memory.length = length;
    return load();
}

/* Goes on under a new image where it is accepted: its bytes and its table take the place of the old ones, the state stays as it
 * is. */
static int update(const uint8_t *image, size_t length)
{
    const fir_entry entry = fir_change(memory.image, memory.length, image, length, &memory.state);
    if (entry.question == FIR_REFUSED_CHANGE) {
        printf("  update refused, a version at work differs at %u: tried again\n", (unsigned)entry.offset);
    } else if (entry.question != FIR_ACCEPTED) {
        printf("  update refused by question %u at %u\n", (unsigned)entry.question, (unsigned)entry.offset);
    } else {
        printf("  update accepted\n");
        return put(image, length);
    }
    return 0;
}

/* One tick under the image in force. */
static fir_answer tick(int number)
{
    int64_t buffer[FIR_ITEMS];
    const fir_answer answer =
        fir_budget(memory.image, memory.length, table, sizeof table, &memory.state, BUDGET, buffer, FIR_ITEMS);
    printf("tick %d, %lu steps", number, (unsigned long)answer.steps);
    return answer;
}

/* A power cut in the middle of a tick: what it did is lost, and the run goes on from what was stored before it. */
static int cut(int number)
{
    tick(number);
    printf(", and the power is cut\n");
    lose_power();
    return restore();
}

static int control(void)
{
    const int64_t words[] = {-1, 210, 3, 200, 195, 225};
    int64_t buffer[FIR_ITEMS];
    int number;
    fir_answer answer;
    fir_entry entry;
    if (!put(pump, sizeof pump))
        return 1;
    entry = fir_begin(memory.image, memory.length, table, sizeof table, FIR_PORTAL, 0, 0, words, sizeof words / sizeof *words,
                      buffer, FIR_ITEMS, &memory.state);
    if (entry.question != FIR_ACCEPTED || !store())
        return 1;
    for (number = 0; number < 10; number++) {
        if ((number == 1 || number == 3) && !cut(number))
            return 1;
        answer = tick(number);
        if (answer.code == FIR_INTEGER) {
            printf(": the speed is %lld\n", (long long)answer.value);
            /* No call is live any more, so any accepted image goes. */
            return !update(pump, sizeof pump);
        }
        if (answer.code != FIR_STEPS)
            return 1;
        printf("\n");
        /* At first the update has arrived but for its last byte. Whether it is in force, the stored image says. */
        if (memory.length != sizeof later)
            update(later, number == 0 ? sizeof later - 1 : sizeof later);
        if (!store())
            return 1;
    }
    return 1;
}

int main(void)
{
    int status;
    stored = tmpfile();
    if (stored == NULL) {
        perror("a file to store to");
        return 2;
    }
    status = control();
    fclose(stored);
    return status;
}
