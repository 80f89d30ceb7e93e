/*
 * Two boxes with one script and one trace of measurements, with an update in between. Main controls; after each tick it sends the
 * standby a copy of all that a box needs to go on, and stores one too. Three things go wrong:
 *
 *   1. Main fails in the middle of a tick. The standby goes on from the last copy, with the positions that main would have given.
 *   2. The power fails while a copy is stored. There are two slots, written in turn, so that the one before is whole.
 *   3. Somebody puts another image into the store. A state does not show which image it belongs to, and would go on under any; the
 *      copy has a checksum over layout, state and image, so that it is noticed, and the box starts anew.
 */
#include <stdio.h>
#include <string.h>

#include "fir.h"

#define TICKS 16
#define BUDGET 15
#define UPDATE 4 /* the tick after which a new image has arrived */
#define FAILS 7  /* the tick that main fails in */
#define CUT 11   /* the tick after which the power fails */
#define SLOTS 2

/* Function 0: a quarter of what is wanted less what is measured is added to each of three positions, and function 1 keeps the sum
 * within 0 and a limit. */
#define IMAGE(limit)                                                      \
    {                                                                     \
        21, 0, 1, 0, 0, 0, 3, 11, 3, 1, 2, 2, 3, 2, 2, 2, 2, 2, 2, 2, 3, \
        5, 0, 3, 0, 0,                                                    \
        7, 0, 2, 0, 0, 10, 16,                                            \
        13, 0, 36, 0, 4, 4, 0, 0, 0, 0, 0, 0, 0,                          \
        8, 0, 24, 0, 3, 1, 0, 1,                                          \
        8, 0, 24, 0, 5, 3, 3, 4,                                          \
        13, 0, 36, 0, 6, 0, 0, 0, 0, 0, 0, 0, 0,                          \
        7, 0, 22, 0, 7, 2, 6,                                             \
        8, 0, 24, 0, 7, 0, 7, 5,                                          \
        9, 0, 33, 0, 7, 1, 0, 1, 7,                                       \
        13, 0, 36, 0, 6, 1, 0, 0, 0, 0, 0, 0, 0,                          \
        7, 0, 22, 0, 8, 2, 6,                                             \
        8, 0, 24, 0, 8, 0, 8, 5,                                          \
        9, 0, 33, 0, 8, 1, 0, 1, 8,                                       \
        13, 0, 36, 0, 6, 2, 0, 0, 0, 0, 0, 0, 0,                          \
        7, 0, 22, 0, 9, 2, 6,                                             \
        8, 0, 24, 0, 9, 0, 9, 5,                                          \
        9, 0, 33, 0, 9, 1, 0, 1, 9,                                       \
        9, 0, 20, 0, 10, 3, 7, 8, 9,                                      \
        17, 0, 1, 0, 1, 0, 1, 7, 2, 1, 2, 2, 2, 2, 2, 2, 2,               \
        5, 0, 3, 0, 0,                                                    \
        7, 0, 2, 0, 0, 6, 6,                                              \
        13, 0, 36, 0, 1, limit, 0, 0, 0, 0, 0, 0, 0,                      \
        8, 0, 24, 0, 2, 4, 1, 0,                                          \
        8, 0, 25, 0, 3, 2, 1, 0,                                          \
        13, 0, 36, 0, 4, 0, 0, 0, 0, 0, 0, 0, 0,                          \
        8, 0, 24, 0, 5, 4, 3, 4,                                          \
        8, 0, 25, 0, 6, 5, 4, 3,                                          \
    }
static const uint8_t script[] = IMAGE(100);
static const uint8_t later[] = IMAGE(20);

/* What is measured in each tick. */
static const int64_t measured[TICKS] = {180, 181, 183, 186, 188, 190, 193, 196, 198, 201, 204, 207, 209, 212, 214, 216};

/* A box: all that it needs to go on. It is cleared before its first use, so that its bytes can be summed and compared; those of the
 * state can be without that. */
typedef struct box {
    uint32_t layout; /* of the state */
    uint32_t tick;   /* the next one */
    int64_t running; /* 1 where a run goes on */
    int64_t valves[FIR_ITEMS];
    fir_state state;
    uint64_t length; /* of the image in force */
    uint8_t image[FIR_IMAGE_BYTES];
} box;

/* A copy of a box, as it is sent or stored: its number, and a sum over all before it. The table of the image is not in it. */
typedef struct copy {
    uint64_t number;
    box box;
    uint64_t sum;
} copy;

/* A box at work, and the table of its image, which it makes itself. */
typedef struct unit {
    box box;
    uint8_t table[FIR_TABLE_BYTES(FIR_IMAGE_BYTES)];
} unit;

static unit alone, first, second;
static copy sent, slots[SLOTS];
static uint64_t stored; /* how many copies were */
static int64_t wanted[TICKS][FIR_ITEMS]; /* the positions of a box that nothing happens to */

/* The sum FNV-1a, which finds damage but no forgery. */
static uint64_t sum_of(const copy *copy)
{
    const uint8_t *bytes = (const uint8_t *)copy;
    uint64_t sum = 14695981039346656037u;
    size_t i;
    for (i = 0; i < offsetof(struct copy, sum); i++)
        sum = (sum ^ bytes[i]) * 1099511628211u;
    return sum;
}

static void seal(copy *to, const box *from, uint64_t number)
{
    to->number = number;
    memcpy(&to->box, from, sizeof *from);
    to->sum = sum_of(to);
}

/* Whether a copy is as it was sealed, by a library with this layout of a state. */
static int is_whole(const copy *copy)
{
    return copy->sum == sum_of(copy) && copy->box.layout == FIR_STATE_LAYOUT;
}

/* Stores a copy over the older of the two, or only its first bytes where the power fails. */
static void store(const box *from, size_t bytes)
{
    static copy next;
    seal(&next, from, ++stored);
    memcpy(&slots[stored % SLOTS], &next, bytes);
}

/* Loads the image of a unit. */
static int load(unit *unit)
{
    return fir_load(unit->box.image, (size_t)unit->box.length, unit->table, sizeof unit->table).code == FIR_LOADED;
}

/* Goes on from a copy. */
static int take_over(unit *to, const copy *from)
{
    memcpy(&to->box, &from->box, sizeof to->box);
    return load(to);
}

/* Brings back the newest copy that is whole; 0 where there is none. */
static int restore(unit *to)
{
    const copy *newest = NULL;
    int i;
    for (i = 0; i < SLOTS; i++)
        if (is_whole(&slots[i]) && (newest == NULL || slots[i].number > newest->number))
            newest = &slots[i];
    if (newest == NULL)
        return 0;
    stored = newest->number;
    return take_over(to, newest);
}

static void put(box *box, const uint8_t *image, size_t length)
{
    memcpy(box->image, image, length);
    box->length = length;
}

static int start(unit *unit)
{
    memset(&unit->box, 0, sizeof unit->box);
    unit->box.layout = FIR_STATE_LAYOUT;
    put(&unit->box, script, sizeof script);
    return load(unit);
}

/* Begins the run of a new set of positions where none goes on; 0 where it is refused. */
static int begin(unit *unit)
{
    box *const box = &unit->box;
    const int64_t *valves = box->valves;
    const int64_t words[] = {-1, 215, -1, measured[box->tick], 3, valves[0], valves[1], valves[2]};
    fir_entry entry;
    if (box->running)
        return 1;
    entry = fir_begin(box->image, (size_t)box->length, unit->table, sizeof unit->table, FIR_PORTAL, 0, 0, words,
                      sizeof words / sizeof *words, valves, FIR_ITEMS, &box->state);
    box->running = entry.question == FIR_ACCEPTED;
    return entry.question == FIR_ACCEPTED;
}

/* Takes so many steps at most. */
static fir_answer spend(unit *unit, uint32_t budget)
{
    box *const box = &unit->box;
    return fir_budget(box->image, (size_t)box->length, unit->table, sizeof unit->table, &box->state, budget, box->valves, FIR_ITEMS);
}

/* One tick of a box, with the update once it has arrived; 0 where the script failed. */
static int tick(unit *unit)
{
    box *const box = &unit->box;
    fir_answer answer;
    if (!begin(unit))
        return 0;
    answer = spend(unit, BUDGET);
    if (answer.code != FIR_STEPS && answer.code != FIR_VECTOR)
        return 0;
    box->running = answer.code == FIR_STEPS;
    box->tick++;
    if (box->tick > UPDATE && memcmp(box->image, later, sizeof later) != 0 &&
        fir_change(box->image, (size_t)box->length, later, sizeof later, &box->state).question == FIR_ACCEPTED) {
        put(box, later, sizeof later);
        return load(unit);
    }
    return 1;
}

/* Ticks of a box up to a tick, each shown, sent and stored; 0 where the script failed, or a position is not the one wanted. */
static int control(const char *who, unit *unit, uint32_t until)
{
    box *const box = &unit->box;
    const int64_t *valves = box->valves;
    while (box->tick < until) {
        if (!tick(unit) || memcmp(wanted[box->tick - 1], valves, sizeof box->valves) != 0)
            return 0;
        printf("%-7s tick %2lu: %3lld %3lld %3lld%s\n", who, (unsigned long)box->tick - 1, (long long)valves[0],
               (long long)valves[1], (long long)valves[2], memcmp(box->image, later, sizeof later) ? "" : ", updated");
        seal(&sent, box, box->tick);
        store(box, sizeof(copy));
    }
    return 1;
}

/* 1. Main fails after half a tick, and nothing of it is left but what it sent. */
static int hand_over(void)
{
    if (!start(&first) || !control("main", &first, FAILS) || !begin(&first))
        return 0;
    spend(&first, BUDGET / 2);
    memset(&first, 0xa5, sizeof first);
    printf("main fails in tick %d\n", FAILS);
    return is_whole(&sent) && take_over(&second, &sent) && control("standby", &second, CUT);
}

/* 2. The power fails after the next tick, in the middle of a copy. */
static int power_cut(void)
{
    if (!tick(&second))
        return 0;
    store(&second.box, sizeof(copy) / 2);
    memset(&second, 0xa5, sizeof second);
    printf("the power fails after tick %d\n", CUT);
    return restore(&second) && control("standby", &second, TICKS);
}

/* 3. Another image in the store: an accepted one, of the same length. */
static int wrong_image(void)
{
    int i;
    for (i = 0; i < SLOTS; i++)
        put(&slots[i].box, script, sizeof script);
    return !restore(&second);
}

int main(void)
{
    int i;
    if (!start(&alone))
        return 1;
    for (i = 0; i < TICKS; i++) {
        if (!tick(&alone))
            return 1;
        memcpy(wanted[i], alone.box.valves, sizeof alone.box.valves);
    }
    if (!hand_over() || !power_cut())
        return 1;
    printf("the positions of a box alone, and %s state\n", memcmp(&alone.box, &second.box, sizeof alone.box) == 0 ? "its" : "another");
    if (!wrong_image())
        return 1;
    printf("another image in the store is noticed\n");
    return !start(&second) || !control("anew", &second, 3);
}
