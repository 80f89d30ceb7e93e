/* Calls from several threads at once, which share an image with its table and have a state each: every run answers as one alone does. */
#define _POSIX_C_SOURCE 200112L
#include <pthread.h>
#include <stdio.h>

#include "images.h"

enum { THREADS = 4, ROUNDS = 300, STEPS = 700 };

static image shared;
static fir_answer alone;
static fir_state last; /* of the run alone */
static const int64_t words[] = {-1, 40};

typedef struct worker {
    pthread_t thread;
    fir_state state;
    int64_t buffer[FIR_ITEMS];
    unsigned different;
} worker;

/* A run from its start, half of its steps one by one. */
static fir_answer run(fir_state *state, int64_t *buffer)
{
    unsigned step;
    fir_begin(LENT(shared), FIR_PORTAL, 0, 0, words, 2, buffer, FIR_ITEMS, state);
    for (step = 0; step < STEPS; step++)
        fir_step(LENT(shared), state);
    return fir_budget(LENT(shared), state, STEPS, buffer, FIR_ITEMS);
}

static int differs(const worker *own, fir_answer answer)
{
    fir_position at = fir_where(LENT(shared), &own->state);
    fir_position wanted = fir_where(LENT(shared), &last);
    return answer.code != alone.code || answer.steps != alone.steps || at.offset != wanted.offset
        || memcmp(&own->state, &last, sizeof last) != 0;
}

static void *work(void *argument)
{
    worker *own = argument;
    unsigned round;
    for (round = 0; round < ROUNDS; round++)
        own->different += (unsigned)differs(own, run(&own->state, own->buffer));
    return NULL;
}

int main(void)
{
    static worker workers[THREADS];
    static int64_t buffer[FIR_ITEMS];
    unsigned i, different = 0;
    countdown(&shared, 40);
    if (load(&shared) != FIR_LOADED)
        return 2;
    alone = run(&last, buffer);
    for (i = 0; i < THREADS; i++)
        if (pthread_create(&workers[i].thread, NULL, work, &workers[i]) != 0)
            return 2;
    for (i = 0; i < THREADS; i++) {
        pthread_join(workers[i].thread, NULL);
        different += workers[i].different;
    }
    if (alone.code != FIR_DEEP || different != 0) {
        printf("threads: the run ends with %u, and %u runs differ from it\n", alone.code, different);
        return 1;
    }
    printf("threads: %u passed\n", (unsigned)THREADS * ROUNDS);
    return 0;
}
