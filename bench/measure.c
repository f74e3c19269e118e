#define _POSIX_C_SOURCE 200809L
#include "measure.h"

#include <pthread.h>
#include <stdio.h>
#include <stdlib.h>
#include <string.h>
#include <time.h>

/* A turn has to be long against the clock's steps and what the machine does beside. */
static const double turn_seconds = 0.010;
enum { TURNS = 7 };

/* The answers flow into it, so that no call can be left out. */
static volatile uint64_t sink;

static double now(void)
{
    struct timespec t;

    clock_gettime(CLOCK_MONOTONIC, &t);
    return (double)t.tv_sec + 1e-9 * (double)t.tv_nsec;
}

static void stop_unless(int holds, const char *what)
{
    if (!holds) {
        fprintf(stderr, "bench: %s\n", what);
        exit(1);
    }
}

/* ---- times ---- */

/* So many rounds of an input's calls, on one thread. */
struct turn {
    const struct implementation *implementation;
    const struct input *input;
    size_t rounds;
    pthread_barrier_t *barrier; /* what the threads of a turn start at */
    double start, end;
    uint64_t sum;
};

static void run(struct turn *turn)
{
    uint64_t sum = 0;

    turn->start = now();
    for (size_t i = 0; i < turn->rounds; i++)
        sum += make_calls(turn->implementation, turn->input);
    turn->end = now();
    turn->sum = sum;
}

static double seconds_alone(const struct implementation *implementation, const struct input *input, size_t rounds)
{
    struct turn turn = {implementation, input, rounds, NULL, 0, 0, 0};

    run(&turn);
    sink = turn.sum;
    return turn.end - turn.start;
}

static void *run_at_barrier(void *argument)
{
    struct turn *turn = argument;

    pthread_barrier_wait(turn->barrier);
    run(turn);
    return NULL;
}

/* The same turn of the library on every thread: the time from the first start to the last end. */
static double seconds_together(struct inputs *const inputs[THREADS], size_t i, size_t rounds)
{
    pthread_t ids[THREADS];
    struct turn turns[THREADS];
    pthread_barrier_t barrier;
    double start = 0, end = 0;

    stop_unless(pthread_barrier_init(&barrier, NULL, THREADS) == 0, "cannot make a barrier");
    for (size_t k = 0; k < THREADS; k++) {
        turns[k] = (struct turn){&implementations[LIBRARY], &inputs[k]->at[i], rounds, &barrier, 0, 0, 0};
        stop_unless(pthread_create(&ids[k], NULL, run_at_barrier, &turns[k]) == 0, "cannot start a thread");
    }
    for (size_t k = 0; k < THREADS; k++) {
        stop_unless(pthread_join(ids[k], NULL) == 0, "cannot wait for a thread");
        start = k == 0 || turns[k].start < start ? turns[k].start : start;
        end = k == 0 || turns[k].end > end ? turns[k].end : end;
        sink = turns[k].sum;
    }
    pthread_barrier_destroy(&barrier);
    return end - start;
}

/* How many rounds make a turn? */
static size_t rounds_for(const struct implementation *implementation, const struct input *input)
{
    size_t rounds = 1;

    while (seconds_alone(implementation, input, rounds) < turn_seconds)
        rounds *= 2;
    return rounds;
}

/* Zero: nothing is kept yet. */
static void keep_least(double *least, double seconds, size_t rounds)
{
    double one = 1e9 * seconds / (double)rounds;

    if (*least == 0 || one < *least)
        *least = one;
}

void measure_times(struct inputs *const inputs[THREADS], size_t i, struct times *times)
{
    const struct input *input = &inputs[0]->at[i];
    size_t rounds[IMPLEMENTATIONS];

    *times = (struct times){{0}, 0};
    for (size_t k = 0; k < IMPLEMENTATIONS; k++)
        rounds[k] = rounds_for(&implementations[k], input);
    for (size_t turn = 0; turn < TURNS; turn++) {
        for (size_t k = 0; k < IMPLEMENTATIONS; k++)
            keep_least(&times->alone[k], seconds_alone(&implementations[k], input, rounds[k]), rounds[k]);
        if (input->table == DECISIONS)
            keep_least(&times->together, seconds_together(inputs, i, rounds[LIBRARY]), rounds[LIBRARY]);
    }
}

/* ---- stack ---- */

enum { STACK = 256 * 1024, PAINT = 0xa5 };

struct stack_turn {
    const struct input *input;
    const uint8_t *stack;
    size_t touched;
};

/* The lowest byte of the stack that is no longer as painted. */
static const uint8_t *lowest_touched(const uint8_t *stack)
{
    while (*stack == PAINT)
        stack++;
    return stack;
}

static void *touch_stack(void *argument)
{
    struct stack_turn *turn = argument;
    const uint8_t *frame = __builtin_frame_address(0);

    sink = make_calls(&implementations[LIBRARY], turn->input);
    turn->touched = (size_t)(frame - lowest_touched(turn->stack));
    return NULL;
}

size_t measure_stack(const struct input *input)
{
    void *stack = NULL;
    pthread_attr_t attributes;
    pthread_t thread;

    stop_unless(posix_memalign(&stack, 4096, STACK) == 0, "no memory for a stack");
    memset(stack, PAINT, STACK);
    struct stack_turn turn = {input, stack, 0};
    stop_unless(pthread_attr_init(&attributes) == 0 && pthread_attr_setstack(&attributes, stack, STACK) == 0
                && pthread_create(&thread, &attributes, touch_stack, &turn) == 0 && pthread_join(thread, NULL) == 0, "cannot run a thread on a stack of its own");
    pthread_attr_destroy(&attributes);
    free(stack);
    return turn.touched;
}
