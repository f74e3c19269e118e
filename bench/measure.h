/* Times and stack. */
#ifndef MEASURE_H
#define MEASURE_H

#include "calls.h"

enum { THREADS = 2 };

/* Nanoseconds for the calls of an input: the least of several turns, which are taken in rotation. */
struct times {
    double alone[IMPLEMENTATIONS]; /* on one thread */
    double together;               /* of a decision of the library, until each of THREADS threads has made it; else zero */
};

/* Measures an input; each thread has inputs of its own. */
void measure_times(struct inputs *const inputs[THREADS], size_t i, struct times *times);

/* Bytes of stack that the library's calls on an input touch, with the arguments passed on it; more only where starting a thread takes more. */
size_t measure_stack(const struct input *input);

#endif
