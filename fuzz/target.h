/*
 * What a fuzz target is: a call of the library, how an input becomes its arguments, and how it is asked. An input may also be
 * a history of calls, each on the memory that the last one left.
 * driver.c holds each answer of the library against the independent implementation's; txt.c, policy.c, host.c, message.c,
 * cache.c, publish.c and certificate.c each define `target`.
 */
#ifndef TARGET_H
#define TARGET_H

#include "decode.h"
#include "independent.h"

enum { MOST_SLICES = 17, MOST_NUMBERS = 16, MOST_FIELDS = 10 };

/* The arguments: the numbers and the slices, each in the order of the header. */
struct call {
    uint64_t numbers[MOST_NUMBERS];
    struct bytes slices[MOST_SLICES];
};

struct target {
    const char *name;
    const uint8_t *answers;             /* every answer number that the call has, ended by 0 */
    const char *const *numbers;         /* the arguments' names, ended by NULL */
    const char *const *slices;
    const char *const *fields;          /* the names of the answer's fields, ended by NULL */
    const char *const *outputs;         /* the slices that the call may write, ended by NULL */
    const char *aligned;                /* the slice that has to be aligned to 8, or NULL */
    void (*decode)(struct text input, struct call *call);
    int (*next)(struct call *call);     /* the next call of a history, 0 at its end; NULL where an input is one call */
    void (*ask)(int independent, const struct call *call, uint64_t *fields);
};

extern const struct target target;

/* A slice as the two arguments that it is passed as. */
#define LENT(call, i) (call)->slices[i].at, (call)->slices[i].length

#endif
