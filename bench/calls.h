/* The three implementations that are measured, and calling them. */
#ifndef CALLS_H
#define CALLS_H

#include "inputs.h"
#include "tweedstork.h"

struct implementation {
    const char *name;
    __typeof__(tweedstork_read_txt) *read_txt;
    __typeof__(tweedstork_read_policy) *read_policy;
    __typeof__(tweedstork_cache_store) *cache_store;
    __typeof__(tweedstork_cache_lookup) *cache_lookup;
    __typeof__(tweedstork_judge_host) *judge_host;
    __typeof__(tweedstork_read_certificate) *read_certificate;
    __typeof__(tweedstork_judge_host_certificate) *judge_host_certificate;
    __typeof__(tweedstork_next_host) *next_host;
    __typeof__(tweedstork_write_txt) *write_txt;
    __typeof__(tweedstork_write_policy) *write_policy;
    __typeof__(tweedstork_rewrite_policy) *rewrite_policy;
};

enum { LIBRARY, PLAIN_C, RUST, IMPLEMENTATIONS };

extern const struct implementation implementations[IMPLEMENTATIONS];

/* Makes the call, or that step of a decision's calls. Before a store it puts back what such a store writes. */
struct answer make_call(const struct implementation *implementation, const struct input *input, size_t step);

/* Makes all calls of the input; the sum of the answer numbers. */
uint64_t make_calls(const struct implementation *implementation, const struct input *input);

/* Does every implementation answer as expected on every input? Says where the first doesn't. */
int check_answers(const struct inputs *inputs);

#endif
