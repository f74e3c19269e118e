/*
 * Counts instructions. It runs under valgrind's callgrind, which counts inside the calls alone (bench/run tells it so), and
 * has it write a file for each input and implementation, marked with their numbers.
 */
#include <stdio.h>
#include <valgrind/callgrind.h>

#include "calls.h"

static uint64_t count(size_t i, const struct input *input, size_t k)
{
    char mark[64];
    uint64_t sum;

    snprintf(mark, sizeof mark, "input %zu implementation %zu", i, k);
    CALLGRIND_ZERO_STATS;
    sum = make_calls(&implementations[k], input);
    CALLGRIND_DUMP_STATS_AT(mark);
    return sum;
}

int main(void)
{
    const struct inputs *inputs = build_inputs();
    uint64_t sum = 0;

    /* The check calls everything once, so that no symbol is resolved for the first time while it is counted. */
    if (!check_answers(inputs))
        return 1;
    for (size_t i = 0; i < inputs->count; i++)
        for (size_t k = 0; k < IMPLEMENTATIONS; k++)
            sum += count(i, &inputs->at[i], k);
    return sum == 0;
}
