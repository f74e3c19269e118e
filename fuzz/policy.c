/* The fuzz target of tweedstork_read_policy. An input is the policy's body, but for what decode.h says of $. */
#include "target.h"

static const char *const slices[] = {"body", NULL};
static const char *const outputs[] = {NULL};
static const char *const numbers[] = {NULL};
static const char *const fields[] = {"number", "mode", "lifetime", "mx_count", "line", "offset", NULL};
static const uint8_t answers[] = {7, 50, 52, 53, 54, 55, 56, 57, 0};

static void decode(struct text input, struct call *call)
{
    expand(input, &call->slices[0], 0, NULL);
}

static void ask(int independent, const struct call *call, uint64_t *answer)
{
    __typeof__(tweedstork_read_policy) *read_policy = independent ? independent_read_policy : tweedstork_read_policy;
    struct tweedstork_policy_answer a = read_policy(LENT(call, 0));
    answer[0] = a.number;
    answer[1] = a.mode;
    answer[2] = a.lifetime;
    answer[3] = a.mx_count;
    answer[4] = a.line;
    answer[5] = a.offset;
}

const struct target target = {"policy", answers, numbers, slices, fields, outputs, NULL, decode, NULL, ask};
