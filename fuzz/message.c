/*
 * The fuzz target of tweedstork_next_host. Lines of an input:
 *   1   the code of the MX lookup
 *   2   changes to the slices (decode.h): a the preferences, b the verdicts
 *   3   the hosts, each PREFERENCE:VERDICT, or PREFERENCE:VERDICT*N for N of them, with spaces between
 */
#include "target.h"

enum { PREFERENCES, VERDICTS, SLICES };
static const char *const slices[] = {"preferences", "verdicts", NULL};
static const char *const numbers[] = {"mx_lookup", NULL};
static const char *const outputs[] = {NULL};
static const char *const fields[] = {"number", "position", NULL};
static const uint8_t answers[] = {1, 2, 3, 4, 5, 8, 30, 31, 63, 67, 0};

static void put_host(struct text host, struct call *call)
{
    enum { MOST_TIMES = 40 }; /* a little over the limit of 32 */
    uint64_t preference = take_number(&host);
    take_byte(&host);
    uint64_t verdict = take_number(&host), times = 1;
    if (take_byte(&host) == '*')
        times = take_number(&host);
    for (uint64_t i = 0; i < times && i < MOST_TIMES; i++) {
        put_number(&call->slices[PREFERENCES], preference);
        put_number(&call->slices[VERDICTS], verdict);
    }
}

static void decode(struct text input, struct call *call)
{
    struct text code = take(&input, '\n'), edits = take(&input, '\n'), hosts = take(&input, '\n');
    call->numbers[0] = code_of(take_byte(&code));
    while (hosts.left > 0)
        put_host(take(&hosts, ' '), call);
    edit(edits, call->slices, SLICES);
}

static void ask(int independent, const struct call *call, uint64_t *answer)
{
    __typeof__(tweedstork_next_host) *next_host = independent ? independent_next_host : tweedstork_next_host;
    struct tweedstork_message_answer a = next_host(call->numbers[0], LENT(call, PREFERENCES), LENT(call, VERDICTS));
    answer[0] = a.number;
    answer[1] = a.position;
}

const struct target target = {"message", answers, numbers, slices, fields, outputs, NULL, decode, NULL, ask};
