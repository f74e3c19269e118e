/*
 * The fuzz target of tweedstork_write_txt, tweedstork_write_policy and tweedstork_rewrite_policy. Lines of an input:
 *   1     the call: t a TXT text, p a policy, r a policy written anew; then the size of the output: +N or -N from what is to be
 *         written (0 where that is refused), or N
 *   2     changes to the slices (decode.h): a the id, b the patterns, c their lengths, d the body
 *   3     t: the id. p: the mode, a code, a space, and the lifetime
 *   3..   r: the body
 *   4..   p: a pattern each
 */
#include "target.h"

enum { ID, PATTERNS, LENGTHS, BODY, OUTPUT };
static const char *const slices[] = {"id", "patterns", "pattern_lengths", "body", "output", NULL};
static const char *const outputs[] = {"output", NULL};
enum { CALL, MODE, LIFETIME };
static const char *const numbers[] = {"call (1 TXT text, 2 policy, 3 policy written anew)", "mode", "lifetime", NULL};
enum { TXT = 1, POLICY, REWRITE };
static const char *const fields[] = {"number", "length", NULL};
static const uint8_t answers[] = {15, 50, 52, 53, 54, 55, 56, 57, 67, 80, 81, 82, 83, 0};

/* One pattern. Answers how often it is meant. */
static size_t put_pattern(struct text line, struct call *call)
{
    struct bytes *patterns = &call->slices[PATTERNS];
    size_t start = patterns->length, times = expand(line, patterns, start, NULL);
    put_number(&call->slices[LENGTHS], patterns->length - start);
    return times;
}

static void put_arguments(struct text input, struct call *call)
{
    if (call->numbers[CALL] == REWRITE) {
        expand(input, &call->slices[BODY], 0, NULL);
        return;
    }
    struct text line = take(&input, '\n');
    if (call->numbers[CALL] == TXT) {
        expand(line, &call->slices[ID], 0, NULL);
        return;
    }
    call->numbers[MODE] = code_of(take_byte(&line));
    take_byte(&line);
    call->numbers[LIFETIME] = take_number(&line);
    while (input.left > 0) {
        line = take(&input, '\n');
        size_t times = put_pattern(line, call);
        for (size_t i = 1; i < times; i++)
            put_pattern(line, call);
    }
}

static void ask(int independent, const struct call *call, uint64_t *answer)
{
    __typeof__(tweedstork_write_txt) *write_txt = independent ? independent_write_txt : tweedstork_write_txt;
    __typeof__(tweedstork_write_policy) *write_policy = independent ? independent_write_policy : tweedstork_write_policy;
    __typeof__(tweedstork_rewrite_policy) *rewrite = independent ? independent_rewrite_policy : tweedstork_rewrite_policy;
    struct tweedstork_write_answer a;
    if (call->numbers[CALL] == TXT)
        a = write_txt(LENT(call, ID), LENT(call, OUTPUT));
    else if (call->numbers[CALL] == POLICY)
        a = write_policy(call->numbers[MODE], call->numbers[LIFETIME], LENT(call, PATTERNS), LENT(call, LENGTHS), LENT(call, OUTPUT));
    else
        a = rewrite(LENT(call, BODY), LENT(call, OUTPUT));
    answer[0] = a.number;
    answer[1] = a.length;
}

/* How many bytes are to be written: the independent implementation is asked with more room than is ever needed. */
static size_t to_be_written(const struct call *call)
{
    struct call roomy = *call;
    uint64_t answer[2];
    roomy.slices[OUTPUT].length = LONGEST;
    ask(1, &roomy, answer);
    return (size_t)answer[1];
}

static void decode(struct text input, struct call *call)
{
    struct text size = take(&input, '\n'), edits = take(&input, '\n');
    uint8_t letter = take_byte(&size);
    call->numbers[CALL] = letter == 't' ? TXT : letter == 'r' ? REWRITE : POLICY;
    put_arguments(input, call);
    edit(edits, call->slices, OUTPUT);
    put_output(size, to_be_written(call), &call->slices[OUTPUT]);
}

const struct target target = {"publish", answers, numbers, slices, fields, outputs, NULL, decode, NULL, ask};
