/*
 * The fuzz target of tweedstork_read_txt. Lines of an input:
 *   1     the size of the output: +N or -N from the longest record's text, or N
 *   2     changes to the slices (decode.h): a the RDATAs, b their lengths, c the output
 *   3..   a record each, its character strings each ended by | (the last | may be left out)
 */
#include "target.h"

enum { RDATAS, LENGTHS, OUTPUT, SLICES };
static const char *const slices[] = {"rdatas", "lengths", "output", NULL};
static const char *const outputs[] = {"output", NULL};
static const char *const numbers[] = {NULL};
static const char *const fields[] = {"number", "id_start", "id_length", NULL};
static const uint8_t answers[] = {6, 40, 41, 42, 43, 44, 0};

/* A character string, or several where it is too long for one. Answers how often its record is meant. */
static size_t put_string(struct text from, struct bytes *rdatas, size_t *joined)
{
    static uint8_t room[LONGEST];
    struct bytes string = {room, 0};
    size_t times = expand(from, &string, 0, NULL), done = 0;
    do {
        size_t piece = string.length - done < 255 ? string.length - done : 255;
        put(rdatas, (uint8_t)piece);
        put_all(rdatas, room + done, piece);
        done += piece;
    } while (done < string.length);
    *joined += string.length;
    return times;
}

/* One record; its text's length is added to `joined`. */
static size_t put_record(struct text line, struct call *call, size_t *joined)
{
    struct bytes *rdatas = &call->slices[RDATAS];
    size_t start = rdatas->length, times = 1;
    while (line.left > 0)
        times = put_string(take(&line, '|'), rdatas, joined);
    put_number(&call->slices[LENGTHS], rdatas->length - start);
    return times;
}

static void decode(struct text input, struct call *call)
{
    struct text size = take(&input, '\n'), edits = take(&input, '\n');
    size_t longest = 0;
    while (input.left > 0) {
        struct text line = take(&input, '\n');
        size_t joined = 0, times = put_record(line, call, &joined);
        if (joined > longest)
            longest = joined;
        for (size_t i = 1; i < times; i++)
            put_record(line, call, &joined);
    }
    put_output(size, longest, &call->slices[OUTPUT]);
    edit(edits, call->slices, SLICES);
}

static void ask(int independent, const struct call *call, uint64_t *answer)
{
    __typeof__(tweedstork_read_txt) *read_txt = independent ? independent_read_txt : tweedstork_read_txt;
    struct tweedstork_txt_answer a = read_txt(LENT(call, RDATAS), LENT(call, LENGTHS), LENT(call, OUTPUT));
    answer[0] = a.number;
    answer[1] = a.id_start;
    answer[2] = a.id_length;
}

const struct target target = {"txt", answers, numbers, slices, fields, outputs, NULL, decode, NULL, ask};
