/*
 * What every fuzz target does with an input: decode it, ask the independent implementation and the library, and compare every
 * field of the answer and all lent memory. At a difference it prints the arguments and both answers and aborts.
 *
 * The library's archive is compiled without sanitizers, so it is asked four times: with copies on the heap of just their
 * size (the address sanitizer sees what memcpy does there, and empty slices are NULL), with copies that end at a page which
 * can't be touched, with copies that begin after one, and with copies in the open, at offsets from a boundary of 16 bytes that
 * the input decides. On an open side stand other bytes, by the input too, which must be there after the call. Of a history each
 * call is asked in one of the four ways, by the input and in turn.
 *
 * FUZZ_SAY=1 in the environment prints the arguments and the answer of each input.
 */
#define _DEFAULT_SOURCE /* MAP_ANONYMOUS */
#include "target.h"

#include <inttypes.h>
#include <stdio.h>
#include <stdlib.h>
#include <string.h>
#include <sys/mman.h>

int LLVMFuzzerInitialize(int *argc, char ***argv);
int LLVMFuzzerTestOneInput(const uint8_t *data, size_t size);

enum { PAGE = 4096, NEAR = 32, BOUNDARY = 16, ROOM = LONGEST + PAGE };

static const char *const places[] = {"on the heap", "before a guard page", "after a guard page", "in the open"};
enum { HEAP, BEFORE_GUARD, AFTER_GUARD, OPEN, PLACES };

/* What may stand beside a slice: bytes that would go on with a text, end it, or spoil it, were they taken for a part of it. */
#define KINDS "a0.\n\r \t-*:;=Z~\0\x80\xff"
static const char beside[] = KINDS KINDS KINDS; /* NEAR bytes from each of the first on */

static uint8_t decoded[MOST_SLICES][LONGEST];
static uint8_t *rooms[MOST_SLICES]; /* ROOM bytes each, between two guard pages */
static uint64_t answered[256];      /* how often each answer number came */
static uint32_t turn;               /* decides the offsets, and what stands beside the slices */
static int say;

static int is_output(size_t slice)
{
    for (size_t i = 0; target.outputs[i] != NULL; i++)
        if (strcmp(target.slices[slice], target.outputs[i]) == 0)
            return 1;
    return 0;
}

/* ------------------------------------------------------------------------------------------------------------- reports */

static void print_fields(const char *whose, const uint64_t *fields)
{
    fprintf(stderr, "  %s:", whose);
    for (size_t i = 0; target.fields[i] != NULL; i++)
        fprintf(stderr, " %s %" PRIu64, target.fields[i], fields[i]);
    fprintf(stderr, " (%s)\n", tweedstork_answer_words(fields[0]));
}

static void print_slice(const char *name, const struct bytes *slice)
{
    enum { SHOWN = 2000 };
    fprintf(stderr, "  %s, %zu bytes: ", name, slice->length);
    for (size_t i = 0; i < slice->length && i < SHOWN; i++) {
        uint8_t byte = slice->at[i];
        if (byte >= ' ' && byte <= '~' && byte != '\\')
            fputc(byte, stderr);
        else
            fprintf(stderr, "\\x%02x", byte);
    }
    fprintf(stderr, "%s\n", slice->length > SHOWN ? " and so on" : "");
}

static void print_call(const struct call *call)
{
    fprintf(stderr, "%s:\n", target.name);
    for (size_t i = 0; target.numbers[i] != NULL; i++)
        fprintf(stderr, "  %s %" PRIu64 "\n", target.numbers[i], call->numbers[i]);
    for (size_t i = 0; target.slices[i] != NULL; i++)
        print_slice(target.slices[i], &call->slices[i]);
}

/* Ends the run; the fuzzer keeps the input. */
static void fail(const struct call *call, const char *which, const char *what, int place)
{
    if (!say)
        print_call(call);
    fprintf(stderr, "DIFFERENCE: %s: %s %s (slices %s)\n", target.name, which, what, places[place]);
    abort();
}

static void print_answers(void)
{
    for (const uint8_t *number = target.answers; *number != 0; number++)
        fprintf(stderr, "answer %u: %" PRIu64 "\n", *number, answered[*number]);
}

/* ----------------------------------------------------------------------------------------------------------- lent memory */

static void make_rooms(void)
{
    for (size_t i = 0; target.slices[i] != NULL; i++) {
        uint8_t *at = mmap(NULL, ROOM + 2 * PAGE, PROT_NONE, MAP_PRIVATE | MAP_ANONYMOUS, -1, 0);
        if (at == MAP_FAILED || mprotect(at + PAGE, ROOM, PROT_READ | PROT_WRITE) != 0) {
            perror("fuzz: no memory with guard pages");
            exit(2);
        }
        rooms[i] = at + PAGE;
    }
}

/* A number of the input's own, most likely. */
static uint32_t turn_of(const uint8_t *data, size_t size)
{
    uint32_t sum = 0x811c9dc5u;
    for (size_t i = 0; i < size; i++)
        sum = (sum ^ data[i]) * 0x01000193u;
    return sum >> 8;
}

/* Where slice i begins in its room. */
static uint8_t *start_of(size_t i, size_t length, int place)
{
    size_t step = target.aligned != NULL && strcmp(target.slices[i], target.aligned) == 0 ? 8 : 1;
    if (place == OPEN)
        return rooms[i] + NEAR + (turn + turn / BOUNDARY * i) % BOUNDARY / step * step;
    return place == BEFORE_GUARD ? rooms[i] + ROOM - length : rooms[i];
}

/* What stands beside slice i: one kind of byte, or all in turn. */
static void fill_beside(size_t i, uint8_t *bytes)
{
    const char *from = beside + (turn + i) % (sizeof KINDS - 1);
    if (turn / BOUNDARY % 2 == 0)
        memset(bytes, *from, NEAR);
    else
        memcpy(bytes, from, NEAR);
}

static struct bytes lend(size_t i, const struct bytes *slice, int place)
{
    struct bytes lent = {NULL, slice->length};
    if (place != HEAP) {
        lent.at = start_of(i, slice->length, place);
        if (place != AFTER_GUARD)
            fill_beside(i, lent.at - NEAR);
        if (place != BEFORE_GUARD)
            fill_beside(i, lent.at + lent.length);
    } else if (slice->length > 0 && (lent.at = malloc(slice->length)) == NULL) {
        perror("fuzz");
        exit(2);
    }
    if (slice->length > 0)
        memcpy(lent.at, slice->at, slice->length);
    return lent;
}

static int same(const struct bytes *a, const struct bytes *b)
{
    return a->length == 0 || memcmp(a->at, b->at, a->length) == 0;
}

/* For a slice in its room. */
static int same_beside(size_t i, const struct bytes *lent, int place)
{
    uint8_t expected[NEAR];
    fill_beside(i, expected);
    return (place == AFTER_GUARD || memcmp(lent->at - NEAR, expected, NEAR) == 0)
        && (place == BEFORE_GUARD || memcmp(lent->at + lent->length, expected, NEAR) == 0);
}

/* ------------------------------------------------------------------------------------------------------------ the calls */

/* Every slice as it has to be after the call: an input as it was, an output as the independent implementation left it. */
static void check_slices(const struct call *call, const struct call *lent, const struct call *left, int place)
{
    for (size_t i = 0; target.slices[i] != NULL; i++) {
        if (!same(&lent->slices[i], is_output(i) ? &left->slices[i] : &call->slices[i]))
            fail(call, target.slices[i], is_output(i) ? "differs after the call" : "was changed by the call", place);
        if (place != HEAP && !same_beside(i, &lent->slices[i], place))
            fail(call, target.slices[i], "had a byte beside it changed by the call", place);
    }
}

static struct call lend_all(const struct call *call, int place)
{
    struct call lent = *call;
    for (size_t i = 0; target.slices[i] != NULL; i++)
        lent.slices[i] = lend(i, &call->slices[i], place);
    return lent;
}

static void free_all(const struct call *lent)
{
    for (size_t i = 0; target.slices[i] != NULL; i++)
        free(lent->slices[i].at);
}

static void ask_library(const struct call *call, const uint64_t *expected, const struct call *left, int place)
{
    struct call lent = lend_all(call, place);
    uint64_t fields[MOST_FIELDS] = {0};
    target.ask(0, &lent, fields);
    if (memcmp(fields, expected, sizeof fields) != 0) {
        print_fields("independent", expected);
        print_fields("library", fields);
        fail(call, "the answer", "differs", place);
    }
    check_slices(call, &lent, left, place);
    if (place == HEAP)
        free_all(&lent);
}

/* One call, asked in all places from the first to the last; its outputs become what was written. */
static void ask_both(const struct call *call, int first, int last)
{
    struct call lent = lend_all(call, HEAP);
    uint64_t expected[MOST_FIELDS] = {0};
    if (say)
        print_call(call);
    target.ask(1, &lent, expected);
    check_slices(call, &lent, &lent, HEAP);
    if (say)
        print_fields("independent", expected);
    if (expected[0] == 0 || expected[0] > 0xff || strchr((const char *)target.answers, (int)expected[0]) == NULL)
        fail(call, "the independent answer", "is none that the call has", HEAP);
    for (int place = first; place <= last; place++)
        ask_library(call, expected, &lent, place);
    for (size_t i = 0; target.slices[i] != NULL; i++)
        if (is_output(i) && lent.slices[i].length > 0)
            memcpy(call->slices[i].at, lent.slices[i].at, lent.slices[i].length);
    free_all(&lent);
    answered[expected[0]]++;
}

int LLVMFuzzerInitialize(int *argc, char ***argv)
{
    (void)argc;
    (void)argv;
    say = getenv("FUZZ_SAY") != NULL;
    make_rooms();
    return atexit(print_answers);
}

int LLVMFuzzerTestOneInput(const uint8_t *data, size_t size)
{
    struct call call = {{0}, {{NULL, 0}}};
    for (size_t i = 0; i < MOST_SLICES; i++)
        call.slices[i].at = decoded[i];
    target.decode((struct text){data, size}, &call);
    turn = turn_of(data, size);
    if (target.next == NULL) {
        ask_both(&call, HEAP, PLACES - 1);
        return 0;
    }
    int place = (int)(turn % PLACES);
    do {
        ask_both(&call, place, place);
        place = (place + 1) % PLACES;
    } while (target.next(&call));
    return 0;
}
