/*
 * How inputs are changed. The fuzzer's own changes mostly break what a line says; since inputs are lines of text full of
 * digits (codes, sizes, versions, records, preferences), half of the changes are of a digit, a line, an item, an element of a
 * certificate or the length of a word, and an input may take a line from another that has it too.
 */
#include "decode.h"

#include <string.h>

size_t LLVMFuzzerMutate(uint8_t *data, size_t size, size_t most); /* libFuzzer's */
size_t LLVMFuzzerCustomMutator(uint8_t *data, size_t size, size_t most, unsigned int seed);
size_t LLVMFuzzerCustomCrossOver(const uint8_t *data1, size_t size1, const uint8_t *data2, size_t size2, uint8_t *out,
                                 size_t most, unsigned int seed);

static uint32_t state;

static uint32_t below(size_t bound)
{
    state = state * 1664525u + 1013904223u;
    return (uint32_t)((uint64_t)state * bound >> 32);
}

/* A part of an input, with the byte that ends it. */
struct part {
    size_t start, length;
};

static struct part part_around(const uint8_t *data, size_t size, size_t at, uint8_t end)
{
    struct part part = {at, 0};
    while (part.start > 0 && data[part.start - 1] != end)
        part.start--;
    while (part.start + part.length < size && data[part.start + part.length] != end)
        part.length++;
    part.length += part.start + part.length < size;
    return part;
}

/* An element of der.h around a place, from its tag to its closing bracket; a part without bytes where there is none. */
static struct part element_around(const uint8_t *data, size_t size, size_t at)
{
    size_t start = at, depth = 0;
    while (start > 0 && data[start] != '(')
        start--;
    for (size_t end = start; start >= 2 && end < size; end++) {
        depth += data[end] == '(';
        depth -= data[end] == ')';
        if (depth == 0)
            return (struct part){start - 2, end + 1 - (start - 2)};
    }
    return (struct part){at, 0};
}

/* A line, an item, or where `end` is an opening bracket an element. */
static struct part some_part(const uint8_t *data, size_t size, uint8_t end)
{
    size_t at = below(size);
    return end == '(' ? element_around(data, size, at) : part_around(data, size, at, end);
}

/* Puts bytes in the place of a part; as it was where there is no room. */
static size_t replace(uint8_t *data, size_t size, size_t most, struct part part, const uint8_t *bytes, size_t length)
{
    size_t after = part.start + part.length;
    if (size - part.length + length > most)
        return size;
    memmove(data + part.start + length, data + after, size - after);
    memcpy(data + part.start, bytes, length);
    return size - part.length + length;
}

/* The next digit from a place on becomes another, mostly a small one. */
static size_t change_digit(uint8_t *data, size_t size, size_t at)
{
    while (at < size && (data[at] < '0' || data[at] > '9'))
        at++;
    if (at < size)
        data[at] = (uint8_t)('0' + below(below(2) ? 4 : 10));
    return size;
}

/* A line, an item or an element is doubled, dropped, or put in another place. */
static size_t move_part(uint8_t *data, size_t size, size_t most, uint8_t end)
{
    enum { ROOM = 512 };
    uint8_t copy[ROOM];
    struct part part = some_part(data, size, end);
    uint32_t choice = below(3);
    if (part.length > ROOM)
        return size;
    memcpy(copy, data + part.start, part.length);
    if (choice > 0)
        size = replace(data, size, most, part, copy, 0);
    if (choice == 1)
        return size;
    struct part place = {part.start, 0};
    if (size > 0)
        place.start = some_part(data, size, end).start;
    return replace(data, size, most, place, copy, part.length);
}

static int is_word_byte(uint8_t byte)
{
    return (byte >= '0' && byte <= '9') || (byte >= 'A' && byte <= 'Z') || (byte >= 'a' && byte <= 'z');
}

/* The letters and digits around a place are cut or repeated to another length: one about which code may look at words, or any. */
static size_t resize_word(uint8_t *data, size_t size, size_t most, size_t at)
{
    enum { LONGEST_WORD = 72 };
    static const uint8_t lengths[] = {7, 8, 9, 15, 16, 17, 31, 32, 33, 63, 64, 65, LONGEST_WORD};
    uint8_t word[LONGEST_WORD];
    struct part part = {at, 0};
    size_t length = below(2) ? lengths[below(sizeof lengths)] : below(LONGEST_WORD + 1);
    while (part.start > 0 && is_word_byte(data[part.start - 1]))
        part.start--;
    while (part.start + part.length < size && is_word_byte(data[part.start + part.length]))
        part.length++;
    if (part.length == 0)
        return size;
    for (size_t i = 0; i < length; i++)
        word[i] = data[part.start + i % part.length];
    return replace(data, size, most, part, word, length);
}

size_t LLVMFuzzerCustomMutator(uint8_t *data, size_t size, size_t most, unsigned int seed)
{
    state = seed;
    if (size == 0 || below(2) == 0)
        return LLVMFuzzerMutate(data, size, most);
    uint32_t choice = below(5);
    if (choice < 2)
        return change_digit(data, size, below(size));
    if (choice == 2)
        return resize_word(data, size, most, below(size));
    if (memchr(data, '(', size) != NULL && below(3) > 0)
        return move_part(data, size, most, '(');
    return move_part(data, size, most, below(2) ? '\n' : ' ');
}

/* The line after one, or a part without bytes. */
static struct part next_line(const uint8_t *data, size_t size, struct part line)
{
    size_t at = line.start + line.length;
    return at < size ? part_around(data, size, at, '\n') : (struct part){size, 0};
}

/* A line of the second input comes in the place of the first's line that begins with the same two bytes, or at a random one. */
size_t LLVMFuzzerCustomCrossOver(const uint8_t *data1, size_t size1, const uint8_t *data2, size_t size2, uint8_t *out,
                                 size_t most, unsigned int seed)
{
    size_t size = size1 < most ? size1 : most;
    memcpy(out, data1, size);
    if (size == 0 || size2 == 0)
        return size;
    state = seed;
    struct part taken = part_around(data2, size2, below(size2), '\n'), place = part_around(out, size, 0, '\n');
    while (place.length >= 2 && (taken.length < 2 || memcmp(out + place.start, data2 + taken.start, 2) != 0))
        place = next_line(out, size, place);
    if (place.length < 2)
        place = (struct part){part_around(out, size, below(size), '\n').start, 0};
    return replace(out, size, most, place, data2 + taken.start, taken.length);
}
