/* DER from text: see der.h. */
#include "der.h"

#include <string.h>

enum { MOST_OPEN = 40, MOST_BYTES = 32 * 1024, LONG_LENGTH = 5 };

/* The elements that are not closed yet: where the contents of each begin, right after the tag. */
struct open {
    size_t starts[MOST_OPEN], count;
};

static void insert(struct bytes *to, size_t at, const uint8_t *bytes, size_t count)
{
    size_t end = to->length;
    for (size_t i = 0; i < count; i++)
        put(to, 0);
    count = to->length - end;
    memmove(to->at + at + count, to->at + at, end - at);
    memcpy(to->at + at, bytes, count);
}

/* A length in its shortest form, or with a byte more. Answers how many bytes that takes, LONG_LENGTH at most. */
static size_t length_bytes(size_t length, int longer, uint8_t *bytes)
{
    size_t digits = length > 0xffff ? 3 : length > 0xff ? 2 : 1, count = 0;
    if (length >= 0x80 || longer)
        bytes[count++] = (uint8_t)(0x80 + digits);
    if (length >= 0x80 && longer) {
        bytes[0]++;
        bytes[count++] = 0;
    }
    for (size_t i = digits; i > 0; i--)
        bytes[count++] = (uint8_t)(length >> (8 * (i - 1)));
    return count;
}

/* Puts the length before the contents that begin at `start`, or what else `form` says. */
static void close_element(struct bytes *to, size_t start, uint8_t form)
{
    static const uint8_t indefinite[] = {0x80}, end[] = {0, 0};
    uint8_t bytes[LONG_LENGTH];
    size_t length = to->length - start;
    if (form == '%') {
        insert(to, start, indefinite, sizeof indefinite);
        put_all(to, end, sizeof end);
        return;
    }
    if (form == '>')
        length++;
    if (form == '<' && length > 0)
        length--;
    insert(to, start, bytes, length_bytes(length, form == '#', bytes));
    if (form == '^') {
        bytes[0] = to->at[start - 1] & 0x1f;
        to->at[start - 1] |= 0x1f;
        insert(to, start, bytes, 1);
    }
}

/* The last element is closed, in the form that comes next, and repeated. */
static void take_end(struct text *rest, struct bytes *to, struct open *open)
{
    size_t start = open->starts[--open->count], length;
    uint8_t next = rest->left > 0 ? *rest->at : 0, form = 0;
    if (next != 0 && strchr("#%<>^", next) != NULL)
        form = take_byte(rest);
    close_element(to, start, form);
    if (rest->left == 0 || *rest->at != '*')
        return;
    take_byte(rest);
    length = to->length - (start - 1);
    for (uint64_t times = take_count(rest); times > 1 && to->length < MOST_BYTES; times--)
        put_all(to, to->at + start - 1, length);
}

static void fill(struct bytes *to, size_t start, uint64_t wanted)
{
    while (to->length > start && to->length - start < wanted && to->length < MOST_BYTES)
        put(to, to->at[to->length - 1]);
}

void put_der(struct text from, struct bytes *to, const struct bytes *names)
{
    struct open open = {{to->length}, 0};
    size_t first = to->length;
    uint64_t byte;
    while (from.left > 0 && to->length - first < MOST_BYTES) {
        struct text pair = {from.at, from.left < 2 ? from.left : 2}, quoted;
        switch (byte = take_byte(&from)) {
        case '(':
            if (to->length > first && open.count < MOST_OPEN)
                open.starts[open.count++] = to->length;
            break;
        case ')':
            if (open.count > 0)
                take_end(&from, to, &open);
            break;
        case '"':
            quoted = take(&from, '"');
            expand(quoted, to, to->length, names);
            break;
        case '+':
            fill(to, open.count > 0 ? open.starts[open.count - 1] : first, take_count(&from));
            break;
        default:
            byte = take_hexadecimal(&pair);
            if (pair.left == 0 && from.left > 0) {
                take_byte(&from);
                put(to, (uint8_t)byte);
            }
        }
    }
    while (open.count > 0)
        close_element(to, open.starts[--open.count], 0);
}
