/* Text into bytes: see decode.h. */
#include "decode.h"

#include <string.h>

enum { MOST_TIMES = 70 }; /* a little over the largest limit of a list, 64 */

uint8_t take_byte(struct text *rest)
{
    if (rest->left == 0)
        return 0;
    rest->left--;
    return *rest->at++;
}

struct text take(struct text *rest, uint8_t end)
{
    struct text taken = {rest->at, 0};
    while (rest->left > 0 && take_byte(rest) != end)
        taken.left++;
    return taken;
}

uint64_t take_number(struct text *rest)
{
    uint64_t number = 0;
    while (rest->left > 0 && *rest->at >= '0' && *rest->at <= '9')
        number = number * 10 + (uint64_t)(take_byte(rest) - '0');
    return number;
}

static int hexadecimal(uint8_t byte)
{
    if (byte >= '0' && byte <= '9')
        return byte - '0';
    return byte >= 'a' && byte <= 'f' ? byte - 'a' + 10 : -1;
}

uint64_t take_hexadecimal(struct text *rest)
{
    uint64_t number = 0;
    while (rest->left > 0 && hexadecimal(*rest->at) >= 0)
        number = number * 16 + (uint64_t)hexadecimal(take_byte(rest));
    return number;
}

uint64_t code_of(uint8_t byte)
{
    if (byte >= '0' && byte <= '9')
        return (uint64_t)(byte - '0');
    if (byte >= 'A' && byte <= 'M') /* a code again, were only the low half looked at */
        return ((uint64_t)1 << 32) + (uint64_t)(byte - 'A');
    if (byte >= 'N' && byte <= 'Z')
        return UINT64_MAX - (uint64_t)(byte - 'N');
    if (byte >= 'a' && byte <= 'z')
        return 256 + (uint64_t)(byte - 'a');
    return byte % 4;
}

void put(struct bytes *to, uint8_t byte)
{
    if (to->length < LONGEST)
        to->at[to->length++] = byte;
}

void put_all(struct bytes *to, const uint8_t *from, size_t length)
{
    for (size_t i = 0; i < length; i++)
        put(to, from[i]);
}

void put_number(struct bytes *to, uint64_t number)
{
    for (int shift = 24; shift >= 0; shift -= 8)
        put(to, (uint8_t)(number >> shift));
}

uint64_t number_at(const struct bytes *list, size_t i)
{
    const uint8_t *at = list->at + 4 * i;
    return (uint64_t)at[0] << 24 | (uint64_t)at[1] << 16 | (uint64_t)at[2] << 8 | at[3];
}

static void set_number(struct bytes *list, size_t i, uint64_t number)
{
    struct bytes place = {list->at + 4 * i, 0};
    put_number(&place, number);
}

/* The item that begins at `start`, made exactly `wanted` bytes long by repeating its last `period` bytes. */
static void fill(struct bytes *to, size_t start, size_t period, uint64_t wanted)
{
    size_t end = wanted < LONGEST - start ? start + (size_t)wanted : LONGEST;
    if (period > 0 && end <= to->length)
        to->length = end;
    while (period > 0 && to->length < end)
        put(to, to->at[to->length - period]);
}

static void swap_case(struct bytes *in, size_t start)
{
    for (size_t i = start; i < in->length; i++) {
        uint8_t letter = in->at[i] | 0x20;
        if (letter >= 'a' && letter <= 'z')
            in->at[i] ^= 0x20;
    }
}

static void put_name(struct bytes *to, const struct bytes *names, uint8_t which)
{
    if (names == NULL)
        return;
    const struct bytes *name = &names[which == 'N' ? 0 : which == 'A' ? 1 : which == 'X' ? 3 : 2];
    size_t from = 0;
    if (which == 'P') {
        const uint8_t *dot = memchr(name->at, '.', name->length);
        from = dot == NULL ? name->length : (size_t)(dot - name->at) + 1;
    }
    put_all(to, name->at + from, name->length - from);
}

/* a.a.a, or aa.a.a for an even size */
static void put_long_name(struct bytes *to, uint64_t size)
{
    for (uint64_t left = size; left > 0; left--)
        put(to, left % 2 == 1 || left == size ? 'a' : '.');
}

/* `first` came after a dollar and is no letter of expand. */
static void put_escaped(struct bytes *to, uint8_t first, struct text *rest)
{
    int high = hexadecimal(first), low = high >= 0 && rest->left > 0 ? hexadecimal(*rest->at) : -1;
    if (low >= 0) {
        take_byte(rest);
        put(to, (uint8_t)(high * 16 + low));
    } else {
        put(to, first);
    }
}

uint64_t take_size(struct text *rest)
{
    static const uint64_t limits[] = {1024, 4096, 16384, 65536};
    enum { SMALL = 600, NEAR = 2 };
    uint64_t size = take_number(rest);
    for (size_t i = 0; i < sizeof limits / sizeof limits[0]; i++)
        if (size + NEAR >= limits[i] && size <= limits[i] + NEAR)
            return size;
    return size % SMALL;
}

uint64_t take_count(struct text *rest)
{
    uint64_t count = take_size(rest);
    if (rest->left > 0 && *rest->at == ';')
        take_byte(rest);
    return count;
}

size_t expand(struct text from, struct bytes *to, size_t start, const struct bytes *names)
{
    size_t times = 1;
    uint64_t count;
    while (from.left > 0) {
        uint8_t byte = take_byte(&from);
        if (byte != '$' || from.left == 0) {
            put(to, byte);
            continue;
        }
        switch (byte = take_byte(&from)) {
        case '=':
            fill(to, start, to->length - start, take_count(&from));
            break;
        case '+':
            fill(to, start, to->length > start, take_count(&from));
            break;
        case '*':
            count = take_count(&from);
            times = count < MOST_TIMES ? (size_t)count : MOST_TIMES;
            break;
        case '%':
            put_long_name(to, take_count(&from));
            break;
        case '.':
            return times;
        case '~':
            swap_case(to, start);
            break;
        case 'N': case 'A': case 'H': case 'X': case 'P':
            put_name(to, names, byte);
            break;
        default:
            put_escaped(to, byte, &from);
        }
    }
    return times;
}

void put_output(struct text line, size_t written, struct bytes *output)
{
    uint8_t sign = line.left > 0 ? *line.at : 0;
    size_t size = 0, number;
    if (sign == '+' || sign == '-') {
        take_byte(&line);
        size = written;
    }
    number = (size_t)take_size(&line);
    if (sign == '-')
        size -= number < size ? number : size;
    else
        size += number;
    for (size_t i = 0; i < size; i++)
        put(output, (uint8_t)(i * 7 + 3));
}

/* A change to one number of a list that has some. */
static void edit_number(struct bytes *list, uint8_t what, uint64_t value)
{
    size_t count = list->length / 4, i = (size_t)(value % count);
    uint64_t number = number_at(list, i);
    switch (what) {
    case 'i': set_number(list, i, number + 1); break;
    case 'd': set_number(list, i, number - 1); break;
    case 't': set_number(list, i, number ^ (uint64_t)1 << 31); break;
    case 'w': set_number(list, i, UINT32_MAX); break;
    case 'm':
        if (i + 1 < count && number_at(list, i + 1) > 0) {
            set_number(list, i, number + 1);
            set_number(list, i + 1, number_at(list, i + 1) - 1);
        }
        break;
    default: break;
    }
}

void edit(struct text edits, struct bytes *slices, size_t count)
{
    while (edits.left >= 3) {
        struct bytes *slice = &slices[(uint8_t)(take_byte(&edits) - 'a') % count];
        uint8_t what = take_byte(&edits), byte = take_byte(&edits);
        uint64_t value = byte >= '0' && byte <= '9' ? (uint64_t)(byte - '0') : byte;
        switch (what) {
        case 'n': put_number(slice, value); break;
        case 'b': put(slice, (uint8_t)value); break;
        case 'l': slice->length -= slice->length < 4 ? slice->length : 4; break;
        case 'x': slice->length -= slice->length > 0; break;
        case 'e': slice->length = 0; break;
        case 'f':
            if (slice->length > 0)
                slice->at[value % slice->length] ^= 1;
            break;
        default:
            if (slice->length >= 4)
                edit_number(slice, what, value);
        }
    }
}
