/*
 * The fuzz target of tweedstork_cache_store and tweedstork_cache_lookup: a history of calls on one cache, all zeros at first. A
 * line of an input is a letter, a colon and items, with a space between two:
 *   s   a store: clock, domain, id, policy
 *   l   a lookup: clock, domain
 *   e   entries put down unchecked: the first place, how many, fetched, domain, id, policy. In the domain # stands for a digit of
 *       the place, the tens first
 *   d   an entry's damage: the place, a letter, a number, a byte. l, f: length or fetched becomes the number; d, i, t: the byte of
 *       domain, id or text at the number becomes this one
 *   t   a text that is repeated over all texts
 *   z   how many entries and bytes of texts the calls that follow are lent
 * A clock is a number, or +N or -N from the last one, or L, L+N or L-N from the last that is accepted. A policy that begins with a
 * digit is one of mode none with that max_age; in a policy | stands for LF.
 * A line of another form stands for nothing; an input without a call is a lookup of no name.
 */
#include "target.h"

#include <string.h>

enum { DOMAIN, ID, POLICY, TABLE, TEXTS };
static const char *const slices[] = {"domain", "id", "policy", "table", "texts", NULL};
static const char *const outputs[] = {"table", "texts", NULL};
enum { CALL, CLOCK };
static const char *const numbers[] = {"call (1 store, 2 lookup)", "clock", NULL};
enum { STORE = 1, LOOKUP };
static const char *const fields[] = {
    "number", "length", "text_start", "text_length", "fetched", "id_length", "id_0", "id_8", "id_16", "id_24", NULL};
static const uint8_t answers[] = {15, 50, 52, 53, 54, 55, 56, 57, 60, 62, 70, 71, 72, 74, 80, 0};

typedef struct tweedstork_cache_entry entry;
enum { ENTRIES = TWEEDSTORK_CACHE_ENTRIES, ROOM = TWEEDSTORK_CACHE_TEXT_ROOM, TEXTS_SIZE = TWEEDSTORK_CACHE_TEXTS_SIZE };
enum { MOST_ENTRIES = 130, MOST_CALLS = 12, MOST_LINES = 40 }; /* more would only cost time */
static const uint64_t FIRST_CLOCK = 1700000000, LAST_CLOCK = 253402300799;

static struct text rest;        /* the lines that are not taken yet */
static unsigned lines, calls;   /* how many were taken */

/* ---------------------------------------------------------------------------------------------------------------- items */

static uint64_t take_clock(struct text item, uint64_t last)
{
    uint64_t from = 0;
    uint8_t sign = item.left > 0 ? *item.at : 0;
    if (sign == '+' || sign == '-')
        from = last;
    if (sign == 'L') {
        from = LAST_CLOCK;
        take_byte(&item);
        sign = item.left > 0 ? *item.at : 0;
    }
    if (sign == '+' || sign == '-')
        take_byte(&item);
    return sign == '-' ? from - take_number(&item) : from + take_number(&item);
}

static void put_policy(struct text item, struct bytes *to)
{
    to->length = 0;
    if (item.left > 0 && *item.at >= '0' && *item.at <= '9') {
        static const char head[] = "version:STSv1\nmode:none\nmax_age:";
        put_all(to, (const uint8_t *)head, sizeof head - 1);
    }
    expand(item, to, 0, NULL);
    for (size_t i = 0; i < to->length; i++)
        if (to->at[i] == '|')
            to->at[i] = '\n';
}

static void put_item(struct text item, struct bytes *to)
{
    to->length = 0;
    expand(item, to, 0, NULL);
}

/* ---------------------------------------------------------------------------------------------------------------- the table */

/* The table's memory need not be aligned while it is made. */
static entry entry_at(const struct call *call, size_t place)
{
    entry e;
    memcpy(&e, call->slices[TABLE].at + place * sizeof e, sizeof e);
    return e;
}

static void set_entry(struct call *call, size_t place, const entry *e)
{
    memcpy(call->slices[TABLE].at + place * sizeof *e, e, sizeof *e);
}

static size_t at_most(size_t number, size_t most)
{
    return number < most ? number : most;
}

/* One entry of these items; what is too long for it is cut, but its length is the text's. */
static void put_entry(struct call *call, size_t place, uint64_t fetched, const struct bytes *items)
{
    const uint8_t digits[] = {(uint8_t)('0' + place / 10), (uint8_t)('0' + place % 10)};
    entry e;
    memset(&e, 0, sizeof e);
    memcpy(e.domain, items[DOMAIN].at, at_most(items[DOMAIN].length, sizeof e.domain));
    memcpy(e.id, items[ID].at, at_most(items[ID].length, sizeof e.id));
    for (size_t i = 0, digit = 0; i < sizeof e.domain; i++)
        if (e.domain[i] == '#')
            e.domain[i] = digits[digit++ % sizeof digits];
    e.fetched = fetched;
    e.length = items[POLICY].length;
    set_entry(call, place, &e);
    memcpy(call->slices[TEXTS].at + ROOM * place, items[POLICY].at, at_most(items[POLICY].length, ROOM));
}

static void put_entries(struct text line, struct call *call)
{
    static uint8_t room[TABLE][LONGEST];
    struct bytes items[TABLE];
    struct text first = take(&line, ' '), count = take(&line, ' '), fetched = take(&line, ' ');
    size_t place = take_number(&first) % ENTRIES, end = place + take_number(&count) % (ENTRIES + 1);
    for (size_t i = 0; i < TABLE; i++)
        items[i] = (struct bytes){room[i], 0};
    put_item(take(&line, ' '), &items[DOMAIN]);
    put_item(take(&line, ' '), &items[ID]);
    put_policy(take(&line, ' '), &items[POLICY]);
    for (; place < end && place < ENTRIES; place++)
        put_entry(call, place, take_clock(fetched, call->numbers[CLOCK]), items);
}

static void damage(struct text line, struct call *call)
{
    struct text first = take(&line, ' '), letter = take(&line, ' '), second = take(&line, ' ');
    size_t place = take_number(&first) % ENTRIES;
    uint64_t number = take_clock(second, call->numbers[CLOCK]);
    static uint8_t room[LONGEST];
    struct bytes value = {room, 0};
    entry e = entry_at(call, place);
    expand(line, &value, 0, NULL);
    uint8_t byte = value.length > 0 ? room[0] : 0;
    switch (take_byte(&letter)) {
    case 'l': e.length = number; break;
    case 'f': e.fetched = number; break;
    case 'd': e.domain[number % sizeof e.domain] = byte; break;
    case 'i': e.id[number % sizeof e.id] = byte; break;
    case 't': call->slices[TEXTS].at[ROOM * place + number % ROOM] = byte; break;
    default: break;
    }
    set_entry(call, place, &e);
}

static void fill_texts(struct text line, struct call *call)
{
    static uint8_t room[LONGEST];
    struct bytes text = {room, 0};
    expand(line, &text, 0, NULL);
    for (size_t i = 0; text.length > 0 && i < TEXTS_SIZE; i++)
        call->slices[TEXTS].at[i] = room[i % text.length];
}

static void set_sizes(struct text line, struct call *call)
{
    uint64_t entries = take_number(&line);
    take_byte(&line);
    call->slices[TABLE].length = entries % MOST_ENTRIES * sizeof(entry);
    call->slices[TEXTS].length = take_number(&line) % LONGEST;
}

/* ---------------------------------------------------------------------------------------------------------------- calls */

static void take_call(struct text line, struct call *call, uint64_t which)
{
    call->numbers[CALL] = which;
    call->numbers[CLOCK] = take_clock(take(&line, ' '), call->numbers[CLOCK]);
    put_item(take(&line, ' '), &call->slices[DOMAIN]);
    call->slices[ID].length = call->slices[POLICY].length = 0;
    if (which == STORE) {
        put_item(take(&line, ' '), &call->slices[ID]);
        put_policy(take(&line, ' '), &call->slices[POLICY]);
    }
}

/* Takes lines up to the next call. */
static int next(struct call *call)
{
    while (rest.left > 0 && lines++ < MOST_LINES && calls < MOST_CALLS) {
        struct text line = take(&rest, '\n');
        uint8_t letter = take_byte(&line);
        if (take_byte(&line) != ':')
            continue;
        switch (letter) {
        case 's': take_call(line, call, STORE); calls++; return 1;
        case 'l': take_call(line, call, LOOKUP); calls++; return 1;
        case 'e': put_entries(line, call); break;
        case 'd': damage(line, call); break;
        case 't': fill_texts(line, call); break;
        case 'z': set_sizes(line, call); break;
        default: break;
        }
    }
    return 0;
}

static void decode(struct text input, struct call *call)
{
    rest = input;
    lines = calls = 0;
    call->numbers[CALL] = LOOKUP;
    call->numbers[CLOCK] = FIRST_CLOCK;
    call->slices[TABLE].length = ENTRIES * sizeof(entry);
    call->slices[TEXTS].length = TEXTS_SIZE;
    memset(call->slices[TABLE].at, 0, MOST_ENTRIES * sizeof(entry));
    memset(call->slices[TEXTS].at, 0, LONGEST);
    next(call);
}

/* A store may leave any padding in its entry, so none is compared. */
static void clear_padding(entry *table, size_t count)
{
    for (size_t i = 0; i < count; i++) {
        uint8_t *at = (uint8_t *)&table[i];
        memset(at + offsetof(entry, id) + sizeof table->id, 0, offsetof(entry, fetched) - offsetof(entry, id) - sizeof table->id);
    }
}

static void ask(int independent, const struct call *call, uint64_t *answer)
{
    __typeof__(tweedstork_cache_store) *store = independent ? independent_cache_store : tweedstork_cache_store;
    __typeof__(tweedstork_cache_lookup) *lookup = independent ? independent_cache_lookup : tweedstork_cache_lookup;
    const uint64_t clock = call->numbers[CLOCK];
    entry *table = (void *)call->slices[TABLE].at;
    size_t count = call->slices[TABLE].length / sizeof *table;
    if (call->numbers[CALL] == STORE) {
        struct tweedstork_write_answer a =
            store(clock, LENT(call, DOMAIN), LENT(call, ID), LENT(call, POLICY), table, count, LENT(call, TEXTS));
        answer[0] = a.number;
        answer[1] = a.length;
        clear_padding(table, count);
    } else {
        struct tweedstork_cache_answer a = lookup(clock, LENT(call, DOMAIN), table, count, LENT(call, TEXTS));
        const uint64_t numbers_of[] = {a.number, a.length, a.text_start, a.text_length, a.fetched, a.id_length};
        memcpy(answer, numbers_of, sizeof numbers_of);
        memcpy(answer + sizeof numbers_of / sizeof numbers_of[0], a.id, sizeof a.id);
    }
}

const struct target target = {"cache", answers, numbers, slices, fields, outputs, "table", decode, next, ask};
