/*
 * The policy cache as a C program meets it: layouts, which entry a store takes and what it writes, what a lookup hands back, and
 * what both leave as it was. Table, texts and arguments each end where their memory ends. That the calls answer so for every
 * input is the proofs' matter.
 */
#define _DEFAULT_SOURCE /* for memory() of expect.h */
#include <stdio.h>
#include <string.h>

#include "expect.h"
#include "tweedstork.h"

#define ENTRIES 64
#define ROOM 1024
#define TEXTS 65536
#define LATEST 253402300799

/* Each policy lives for 1,000 seconds. */
static const char one[] = "version: STSv1\nmode: enforce\nmx: *.example.org\nmx: mail.example.net\nmax_age: 1000\n";
static const char two[] = "version: STSv1\r\nmode: none\r\nmax_age: 1000";

static struct tweedstork_slice text(const char *s)
{
    struct tweedstork_slice slice = {(const uint8_t *)s, strlen(s)};
    return slice;
}

/* The same bytes at the end of memory, which each argument has for itself; no bytes are NULL. */
static struct tweedstork_slice at_end(size_t argument, struct tweedstork_slice bytes)
{
    static uint8_t *rooms[3];
    struct tweedstork_slice copy = {NULL, bytes.length};

    if (rooms[argument] == NULL)
        rooms[argument] = memory(2 * TEXTS);
    if (bytes.length == 0)
        return copy;
    copy.bytes = memcpy(rooms[argument] + 2 * TEXTS - bytes.length, bytes.bytes, bytes.length);
    return copy;
}

/* ---- the cache, and what it should hold ---- */

static struct tweedstork_cache_entry *table, wanted_table[ENTRIES];
static uint8_t *texts, wanted_texts[TEXTS];

/* What was put into table and texts by hand is what they should hold. */
static void as_it_is(void)
{
    memcpy(wanted_table, table, sizeof wanted_table);
    memcpy(wanted_texts, texts, sizeof wanted_texts);
}

static void empty_cache(void)
{
    memset(table, 0, sizeof wanted_table);
    for (size_t i = 0; i < ENTRIES; i++)
        memset((uint8_t *)&table[i] + 285, 0xaa, 3); /* the padding */
    memset(texts, 0xee, TEXTS);
    as_it_is();
}

static void holds_what_it_should(const char *name)
{
    expect(name, memcmp(table, wanted_table, sizeof wanted_table) == 0);
    expect(name, memcmp(texts, wanted_texts, sizeof wanted_texts) == 0);
}

/* A store writes all of an entry, whose padding may then be anything, and the bytes of the text. */
static void should_hold(size_t place, uint64_t clock, struct tweedstork_slice domain, struct tweedstork_slice id, struct tweedstork_slice policy)
{
    struct tweedstork_cache_entry *entry = &wanted_table[place];

    memcpy(entry, &table[place], sizeof *entry);
    memset(entry->domain, 0, sizeof entry->domain);
    memcpy(entry->domain, domain.bytes, domain.length);
    memset(entry->id, 0, sizeof entry->id);
    memcpy(entry->id, id.bytes, id.length);
    entry->fetched = clock;
    entry->length = policy.length;
    memcpy(wanted_texts + ROOM * place, policy.bytes, policy.length);
}

static uint64_t store_slices(const char *name, uint64_t clock, struct tweedstork_slice domain, struct tweedstork_slice id, struct tweedstork_slice policy)
{
    struct tweedstork_slice d = at_end(0, domain), i = at_end(1, id), p = at_end(2, policy);
    struct tweedstork_write_answer answer = tweedstork_cache_store(clock, d.bytes, d.length, i.bytes, i.length, p.bytes, p.length, table, ENTRIES, texts, TEXTS);

    expect(name, answer.length == 0);
    expect(name, d.length == 0 || memcmp(d.bytes, domain.bytes, d.length) == 0);
    expect(name, i.length == 0 || memcmp(i.bytes, id.bytes, i.length) == 0);
    expect(name, p.length == 0 || memcmp(p.bytes, policy.bytes, p.length) == 0);
    return answer.number;
}

/* A store that takes the entry at this place. */
static void stores_slices(const char *name, size_t place, uint64_t clock, struct tweedstork_slice domain, struct tweedstork_slice id, struct tweedstork_slice policy)
{
    uint64_t number = store_slices(name, clock, domain, id, policy);

    expect(name, number == 15);
    if (number == 15)
        should_hold(place, clock, domain, id, policy);
    holds_what_it_should(name);
}

static void stores(const char *name, size_t place, uint64_t clock, const char *domain, const char *id, const char *policy)
{
    stores_slices(name, place, clock, text(domain), text(id), text(policy));
}

/* A store that changes nothing. */
static void refuses_slices(const char *name, uint64_t number, uint64_t clock, struct tweedstork_slice domain, struct tweedstork_slice id, struct tweedstork_slice policy)
{
    expect(name, store_slices(name, clock, domain, id, policy) == number);
    holds_what_it_should(name);
}

static void refuses(const char *name, uint64_t number, uint64_t clock, const char *domain, const char *id, const char *policy)
{
    refuses_slices(name, number, clock, text(domain), text(id), text(policy));
}

static void looks_up(const char *name, uint64_t clock, struct tweedstork_slice domain, const struct tweedstork_cache_answer *wanted)
{
    struct tweedstork_slice d = at_end(0, domain);
    struct tweedstork_cache_answer answer = tweedstork_cache_lookup(clock, d.bytes, d.length, table, ENTRIES, texts, TEXTS);

    expect(name, memcmp(&answer, wanted, sizeof answer) == 0);
    expect(name, d.length == 0 || memcmp(d.bytes, domain.bytes, d.length) == 0);
    holds_what_it_should(name);
}

/* A lookup that hands back what the entry at this place should hold. */
static void finds(const char *name, size_t place, uint64_t clock, const char *domain)
{
    const struct tweedstork_cache_entry *entry = &wanted_table[place];
    struct tweedstork_cache_answer wanted = {15, 0, ROOM * place, entry->length, entry->fetched, 0, {0}};

    while (wanted.id_length < 32 && entry->id[wanted.id_length] != 0)
        wanted.id_length++;
    memcpy(wanted.id, entry->id, sizeof wanted.id);
    looks_up(name, clock, text(domain), &wanted);
}

static void finds_nothing(const char *name, uint64_t number, uint64_t clock, struct tweedstork_slice domain)
{
    struct tweedstork_cache_answer wanted = {0, 0, 0, 0, 0, 0, {0}};

    wanted.number = number;
    looks_up(name, clock, domain, &wanted);
}

/* Entries of other domains from a place up to before another, all fetched at 1,000. */
static void fill(size_t from, size_t to)
{
    for (size_t i = from; i < to; i++) {
        char domain[16];
        snprintf(domain, sizeof domain, "d%u.example", (unsigned)i);
        stores("the table fills from its beginning", i, 1000, domain, "a1", one);
    }
}

/* ---- the tests ---- */

static void layouts(void)
{
    expect("an entry has 304 bytes", sizeof(struct tweedstork_cache_entry) == 304);
    expect("domain and id stand at the beginning", offsetof(struct tweedstork_cache_entry, domain) == 0 && offsetof(struct tweedstork_cache_entry, id) == 253);
    expect("fetched and length stand at the end", offsetof(struct tweedstork_cache_entry, fetched) == 288 && offsetof(struct tweedstork_cache_entry, length) == 296);
    expect("a cache has its texts behind its table", sizeof(struct tweedstork_cache) == 84992 && offsetof(struct tweedstork_cache, texts) == 19456);
    expect("tweedstork_write_answer has two numbers", sizeof(struct tweedstork_write_answer) == 16 && offsetof(struct tweedstork_write_answer, length) == 8);
    expect("tweedstork_cache_answer has 80 bytes", sizeof(struct tweedstork_cache_answer) == 80 && offsetof(struct tweedstork_cache_answer, id) == 48);
    expect("tweedstork_cache_answer: the text's place", offsetof(struct tweedstork_cache_answer, length) == 8 && offsetof(struct tweedstork_cache_answer, text_start) == 16 && offsetof(struct tweedstork_cache_answer, text_length) == 24);
    expect("tweedstork_cache_answer: fetched and the id's length", offsetof(struct tweedstork_cache_answer, fetched) == 32 && offsetof(struct tweedstork_cache_answer, id_length) == 40);
    expect("the header's sizes", TWEEDSTORK_CACHE_ENTRIES == ENTRIES && TWEEDSTORK_CACHE_TEXT_ROOM == ROOM && TWEEDSTORK_CACHE_TEXTS_SIZE == TEXTS);
}

static int all_are(uint8_t byte, const void *bytes, size_t length)
{
    for (size_t i = 0; i < length; i++)
        if (((const uint8_t *)bytes)[i] != byte)
            return 0;
    return 1;
}

/* Both calls with a table and texts of these sizes, filled with a byte that they have to keep; with none they are NULL. */
static void sized(const char *name, uint64_t number, size_t entries, size_t bytes, uint64_t clock)
{
    static const struct tweedstork_cache_answer none;
    struct tweedstork_cache_entry *some = entries == 0 ? NULL : memory(entries * sizeof *some);
    uint8_t *buffer = bytes == 0 ? NULL : memory(bytes);
    struct tweedstork_slice domain = at_end(0, text("")), id = at_end(1, text("")), policy = at_end(2, text(""));

    if (entries != 0)
        memset(some, 0xbb, entries * sizeof *some);
    if (bytes != 0)
        memset(buffer, 0xbb, bytes);
    struct tweedstork_write_answer stored = tweedstork_cache_store(clock, domain.bytes, 0, id.bytes, 0, policy.bytes, 0, some, entries, buffer, bytes);
    struct tweedstork_cache_answer found = tweedstork_cache_lookup(clock, domain.bytes, 0, some, entries, buffer, bytes);
    expect(name, stored.number == number && stored.length == 0);
    expect(name, found.number == number && memcmp((uint8_t *)&found + 8, (const uint8_t *)&none + 8, sizeof found - 8) == 0);
    expect(name, all_are(0xbb, some, entries * sizeof *some));
    expect(name, all_are(0xbb, buffer, bytes));
}

/* A count of bytes in place of entries is likely; it is answered before an entry is read, so that it runs past no table. */
static void counted_in_bytes(void)
{
    struct tweedstork_cache_entry *some = memory(ENTRIES * sizeof *some);
    uint8_t *buffer = memory(TEXTS);
    struct tweedstork_slice domain = at_end(0, text("a.example")), id = at_end(1, text("a1")), policy = at_end(2, text(one));
    size_t count = ENTRIES * sizeof *some;

    memset(some, 0, count);
    memset(buffer, 0, TEXTS);
    expect("a count of bytes, store", tweedstork_cache_store(1500, domain.bytes, domain.length, id.bytes, id.length, policy.bytes, policy.length, some, count, buffer, TEXTS).number == 74);
    expect("a count of bytes, lookup", tweedstork_cache_lookup(1500, domain.bytes, domain.length, some, count, buffer, TEXTS).number == 74);
    expect("a count of bytes, table", all_are(0, some, count));
    expect("a count of bytes, texts", all_are(0, buffer, TEXTS));
}

/* Sizes come before all else: clock, domain, id and policy are bad as well. */
static void sizes(void)
{
    sized("63 entries", 74, 63, TEXTS, UINT64_MAX);
    sized("65 entries", 74, 65, TEXTS, UINT64_MAX);
    sized("texts of 65,535 bytes", 74, ENTRIES, TEXTS - 1, UINT64_MAX);
    sized("texts of 65,537 bytes", 74, ENTRIES, TEXTS + 1, UINT64_MAX);
    sized("no entries, as NULL", 74, 0, TEXTS, UINT64_MAX);
    sized("no texts, as NULL", 74, ENTRIES, 0, UINT64_MAX);
    sized("no cache, as NULL", 74, 0, 0, UINT64_MAX);
    sized("a cache's sizes", 62, ENTRIES, TEXTS, UINT64_MAX);
    sized("a cache's sizes, a clock too late by one", 62, ENTRIES, TEXTS, (uint64_t)LATEST + 1);
    sized("a cache's sizes, the latest clock", 60, ENTRIES, TEXTS, LATEST);
}

/* A policy of this length: an unknown field fills it up. */
static struct tweedstork_slice policy_of(size_t length)
{
    static uint8_t bytes[TEXTS];
    struct tweedstork_slice policy = {bytes, length};

    memset(bytes, 'x', length);
    memcpy(bytes, one, sizeof one - 1);
    memcpy(bytes + sizeof one - 1, "note: ", 6);
    return policy;
}

/* The order: one argument after another is mended, and the next refusal comes. */
static void order_of_refusals(void)
{
    static const uint8_t zeros[TEXTS + 1];
    struct tweedstork_slice over = {zeros, TEXTS + 1}, room = {zeros, TEXTS}, long_policy = policy_of(ROOM + 1);

    empty_cache();
    fill(0, ENTRIES);
    refuses_slices("a clock too late", 62, (uint64_t)LATEST + 1, text("a..b"), text("-"), over);
    refuses_slices("a domain that is no name", 60, 1500, text("a..b"), text("-"), over);
    refuses_slices("an id with a hyphen", 80, 1500, text("a.example"), text("-"), over);
    refuses_slices("a policy of 65,537 bytes", 50, 1500, text("a.example"), text("a1"), over);
    refuses_slices("a policy of 65,536 bytes, its first line of no form", 53, 1500, text("a.example"), text("a1"), room);
    refuses("an incomplete policy", 52, 1500, "a.example", "a1", "version: STSv1\n");
    refuses_slices("a text of 1,025 bytes", 71, 1500, text("a.example"), text("a1"), long_policy);
    refuses("a full table", 70, 1500, "a.example", "a1", one);
    finds_nothing("lookup: a clock too late", 62, (uint64_t)LATEST + 1, text("a..b"));
    finds_nothing("lookup: a domain that is no name", 60, 1500, text("a..b"));
    finds_nothing("lookup: a domain without an entry", 72, 1500, text("a.example"));
}

static void empty_arguments(void)
{
    empty_cache();
    refuses("no domain, as NULL", 60, 1000, "", "a1", one);
    refuses("no id, as NULL", 80, 1000, "a.example", "", one);
    refuses("no policy, as NULL", 53, 1000, "a.example", "a1", "");
    finds_nothing("lookup: no domain, as NULL", 60, 1000, text(""));
    finds_nothing("an empty cache", 72, 1000, text("a.example"));
}

/* A policy that begins with one of these lines is refused, whatever its length; the domain's earlier one stays. */
static void policies_that_offend(void)
{
    static const struct {
        uint64_t number;
        const char *line;
    } faults[] = {
        {53, ""}, {53, "mode : none"}, {54, "version: STSv2"}, {55, "mode: Enforce"}, {56, "max_age: -1"}, {57, "mx: *.example.org."},
    };
    static uint8_t bytes[2 * ROOM];

    empty_cache();
    stores("a good policy", 0, 1000, "a.example", "a1", one);
    for (size_t i = 0; i < sizeof faults / sizeof faults[0]; i++) {
        size_t start = strlen(faults[i].line) + 1;
        struct tweedstork_slice policy = {bytes, start + sizeof one - 1}, longer = {bytes, start + ROOM + 1};
        char name[40];
        snprintf(name, sizeof name, "a policy that is refused with %u", (unsigned)faults[i].number);
        memcpy(bytes, faults[i].line, start - 1);
        bytes[start - 1] = '\n';
        memcpy(bytes + start, policy_of(ROOM + 1).bytes, ROOM + 1);
        refuses_slices(name, faults[i].number, 1500, text("a.example"), text("a2"), policy);
        refuses_slices(name, faults[i].number, 1500, text("b.example"), text("b1"), policy);
        refuses_slices(name, faults[i].number, 1500, text("b.example"), text("b1"), longer);
        finds("the earlier policy is found", 0, 1500, "a.example");
    }
}

static void domains(void)
{
    char longest[255];
    struct tweedstork_slice with_zero = {(const uint8_t *)"a.example", 10};

    memset(longest, 'a', 254);
    for (size_t i = 63; i < 253; i += 64)
        longest[i] = '.';
    longest[254] = '\0';
    empty_cache();
    refuses("a domain of 254 bytes", 60, 1000, longest, "a1", one);
    finds_nothing("lookup: a domain of 254 bytes", 60, 1000, text(longest));
    longest[253] = '\0';
    stores("a domain of 253 bytes", 0, 1000, longest, "a1", one);
    finds("a domain of 253 bytes is found", 0, 1000, longest);
    stores("a domain of one byte", 1, 1000, "a", "a2", two);
    finds("a domain of one byte is found", 1, 1000, "a");
    finds_nothing("the beginning of a domain", 72, 1000, text("aa"));
    refuses("a domain with a final dot", 60, 1000, "a.example.", "a1", one);
    refuses_slices("a domain with a zero behind it", 60, 1000, with_zero, text("a1"), text(one));
    finds_nothing("lookup: a domain with a zero behind it", 60, 1000, with_zero);
}

static void ids(void)
{
    struct tweedstork_slice with_zero = {(const uint8_t *)"a1", 3};

    empty_cache();
    stores("an id of one byte", 0, 1000, "a.example", "Z", one);
    finds("an id of one byte is found", 0, 1000, "a.example");
    stores("an id of 32 bytes", 0, 1000, "a.example", "20160831085700Zabcdefghijklmnopq", one);
    finds("an id of 32 bytes is found", 0, 1000, "a.example");
    refuses("an id of 33 bytes", 80, 1000, "a.example", "20160831085700Zabcdefghijklmnopqr", one);
    refuses_slices("an id with a zero behind it", 80, 1000, text("a.example"), with_zero, text(one));
    stores("a short id after a long one", 0, 1000, "a.example", "a1", one);
    finds("a short id after a long one is found", 0, 1000, "a.example");
}

/* A text fills its room at the first entry and at the last, where the buffer ends. */
static void longest_texts(void)
{
    empty_cache();
    stores_slices("a text of 1,024 bytes", 0, 1000, text("a.example"), text("a1"), policy_of(ROOM));
    fill(1, ENTRIES - 1);
    stores_slices("a text of 1,024 bytes at the last entry", ENTRIES - 1, 1000, text("b.example"), text("b1"), policy_of(ROOM));
    finds("the first text", 0, 1000, "a.example");
    finds("the last text", ENTRIES - 1, 1000, "b.example");
    refuses_slices("a text of 1,025 bytes", 71, 1000, text("a.example"), text("a2"), policy_of(ROOM + 1));
}

static void renewals(void)
{
    empty_cache();
    stores("a first domain", 0, 1000, "Example.ORG", "a1", one);
    stores("a second domain", 1, 1001, "example.net", "b1", one);
    finds("whatever the case of its letters", 0, 1500, "eXAMPLE.org");
    stores("its own entry, as it is spelled now; of the old text the end stays", 0, 1002, "example.org", "a2", two);
    finds("the new text", 0, 1500, "Example.org");
    finds("the second domain's", 1, 1500, "EXAMPLE.NET");
    stores("the clock may go back", 0, 999, "example.org", "a3", one);
    finds("the clock went back", 0, 1500, "example.org");
}

static void clocks(void)
{
    empty_cache();
    stores("a policy of 1,000 seconds", 0, 1000, "a.example", "a1", one);
    finds("its last second", 0, 1999, "a.example");
    finds_nothing("stale", 72, 2000, text("a.example"));
    finds("before its fetch", 0, 0, "a.example");
    stores("a policy of no time", 1, 1000, "b.example", "b1", "version: STSv1\nmode: none\nmax_age: 0\n");
    finds_nothing("stale at once", 72, 1000, text("b.example"));
    finds("live before its fetch", 1, 999, "b.example");
    stores("a policy of over a year", 1, 1000, "b.example", "b2", "version: STSv1\nmode: none\nmax_age: 9999999999\n");
    finds("its last second, after a year", 1, 31558599, "b.example");
    finds_nothing("stale after a year", 72, 31558600, text("b.example"));
    stores("the latest fetch", 1, LATEST, "b.example", "b3", one);
    finds("the latest lookup", 1, LATEST, "b.example");
    stores("the first fetch", 1, 0, "b.example", "b4", one);
    finds("the first fetch is found", 1, 999, "b.example");
}

/* A full table: nothing is taken of a live entry, and the first stale one at its first stale second. */
static void full_tables(void)
{
    empty_cache();
    fill(0, ENTRIES);
    stores("fetched earlier", 17, 900, "d17.example", "a2", two);
    stores("fetched earlier, further on", 40, 900, "d40.example", "a2", two);
    refuses("full in its last second", 70, 1899, "late.example", "c1", one);
    stores("its own entry in a full table", 63, 1899, "d63.example", "a3", one);
    stores("the first that is stale", 17, 1900, "late.example", "c1", one);
    finds_nothing("the domain that stood there", 72, 1900, text("d17.example"));
    finds("the last domain", 63, 1900, "d63.example");
    stores("the next that is stale", 40, 1900, "later.example", "c2", one);
    refuses("full again", 70, 1900, "latest.example", "c3", one);
}

static void choice_of_entries(void)
{
    empty_cache();
    fill(0, 4);
    stores("stale soon", 1, 500, "d1.example", "b1", one);
    stores("an empty entry before a stale one", 4, 1600, "a.example", "a1", one);
    stores("its own stale entry before an empty one", 1, 1600, "D1.example", "b2", two);
    memset(&table[2], 0, sizeof table[2]);
    memset(&table[3], 0, sizeof table[3]);
    as_it_is();
    stores("the first of several empty ones", 2, 1600, "b.example", "b1", one);
    stores("its own entry behind an empty one", 4, 1601, "a.example", "a2", two);
    finds("its own entry behind an empty one is found", 4, 1601, "a.example");
}

/* Of a domain's several entries, which no store makes, the first counts. */
static void duplicates(void)
{
    empty_cache();
    fill(0, 4);
    memcpy(&table[1], &table[3], sizeof table[3]);
    table[1].fetched = 500;
    as_it_is();
    finds("the first of two live ones", 1, 1400, "d3.example");
    finds_nothing("a stale one hides a live one", 72, 1500, text("d3.example"));
    stores("the first of the two is replaced", 1, 1500, "d3.example", "b1", two);
    finds("the first is found", 1, 1500, "d3.example");
}

/* ---- damaged entries ---- */

/* Damages an entry, or its text, in the way of this number. Returns what it did; NULL where there is no such way. */
static const char *damage(size_t way, struct tweedstork_cache_entry *entry, uint8_t *policy)
{
    switch (way) {
    case 0: /* with the first byte of the next text a policy, but for its length */
        memcpy(policy, policy_of(ROOM).bytes, ROOM);
        entry->length = ROOM + 1;
        return "a length of 1,025";
    case 1: entry->length = UINT64_MAX; return "the largest length";
    case 2: entry->length += (uint64_t)1 << 32; return "a length above 32 bits";
    case 3: entry->length = 0; return "no text";
    case 4: entry->length = 15; return "an incomplete text";
    case 5: policy[0] = ' '; return "a text with a line of no form";
    case 6: memset(entry->domain, 0, sizeof entry->domain); return "no domain";
    case 7: entry->domain[9] = '.'; return "a domain with a final dot";
    case 8: entry->domain[10] = 'a'; return "a domain with a zero in it";
    case 9: entry->domain[252] = 'a'; return "a domain with a byte at its end";
    case 10: memset(entry->id, 0, sizeof entry->id); return "no id";
    case 11: entry->id[1] = '-'; return "an id with a hyphen";
    case 12: entry->id[0] = 0; return "an id with a zero in it";
    case 13: entry->id[31] = 'a'; return "an id with a byte at its end";
    case 14: entry->fetched = (uint64_t)LATEST + 1; return "a fetch too late";
    case 15: entry->fetched = UINT64_MAX; return "the largest fetch";
    /* at places that both texts have in common */
    case 16: policy[13] = '2'; return "a text with another version";
    case 17: policy[22] = 'N'; return "a text with a bad mode";
    case 18: policy[entry->length - 3] = 'x'; return "a text with a bad max_age";
    case 19: memcpy(policy, "mx: ..........", 14); return "a text with a bad mx";
    default: return NULL;
    }
}

/* A damaged entry counts as empty: it hides no other, is nobody's own, and is taken where all others are live. */
static int damaged(size_t way)
{
    const char *name;

    empty_cache();
    fill(0, 3);
    stores("an entry to damage", 3, 1000, "a.example", "a1", one);
    fill(4, ENTRIES);
    name = damage(way, &table[3], texts + ROOM * 3);
    if (name == NULL)
        return 0;
    as_it_is();
    finds_nothing(name, 72, 1500, text("a.example"));
    stores(name, 3, 1500, "b.example", "b1", two);

    memcpy(&table[1], &table[3], sizeof table[1]);
    memcpy(texts + ROOM, texts + ROOM * 3, ROOM);
    damage(way, &table[1], texts + ROOM);
    memset(&table[0], 0, sizeof table[0]);
    as_it_is();
    finds(name, 3, 1500, "b.example");
    memset(&table[3], 0, sizeof table[3]);
    as_it_is();
    stores(name, 0, 1500, "b.example", "b2", one);
    return 1;
}

static void damaged_entries(void)
{
    size_t ways = 0;

    while (damaged(ways))
        ways++;
    expect("20 ways", ways == 20);
}

/* The header's own struct, all zero from the start. */
static void static_cache(void)
{
    static struct tweedstork_cache cache;
    struct tweedstork_slice domain = text("a.example"), id = text("a1"), policy = text(one);
    struct tweedstork_cache_answer found = tweedstork_cache_lookup(1000, domain.bytes, domain.length, cache.table, TWEEDSTORK_CACHE_ENTRIES, cache.texts, sizeof cache.texts);
    struct tweedstork_write_answer stored;

    expect("a static cache is empty", found.number == TWEEDSTORK_CACHE_NOT_FOUND);
    stored = tweedstork_cache_store(1000, domain.bytes, domain.length, id.bytes, id.length, policy.bytes, policy.length, cache.table, TWEEDSTORK_CACHE_ENTRIES, cache.texts, sizeof cache.texts);
    expect("a static cache takes a policy", stored.number == TWEEDSTORK_DONE);
    found = tweedstork_cache_lookup(1999, domain.bytes, domain.length, cache.table, TWEEDSTORK_CACHE_ENTRIES, cache.texts, sizeof cache.texts);
    expect("a static cache hands it back", found.number == TWEEDSTORK_DONE && found.text_length == policy.length && memcmp(cache.texts + found.text_start, one, policy.length) == 0);
}

int main(void)
{
    table = memory(sizeof wanted_table);
    texts = memory(TEXTS);
    layouts();
    sizes();
    counted_in_bytes();
    order_of_refusals();
    empty_arguments();
    policies_that_offend();
    domains();
    ids();
    longest_texts();
    renewals();
    clocks();
    full_tables();
    choice_of_entries();
    duplicates();
    damaged_entries();
    static_cache();
    printf("cache: %u passed, %u failed\n", passed, failed);
    return failed == 0 ? 0 : 1;
}
