#include "inputs.h"

#include <stdio.h>
#include <stdlib.h>
#include <string.h>

#include "tweedstork.h"

/* ---- bytes ---- */

/* Memory that lives as long as the program. */
static void *take(size_t size)
{
    void *memory = calloc(1, size == 0 ? 1 : size);

    if (memory == NULL) {
        fprintf(stderr, "bench: out of memory\n");
        exit(1);
    }
    return memory;
}

static struct bytes room(size_t length)
{
    return (struct bytes){take(length), length};
}

static struct bytes text(const char *characters)
{
    struct bytes b = room(strlen(characters));

    memcpy(b.at, characters, b.length);
    return b;
}

static void put_number(struct bytes list, size_t i, size_t number)
{
    for (size_t k = 0; k < 4; k++)
        list.at[4 * i + k] = (uint8_t)(number >> (24 - 8 * k));
}

/* A list of count times the same number. */
static struct bytes list_of(size_t count, size_t number)
{
    struct bytes list = room(4 * count);

    for (size_t i = 0; i < count; i++)
        put_number(list, i, number);
    return list;
}

/* Bytes without a pattern, as digests and keys are. */
static void scramble(struct bytes b, uint32_t seed)
{
    uint32_t x = seed * 2654435761u + 1;

    for (size_t i = 0; i < b.length; i++) {
        x ^= x << 13;
        x ^= x >> 17;
        x ^= x << 5;
        b.at[i] = (uint8_t)(x >> 11);
    }
}

static struct bytes part(struct bytes b, size_t start, size_t length)
{
    return (struct bytes){b.at + start, length};
}

/* The head, then count times the piece. */
static struct bytes repeated(struct bytes head, struct bytes piece, size_t count)
{
    struct bytes b = room(head.length + count * piece.length);

    if (head.length != 0)
        memcpy(b.at, head.at, head.length);
    for (size_t i = 0; i < count; i++)
        memcpy(b.at + head.length + i * piece.length, piece.at, piece.length);
    return b;
}

static struct bytes joined(struct bytes a, struct bytes b)
{
    return repeated(a, b, 1);
}

/* ---- the list of inputs ---- */

static struct input *add(struct inputs *inputs, enum table table, enum call call, const char *name)
{
    struct input *input = &inputs->at[inputs->count++];

    if (inputs->count > MAX_INPUTS) {
        fprintf(stderr, "bench: more than MAX_INPUTS inputs: raise it in inputs.h\n");
        exit(1);
    }
    input->table = table;
    input->call = call;
    input->steps = 1;
    snprintf(input->name, sizeof input->name, "%s", name);
    return input;
}

static struct input *add_counted(struct inputs *inputs, enum table table, enum call call, size_t count)
{
    char name[32];

    snprintf(name, sizeof name, "%zu", count);
    return add(inputs, table, call, name);
}

static void expect(struct input *input, size_t step, uint64_t number, uint64_t second, uint64_t third, uint64_t fourth)
{
    input->expected[step] = (struct answer){{number, second, third, fourth}};
}

/* ---- policies ---- */

static const char policy_head[] = "version: STSv1\nmode: enforce\nmax_age: 604800\n";
static const char small_policy[] = "version: STSv1\nmode: enforce\nmx: *.example.com\nmax_age: 604800\n";
enum { MAX_AGE = 604800, POLICY_HEAD = sizeof policy_head - 1, HEAD_LINES = 3, MX_LINE = 24 };

/* An mx line of a given length, its end included: mx: m000007.example.com */
static void put_mx_line(struct bytes line, size_t number)
{
    static const char start[] = "mx: m", end[] = ".example.com\n";
    char digits[64];
    size_t count = line.length - (sizeof start - 1) - (sizeof end - 1);

    snprintf(digits, sizeof digits, "%0*zu", (int)count, number);
    memcpy(line.at, start, sizeof start - 1);
    memcpy(line.at + sizeof start - 1, digits, count);
    memcpy(line.at + line.length - (sizeof end - 1), end, sizeof end - 1);
}

/* A policy of mx lines, and how many they are. */
static size_t put_mx_policy(struct bytes body)
{
    size_t done = POLICY_HEAD, lines = 0;

    memcpy(body.at, policy_head, POLICY_HEAD);
    while (done < body.length) {
        size_t left = body.length - done, length = left < 2 * MX_LINE ? left : MX_LINE;
        put_mx_line(part(body, done, length), lines++);
        done += length;
    }
    return lines;
}

static void make_mx_policy(struct input *input, size_t size)
{
    size_t lines;

    input->first = room(size);
    lines = put_mx_policy(input->first);
    expect(input, 0, TWEEDSTORK_POLICY_ACCEPTED, TWEEDSTORK_ENFORCE, MAX_AGE, lines);
}

static void make_long_value_policy(struct input *input, size_t size)
{
    size_t start = sizeof small_policy - 1;

    input->first = room(size);
    memcpy(input->first.at, small_policy, start);
    memset(input->first.at + start, 'x', size - start);
    memcpy(input->first.at + start, "note: ", 6);
    input->first.at[size - 1] = '\n';
    expect(input, 0, TWEEDSTORK_POLICY_ACCEPTED, TWEEDSTORK_ENFORCE, MAX_AGE, 1);
}

/* Puts another byte in the place of the last one, so that the last of these lines is the only one that offends: all of them have to be read. */
static void spoil_last_line(struct input *input, uint8_t byte, uint64_t lines, uint64_t number)
{
    struct bytes body = input->first;
    size_t start = body.length - 1;

    body.at[start] = byte;
    while (body.at[start - 1] != '\n')
        start--;
    input->expected[0] = (struct answer){{number, 0, 0, 0, lines, start}};
}

static void add_refused_policies(struct inputs *inputs)
{
    struct input *input = add(inputs, CALLS, READ_POLICY, "policy of 4 lines, 63 bytes, refused at the last line");

    input->first = text(small_policy);
    spoil_last_line(input, 's', 4, TWEEDSTORK_POLICY_BAD_MAX_AGE);
    input = add(inputs, CALLS, READ_POLICY, "policy of 64 KiB, mx lines, refused at the last line");
    make_mx_policy(input, 65536);
    spoil_last_line(input, '.', HEAD_LINES + input->expected[0].fields[3], TWEEDSTORK_POLICY_BAD_MX);
}

static const char short_fields[] = "a:b\nc:de\nf:ghi\nj:klmn\no:pqrst\n";

/* Policies of 4 KB with little to read at a time: values of 1 to 5 letters, and labels of one. */
static void add_short_policies(struct inputs *inputs)
{
    static const char names[] = "mx: a.b\nmx: *.c.d.e\nmx: f.g.h.i.j.k.l.m\n";
    enum { FIELD_PIECES = 134, NAME_PIECES = 100 };
    struct input *input = add(inputs, CALLS, READ_POLICY, "policy of 4 KB, 670 further fields of 4 to 8 bytes");

    input->first = repeated(text(small_policy), text(short_fields), FIELD_PIECES);
    expect(input, 0, TWEEDSTORK_POLICY_ACCEPTED, TWEEDSTORK_ENFORCE, MAX_AGE, 1);
    input = add(inputs, CALLS, READ_POLICY, "policy of 4 KB, 300 mx lines with labels of one letter");
    input->first = repeated(text(policy_head), text(names), NAME_PIECES);
    expect(input, 0, TWEEDSTORK_POLICY_ACCEPTED, TWEEDSTORK_ENFORCE, MAX_AGE, 3 * NAME_PIECES);
}

static void add_policies(struct inputs *inputs)
{
    struct input *input = add(inputs, CALLS, READ_POLICY, "policy of 4 lines, 63 bytes");

    input->first = text(small_policy);
    expect(input, 0, TWEEDSTORK_POLICY_ACCEPTED, TWEEDSTORK_ENFORCE, MAX_AGE, 1);
    make_mx_policy(add(inputs, CALLS, READ_POLICY, "policy of 64 KiB, mx lines"), 65536);
    make_long_value_policy(add(inputs, CALLS, READ_POLICY, "policy of 64 KiB, one long value"), 65536);
    add_short_policies(inputs);
    add_refused_policies(inputs);
    for (size_t size = 64; size <= 65536; size *= 4)
        make_mx_policy(add_counted(inputs, POLICY_BYTES, READ_POLICY, size), size);
}

/* ---- a cache of policies ---- */

/* Domains as a payment company's merchants have them, in the order in which their policies came in. */
static const char *const merchants[] = {
    "harbour-books.example.com", "shop-03.example.net", "teahouse.example", "acme-tools.example.org", "velo.example.net", "shop-11.example.net",
    "flowers.north.example.com", "quarry.example", "blue-heron-wines.example.com", "shop-01.example.net", "maple-furniture.example", "ink.example.org",
    "coffee-02.example.com", "granary.example.net", "old-town-cinema.example.org", "shop-08.example.net", "d.example", "coffee-01.example.com",
    "winterwear.example.net", "lantern.example.com", "opticians.example.org", "shop-02.example.net", "rye-and-salt.example.com", "jewels.example",
    "flowers.south.example.com", "bakery.example.org", "bakery.example.com", "umbrella-hire.example.net", "shop-06.example.net", "keys24.example.com",
    "sailcloth.example", "paper-mill.example.org", "coffee-03.example.com", "yarn.example.net", "shop-10.example.net", "northern-lights.example.com",
    "zoo-tickets.example.org", "ceramics.example", "harbour-cafe.example.com", "shop-04.example.net", "eastside-pharmacy.example", "globe.example.com",
    "print-and-copy.example.net", "shop-07.example.net", "fishmarket.example.org", "vinyl.example.com", "tulip.example.net", "islandferry.example.com",
    "shop-05.example.net", "mountain-huts.example.org", "oak-tables.example.com", "nuts-and-bolts.example", "xylophone.example.net", "pay.a12.example.com",
    "pay.a13.example.com", "shop-09.example.net", "radio.example.org", "brass-band.example.com", "schoolbags.example", "umbra-lamps.example.net",
    "coffee-04.example.com", "lakeside-camping.example", "acme-toys.example.org", "shop-12.outlet.example.net"};

enum {
    ENTRIES = TWEEDSTORK_CACHE_ENTRIES, TEXT_ROOM = TWEEDSTORK_CACHE_TEXT_ROOM, NOWHERE = ENTRIES, HOUR = 3600,
    EVERY_MERCHANT = 1 / (sizeof merchants / sizeof merchants[0] == ENTRIES)
};
static const uint64_t cache_clock = 1700000000;

/* A policy of 63 to 120 bytes, of one of three kinds. */
static struct bytes policy_of(struct bytes domain, size_t kind)
{
    static const char *const forms[] = {"version: STSv1\nmode: enforce\nmx: mail.%.*s\nmax_age: 604800\n",
        "version: STSv1\nmode: enforce\nmx: mx1.%.*s\nmx: mx2.%.*s\nmax_age: 604800\n",
        "version: STSv1\r\nmode: testing\r\nmax_age: 604800\r\nmx: *.%.*s\r\n"};
    char body[256];

    snprintf(body, sizeof body, forms[kind % 3], (int)domain.length, (const char *)domain.at, (int)domain.length, (const char *)domain.at);
    return text(body);
}

static struct bytes id_of(size_t i)
{
    char id[32];

    snprintf(id, sizeof id, i % 2 == 0 ? "20231101%06zuZ" : "16987%zu", i);
    return text(id);
}

static struct tweedstork_cache *copy_of(const struct tweedstork_cache *cache)
{
    return memcpy(take(sizeof *cache), cache, sizeof *cache);
}

static void put_field(uint8_t *field, size_t size, struct bytes content)
{
    memset(field, 0, size);
    memcpy(field, content.at, content.length);
}

/* Writes an entry as a store does. */
static void put_entry(struct tweedstork_cache *cache, size_t place, uint64_t fetched, struct bytes domain, struct bytes id, struct bytes policy)
{
    struct tweedstork_cache_entry *entry = &cache->table[place];

    put_field(entry->domain, sizeof entry->domain, domain);
    put_field(entry->id, sizeof entry->id, id);
    entry->fetched = fetched;
    entry->length = policy.length;
    memcpy(cache->texts + TEXT_ROOM * place, policy.at, policy.length);
}

/* Every entry is live, an hour older than the one before. Dots stand behind each text and in the padding, so that a byte too many is seen. */
static struct tweedstork_cache *full_cache(const struct bytes domains[ENTRIES])
{
    struct tweedstork_cache *cache = take(sizeof *cache);

    memset(cache, '.', sizeof *cache);
    for (size_t i = 0; i < ENTRIES; i++)
        put_entry(cache, i, cache_clock - HOUR * (i + 1), domains[i], id_of(i), policy_of(domains[i], i));
    return cache;
}

static struct input *add_cache_call(
    struct inputs *inputs, enum call call, const char *name, const char *mark, const struct tweedstork_cache *before, struct bytes domain)
{
    char marked[80];

    snprintf(marked, sizeof marked, "%s%s", name, mark);
    struct input *input = add(inputs, CACHE, call, marked);
    input->cache = (struct cache_call){cache_clock, domain, {NULL, 0}, {NULL, 0}, copy_of(before), before, before, 0};
    return input;
}

/* Finds the entry at that place. */
static void add_lookup(
    struct inputs *inputs, const char *name, const char *mark, const struct tweedstork_cache *before, struct bytes domain, size_t place)
{
    struct input *input = add_cache_call(inputs, CACHE_LOOKUP, name, mark, before, domain);
    struct tweedstork_cache_answer answer = {TWEEDSTORK_CACHE_NOT_FOUND, 0, 0, 0, 0, 0, {0}};

    if (place != NOWHERE) {
        const struct tweedstork_cache_entry *entry = &before->table[place];
        answer = (struct tweedstork_cache_answer){TWEEDSTORK_DONE, 0, TEXT_ROOM * place, entry->length, entry->fetched, id_of(place).length, {0}};
        memcpy(answer.id, entry->id, sizeof answer.id);
    }
    expect(input, 0, answer.number, 0, 0, 0);
    input->output = room(sizeof answer);
    input->text = room(sizeof answer);
    memcpy(input->text.at, &answer, sizeof answer);
}

/* Writes the entry at that place. In some row the new domain or id is shorter than the old one, so that missing zeros are seen. */
static void add_store(
    struct inputs *inputs, const char *name, const char *mark, const struct tweedstork_cache *before, struct bytes domain, size_t place)
{
    struct input *input = add_cache_call(inputs, CACHE_STORE, name, mark, before, domain);
    struct tweedstork_cache *after = copy_of(before);

    input->cache.id = text("20231114221320");
    input->cache.policy = policy_of(domain, place + 1);
    put_entry(after, place, cache_clock, domain, input->cache.id, input->cache.policy);
    input->cache.after = after;
    input->cache.place = place;
    expect(input, 0, TWEEDSTORK_DONE, 0, 0, 0);
}

const char lookup_of_none[] = "lookup, none of 64 entries";

static void add_cache_calls(struct inputs *inputs, const char *mark, const struct bytes domains[ENTRIES], struct bytes absent)
{
    enum { LAST = ENTRIES - 1 };
    struct tweedstork_cache *full = full_cache(domains), *last_stale = copy_of(full);

    last_stale->table[LAST].fetched = cache_clock - MAX_AGE;
    add_lookup(inputs, "lookup, the first of 64 entries", mark, full, domains[0], 0);
    add_lookup(inputs, "lookup, the last of 64 entries", mark, full, domains[LAST], LAST);
    add_lookup(inputs, lookup_of_none, mark, full, absent, NOWHERE);
    add_store(inputs, "store, own entry is the first of 64", mark, full, domains[0], 0);
    add_store(inputs, "store, own entry is the last of 64", mark, full, domains[LAST], LAST);
    add_store(inputs, "store, empty table", mark, take(sizeof *full), absent, 0);
    add_store(inputs, "store, 63 live entries, the last is stale", mark, last_stale, absent, LAST);
}

static void add_caches(struct inputs *inputs)
{
    struct bytes domains[ENTRIES];
    char name[32];

    for (size_t i = 0; i < ENTRIES; i++)
        domains[i] = text(merchants[i]);
    /* It is the front of another domain, so that comparing no more than the front is seen. */
    add_cache_calls(inputs, "", domains, text("shop-01.example"));
    for (size_t i = 0; i < ENTRIES; i++) {
        snprintf(name, sizeof name, "shop%02zu.example.com", i);
        domains[i] = text(name);
    }
    add_cache_calls(inputs, ", alike", domains, text("shop64.example.com"));
}

/* ---- TXT records ---- */

static const char rfc_record[] = "v=STSv1; id=20160831085700Z;";
enum { ID_START = 12, ID_LENGTH = 15, TXT_FIELD = 32 };

/* A TXT RDATA: the text in character strings of up to 255 bytes. */
static struct bytes rdata_of(struct bytes joined)
{
    struct bytes rdata = room(joined.length + (joined.length + 254) / 255);
    size_t out = 0;

    for (size_t i = 0; i < joined.length; i += 255) {
        size_t length = joined.length - i < 255 ? joined.length - i : 255;
        rdata.at[out] = (uint8_t)length;
        memcpy(rdata.at + out + 1, joined.at + i, length);
        out += 1 + length;
    }
    return rdata;
}

/* The records one after another; the last is the one that is accepted. */
static void make_txt(struct input *input, const struct bytes *records, size_t count)
{
    size_t done = 0;

    input->second = room(4 * count);
    for (size_t i = 0; i < count; i++) {
        struct bytes rdata = rdata_of(records[i]), both = room(done + rdata.length);
        if (done != 0)
            memcpy(both.at, input->first.at, done);
        memcpy(both.at + done, rdata.at, rdata.length);
        done = both.length;
        input->first = both;
        put_number(input->second, i, rdata.length);
    }
    input->text = records[count - 1];
    input->output = room(input->text.length);
    expect(input, 0, TWEEDSTORK_TXT_ACCEPTED, ID_START, ID_LENGTH, 0);
}

/* The RFC's record with further fields, each of TXT_FIELD bytes with its delimiter and the last up to twice that. */
static struct bytes long_record(size_t size)
{
    struct bytes b = room(size);
    size_t done = sizeof rfc_record - 2, fields = 0;
    char start[32];

    memset(b.at, 'x', size);
    memcpy(b.at, rfc_record, done);
    while (done < size) {
        size_t left = size - done;
        snprintf(start, sizeof start, "; f%06zu=", fields++);
        memcpy(b.at + done, start, strlen(start));
        done += left < 2 * TXT_FIELD ? left : TXT_FIELD;
    }
    return b;
}

static void add_txt(struct inputs *inputs)
{
    static const char *const others[] = {"v=spf1 include:_spf.example.com ~all", "site-verification=1b9Zq0Yx7cV2mT4k8sQ3wE6rU5iO", "MS=ms12345678",
        "v=DMARC1; p=reject; rua=mailto:reports@example.com", "owner: the mail team of example.com"};
    enum { RECORDS = 21, OTHERS = sizeof others / sizeof others[0] };
    struct bytes records[RECORDS], one = text(rfc_record), kib4 = long_record(4096);
    struct bytes front = part(one, 0, one.length - 1), fields = text(";a=b;c=de;f=ghi;j=klmn;o=pqrst;u=vwxyzA;B=CDEFGHI");
    struct bytes short_values = repeated(front, fields, 83);

    for (size_t i = 0; i + 1 < RECORDS; i++)
        records[i] = text(others[i % OTHERS]);
    records[RECORDS - 1] = one;
    make_txt(add(inputs, CALLS, READ_TXT, "TXT record of RFC 8461, 28 bytes"), &one, 1);
    make_txt(add(inputs, CALLS, READ_TXT, "TXT record of 4 KiB, 128 fields"), &kib4, 1);
    make_txt(add(inputs, CALLS, READ_TXT, "TXT record of 4 KB, 581 further fields with values of 1 to 7 letters"), &short_values, 1);
    make_txt(add(inputs, CALLS, READ_TXT, "21 TXT records, the last is MTA-STS's"), records, RECORDS);
    /* An RDATA has at most 65,535 bytes, so the series ends just below 64 KiB. */
    for (size_t size = 64; size <= 65536; size *= 4) {
        struct bytes record = long_record(size < 65000 ? size : 65000);
        make_txt(add_counted(inputs, TXT_BYTES, READ_TXT, record.length), &record, 1);
    }
}

/* ---- publishing ---- */

static const char rfc_policy[] =
    "version: STSv1\nmode: enforce\nmx: mail.example.com\nmx: *.example.net\nmx: backupmx.example.com\nmax_age: 604800\n";
static const char crlf_policy[] =
    "version: STSv1\r\nmode: enforce\r\nmx: mail.example.com\r\nmx: *.example.net\r\nmx: backupmx.example.com\r\nmax_age: 604800\r\n"
    "contact: the mail team of example.com\r\n";
enum { MOST_PATTERNS = 16, LONGEST_PATTERN = 255, LONGEST_LABEL = 63, LONGEST_LIFETIME = 31557600 };

/* This is written, into an output of that length. The dots behind it have to stay. */
static void expect_written(struct input *input, struct bytes written, size_t length)
{
    input->output = room(length);
    input->text = repeated(written, text("."), length - written.length);
    expect(input, 0, TWEEDSTORK_DONE, written.length, 0, 0);
}

/* Nothing is written into an output of that length. */
static void expect_unwritten(struct input *input, uint64_t refusal, size_t length)
{
    input->output = room(length);
    input->text = repeated(room(0), text("."), length);
    expect(input, 0, refusal, 0, 0, 0);
}

static void add_written_txt(struct inputs *inputs)
{
    struct bytes written = text(rfc_record);
    struct input *input = add(inputs, PUBLISHING, WRITE_TXT, "write TXT, id of 15 bytes (RFC 8461)");

    input->first = part(written, ID_START, ID_LENGTH);
    expect_written(input, written, TWEEDSTORK_WRITE_TXT_ROOM);
    input = add(inputs, PUBLISHING, WRITE_TXT, "write TXT, id of 32 bytes");
    written = text("v=STSv1; id=0123456789abcdefghijklmnopqrstUV;");
    input->first = part(written, ID_START, 32);
    expect_written(input, written, TWEEDSTORK_WRITE_TXT_ROOM);
    input = add(inputs, PUBLISHING, WRITE_TXT, "write TXT, id of 32 bytes, refused at the last");
    input->first = text("0123456789abcdefghijklmnopqrstU-");
    expect_unwritten(input, TWEEDSTORK_BAD_ID, TWEEDSTORK_WRITE_TXT_ROOM);
}

/* A star, a dot and a name of labels with 63 letters. */
static struct bytes longest_pattern(uint8_t letter)
{
    struct bytes pattern = room(LONGEST_PATTERN);

    memset(pattern.at, letter, pattern.length);
    pattern.at[0] = '*';
    for (size_t dot = 1; dot < pattern.length; dot += 1 + LONGEST_LABEL)
        pattern.at[dot] = '.';
    return pattern;
}

/* Gives write_policy these patterns. */
static void give_patterns(struct input *input, uint64_t mode, uint64_t lifetime, const struct bytes *patterns, size_t count)
{
    input->mode = mode;
    input->lifetime = lifetime;
    input->second = room(4 * count);
    for (size_t i = 0; i < count; i++) {
        input->first = joined(input->first, patterns[i]);
        put_number(input->second, i, patterns[i].length);
    }
}

static struct input *add_longest_policy(struct inputs *inputs, const char *name, const struct bytes patterns[MOST_PATTERNS])
{
    struct input *input = add(inputs, PUBLISHING, WRITE_POLICY, name);

    give_patterns(input, TWEEDSTORK_ENFORCE, LONGEST_LIFETIME, patterns, MOST_PATTERNS);
    return input;
}

static void add_longest_policies(struct inputs *inputs)
{
    struct bytes patterns[MOST_PATTERNS], written = text("version: STSv1\nmode: enforce\n");

    for (size_t i = 0; i < MOST_PATTERNS; i++) {
        patterns[i] = longest_pattern((uint8_t)('a' + i));
        written = joined(joined(joined(written, text("mx: ")), patterns[i]), text("\n"));
    }
    written = joined(written, text("max_age: 31557600\n"));
    expect_written(add_longest_policy(inputs, "write policy, 16 patterns of 255 bytes", patterns), written, TWEEDSTORK_WRITE_POLICY_ROOM);
    struct input *input = add_longest_policy(inputs, "write policy, 16 patterns of 255 bytes, refused at the last byte", patterns);
    input->first.at[input->first.length - 1] = '-';
    expect_unwritten(input, TWEEDSTORK_BAD_PATTERNS, written.length);
    input = add_longest_policy(inputs, "write policy, 16 patterns of 255 bytes, output a byte too short", patterns);
    expect_unwritten(input, TWEEDSTORK_OUTPUT_SHORT, written.length - 1);
}

static void add_written_policies(struct inputs *inputs)
{
    const struct bytes patterns[] = {text("mail.example.com"), text("*.example.net"), text("backupmx.example.com")};
    struct input *input = add(inputs, PUBLISHING, WRITE_POLICY, "write policy, no pattern, mode none");

    give_patterns(input, TWEEDSTORK_NONE, MAX_AGE, NULL, 0);
    expect_written(input, text("version: STSv1\nmode: none\nmax_age: 604800\n"), TWEEDSTORK_WRITE_POLICY_ROOM);
    input = add(inputs, PUBLISHING, WRITE_POLICY, "write policy, 3 patterns of 13 to 20 bytes (RFC 8461)");
    give_patterns(input, TWEEDSTORK_ENFORCE, MAX_AGE, patterns, sizeof patterns / sizeof patterns[0]);
    expect_written(input, text(rfc_policy), TWEEDSTORK_WRITE_POLICY_ROOM);
    add_longest_policies(inputs);
}

/* A policy with mx lines, before each of which these further fields stand so many times, and its rewriting: into an output that is
   always enough, or of just the length that it takes. */
static void add_mx_rewriting(struct inputs *inputs, const char *name, const char *fields, size_t times, int is_exact)
{
    struct input *input = add(inputs, PUBLISHING, REWRITE_POLICY, name);
    struct bytes line = room(MX_LINE), written = text("version: STSv1\nmode: enforce\n");

    input->first = text(policy_head);
    for (size_t i = 0; i < MOST_PATTERNS; i++) {
        put_mx_line(line, i);
        written = joined(written, line);
        input->first = joined(repeated(input->first, text(fields), times), line);
    }
    written = joined(written, text("max_age: 604800\n"));
    expect_written(input, written, is_exact ? written.length : TWEEDSTORK_WRITE_POLICY_ROOM);
}

const char measured_rewriting[] = "rewrite policy, 16 patterns of 19 bytes, output of just its length";

static void add_rewritten_policies(struct inputs *inputs)
{
    struct input *input = add(inputs, PUBLISHING, REWRITE_POLICY, "rewrite policy, 3 patterns (RFC 8461), CRLF, a further field");

    input->first = text(crlf_policy);
    expect_written(input, text(rfc_policy), TWEEDSTORK_WRITE_POLICY_ROOM);
    add_mx_rewriting(inputs, "rewrite policy, 16 patterns of 19 bytes", "", 0, 0);
    add_mx_rewriting(inputs, measured_rewriting, "", 0, 1);
    add_mx_rewriting(inputs, "rewrite policy, 64 KB, 16 patterns, 10,800 further fields of 4 to 8 bytes", short_fields, 135, 0);
    input = add(inputs, PUBLISHING, REWRITE_POLICY, "rewrite policy, 64 KiB, mx lines, refused as over 16");
    make_mx_policy(input, 65536);
    expect_unwritten(input, TWEEDSTORK_BAD_PATTERNS, TWEEDSTORK_WRITE_POLICY_ROOM);
    input = add(inputs, PUBLISHING, REWRITE_POLICY, "rewrite policy, 4 lines, 63 bytes, refused at the last line");
    input->first = text(small_policy);
    spoil_last_line(input, 's', 4, TWEEDSTORK_POLICY_BAD_MAX_AGE);
    expect_unwritten(input, TWEEDSTORK_POLICY_BAD_MAX_AGE, TWEEDSTORK_WRITE_POLICY_ROOM);
}

static void add_publishing(struct inputs *inputs)
{
    add_written_txt(inputs);
    add_written_policies(inputs);
    add_rewritten_policies(inputs);
}

/* ---- hosts ---- */

enum {
    CERTIFICATE = 1500, KEY_START = 300, KEY_INFO = 294, DIGESTS = 192, KEY_SHA256 = 96, SHA256 = 32, KEY_SHA512 = KEY_SHA256 + SHA256, SHA512 = 64,
    RECORD = 3 + SHA256
};

/* Facts up to an established handshake at TLS 1.3, with certificates and two DNS-IDs; neither TLSA answers nor a policy. */
static struct facts facts_with(size_t certificates)
{
    struct facts f;

    memset(&f, 0, sizeof f);
    f.clock = 1700000000;
    f.next_hop = text("example.com");
    f.expanded_next_hop_given = TWEEDSTORK_NO;
    f.origin = TWEEDSTORK_SECURE_MX;
    f.host = text("mail.example.com");
    f.address = TWEEDSTORK_NO_ALIAS_INSECURE;
    f.policy_given = TWEEDSTORK_NO_POLICY;
    f.starttls = TWEEDSTORK_STARTTLS_OFFERED;
    f.handshake = TWEEDSTORK_ESTABLISHED;
    f.tls_version = TWEEDSTORK_TLS_1_3;
    f.certificates_given = TWEEDSTORK_CERTIFICATES_GIVEN;
    f.certificates = room(certificates * CERTIFICATE);
    scramble(f.certificates, 1);
    f.certificate_lengths = list_of(certificates, CERTIFICATE);
    f.key_places = list_of(2 * certificates, KEY_START);
    for (size_t i = 0; i < certificates; i++)
        put_number(f.key_places, 2 * i + 1, KEY_INFO);
    f.digests = room(certificates * DIGESTS);
    scramble(f.digests, 2);
    f.paths = list_of(certificates, TWEEDSTORK_YES);
    f.trusted_root = TWEEDSTORK_YES;
    f.dns_ids = text("mail.example.commail.example.net");
    f.dns_id_lengths = list_of(2, 16);
    f.common_name_given = TWEEDSTORK_NO;
    return f;
}

/* A secure answer with records usage 1 1 that match nothing. */
static void give_records(struct facts *f, size_t count, uint8_t usage)
{
    f->address = TWEEDSTORK_NO_ALIAS_SECURE;
    f->tlsa_answers = 1;
    f->tlsa[0].result = TWEEDSTORK_TLSA_SECURE;
    f->tlsa[0].lengths = list_of(count, RECORD);
    f->tlsa[0].records = room(count * RECORD);
    scramble(f->tlsa[0].records, 3);
    for (size_t i = 0; i < count; i++)
        memcpy(f->tlsa[0].records.at + i * RECORD, (const uint8_t[]){usage, 1, 1}, 3);
}

/* Lets a record match the key of a certificate. */
static void match(struct facts *f, size_t record, size_t certificate)
{
    memcpy(f->tlsa[0].records.at + record * RECORD + 3, f->digests.at + certificate * DIGESTS + KEY_SHA256, SHA256);
}

/* One more record usage 1 2, whose digest is this. */
static void add_sha512(struct facts *f, uint8_t usage, struct bytes digest)
{
    struct bytes head = room(3);

    memcpy(head.at, (const uint8_t[]){usage, 1, 2}, head.length);
    f->tlsa[0].lengths = joined(f->tlsa[0].lengths, list_of(1, head.length + digest.length));
    f->tlsa[0].records = joined(f->tlsa[0].records, joined(head, digest));
}

static void give_policy(struct facts *f)
{
    f->policy_given = TWEEDSTORK_POLICY;
    f->policy = text(small_policy);
    f->fetched = f->clock - 1000;
}

/* A policy of mx lines that ends in one for the host; the host is the leaf's only name. */
static void give_mx_policy(struct facts *f, size_t size, const char *host)
{
    char last[64];
    size_t length = (size_t)snprintf(last, sizeof last, "mx: %s\n", host);

    give_policy(f);
    f->host = f->dns_ids = text(host);
    f->dns_id_lengths = list_of(1, f->host.length);
    f->policy = room(size);
    put_mx_policy(part(f->policy, 0, size - length));
    memcpy(f->policy.at + size - length, last, length);
}

/* The next-hop is an alias, and the leaf names what it is an alias of: RFC 7672, 3.2.2. */
static void give_alias(struct facts *f)
{
    f->next_hop = text("exchange.example.org");
    f->expanded_next_hop_given = TWEEDSTORK_YES;
    f->expanded_next_hop = text("example.com");
    f->host = text("mx10.example.com");
    f->dns_ids = text("example.com");
    f->dns_id_lengths = list_of(1, f->dns_ids.length);
}

/* One record 3 0 0 that is the leaf itself. */
static void give_whole_leaf(struct facts *f)
{
    give_records(f, 1, 3);
    f->tlsa[0].lengths = list_of(1, 3 + CERTIFICATE);
    f->tlsa[0].records = room(3 + CERTIFICATE);
    f->tlsa[0].records.at[0] = 3;
    memcpy(f->tlsa[0].records.at + 3, f->certificates.at, CERTIFICATE);
}

static struct facts *add_host(struct inputs *inputs, enum table table, const char *name, size_t certificates, uint64_t number, uint64_t questions)
{
    struct input *input = add(inputs, table, JUDGE_HOST, name);

    input->facts[0] = facts_with(certificates);
    expect(input, 0, number, questions, 0, 0);
    return &input->facts[0];
}

const char one_usage_3_record[] = "host, 1 TLSA record 3 1 1, 8 certificates";
const char one_usage_2_record[] = "host, 1 TLSA record 2 1 1, 8 certificates";
const char one_usage_2_record_expanded[] = "host, 1 TLSA record 2 1 1, 8 certificates, named by the expanded next-hop";
const char both_digests[] = "host, TLSA records 3 1 1 and 3 1 2, the SHA-512 matches, 8 certificates";
const char ignored_records[] = "host, 31 TLSA records 3 1 1, then a 3 1 2 that matches nothing, 8 certificates";
const char certificates_beside_old_tls[] = "host, 1 TLSA record 3 1 1, 8 certificates, TLS 1.0";

/* Every SHA-256 record is ignored beside a SHA-512 of its usage and selector, also the one that matches. */
static void add_hosts_with_sha512(struct inputs *inputs)
{
    struct facts *f = add_host(inputs, CALLS, both_digests, 8, TWEEDSTORK_DANE, 1);
    struct bytes other = room(SHA512);

    give_records(f, 1, 3);
    add_sha512(f, 3, part(f->digests, KEY_SHA512, SHA512));
    f = add_host(inputs, CALLS, ignored_records, 8, TWEEDSTORK_DANE_MISMATCH, 1);
    give_records(f, 31, 3);
    match(f, 30, 0);
    scramble(other, 4);
    add_sha512(f, 3, other);
}

static void add_single_hosts(struct inputs *inputs)
{
    struct facts *f = add_host(inputs, CALLS, one_usage_3_record, 8, TWEEDSTORK_DANE, 1);

    give_records(f, 1, 3);
    match(f, 0, 0);
    f = add_host(inputs, CALLS, certificates_beside_old_tls, 8, TWEEDSTORK_OLD_TLS, 1);
    give_records(f, 1, 3);
    match(f, 0, 0);
    f->tls_version = TWEEDSTORK_TLS_1_0;
    f = add_host(inputs, CALLS, "host, 32 TLSA records 3 1 1, 8 certificates", 8, TWEEDSTORK_DANE, 1);
    give_records(f, 32, 3);
    match(f, 31, 0);
    add_hosts_with_sha512(inputs);
    f = add_host(inputs, CALLS, one_usage_2_record, 8, TWEEDSTORK_DANE, 1);
    give_records(f, 1, 2);
    match(f, 0, 7);
    f = add_host(inputs, CALLS, one_usage_2_record_expanded, 8, TWEEDSTORK_DANE, 1);
    give_records(f, 1, 2);
    match(f, 0, 7);
    give_alias(f);
    f = add_host(inputs, CALLS, "host, 32 TLSA records 2 1 1, 8 certificates", 8, TWEEDSTORK_DANE, 1);
    give_records(f, 32, 2);
    match(f, 31, 7);
    f = add_host(inputs, CALLS, "host, 32 TLSA records 2 1 1, 8 certificates, a policy", 8, TWEEDSTORK_DANE_AND_MTA_STS, 1);
    give_records(f, 32, 2);
    match(f, 31, 7);
    give_policy(f);
    f = add_host(inputs, CALLS, "host, policy of 64 KiB, mx lines as long as the host's name, the last is the host", 3, TWEEDSTORK_MTA_STS, 0);
    give_mx_policy(f, 65536, "mailbox.example.com");
    f = add_host(inputs, CALLS, "host, policy of 64 KiB, mx lines of another length, the last is the host", 3, TWEEDSTORK_MTA_STS, 0);
    give_mx_policy(f, 65536, "mail.example.com");
}

/* ---- leaf certificates ---- */

enum {
    BOOLEAN = 0x01, INTEGER = 0x02, BIT_STRING = 0x03, OCTET_STRING = 0x04, NO_VALUE = 0x05, IDENTIFIER = 0x06, UTF8_STRING = 0x0c,
    PRINTABLE_STRING = 0x13, UTC_TIME = 0x17, SEQUENCE = 0x30, SET = 0x31, KEY_IDENTIFIER = 0x80, DNS_NAME = 0x82, URI = 0x86,
    EXPLICIT_0 = 0xa0, EXPLICIT_3 = 0xa3
};

/* The contents of object identifiers. */
#define COMMON_NAME "\x55\x04\x03"
#define COUNTRY "\x55\x04\x06"
#define LOCALITY "\x55\x04\x07"
#define PROVINCE "\x55\x04\x08"
#define ORGANIZATION "\x55\x04\x0a"
#define KEY_USAGE "\x55\x1d\x0f"
#define EXTENDED_KEY_USAGE "\x55\x1d\x25"
#define SERVER_AUTHENTICATION "\x2b\x06\x01\x05\x05\x07\x03\x01"
#define CLIENT_AUTHENTICATION "\x2b\x06\x01\x05\x05\x07\x03\x02"
#define BASIC_CONSTRAINTS "\x55\x1d\x13"
#define SUBJECT_KEY "\x55\x1d\x0e"
#define AUTHORITY_KEY "\x55\x1d\x23"
#define AUTHORITY_ACCESS "\x2b\x06\x01\x05\x05\x07\x01\x01"
#define OCSP "\x2b\x06\x01\x05\x05\x07\x30\x01"
#define ISSUERS "\x2b\x06\x01\x05\x05\x07\x30\x02"
#define SUBJECT_ALT_NAME "\x55\x1d\x11"
#define POLICIES "\x55\x1d\x20"
#define DOMAIN_VALIDATED "\x67\x81\x0c\x01\x02\x01"
#define REVOCATION_LISTS "\x55\x1d\x1f"
#define SIGNED_TIMESTAMPS "\x2b\x06\x01\x04\x01\xd6\x79\x02\x04\x02"
#define FURTHER_EXTENSION "\x2b\x06\x01\x04\x01\x82\x37\x15\x07"
#define CURVE_KEY "\x2a\x86\x48\xce\x3d\x02\x01"
#define P_256 "\x2a\x86\x48\xce\x3d\x03\x01\x07"
#define ECDSA_SHA256 "\x2a\x86\x48\xce\x3d\x04\x03\x02"
#define RSA_KEY "\x2a\x86\x48\x86\xf7\x0d\x01\x01\x01"
#define RSA_SHA256 "\x2a\x86\x48\x86\xf7\x0d\x01\x01\x0b"

/* An element of DER with up to 65,535 bytes of contents. */
static struct bytes element(uint8_t tag, struct bytes contents)
{
    size_t length = contents.length;
    struct bytes header = room(length < 0x80 ? 2 : length < 0x100 ? 3 : 4);

    header.at[0] = tag;
    if (header.length > 2)
        header.at[1] = (uint8_t)(0x80 + header.length - 2);
    if (header.length > 3)
        header.at[2] = (uint8_t)(length >> 8);
    header.at[header.length - 1] = (uint8_t)length;
    return joined(header, contents);
}

static struct bytes holding(uint8_t tag, const struct bytes *elements, size_t count)
{
    struct bytes contents = room(0);

    for (size_t i = 0; i < count; i++)
        contents = joined(contents, elements[i]);
    return element(tag, contents);
}
#define HOLDING(tag, ...) holding(tag, (const struct bytes[]){__VA_ARGS__}, sizeof (const struct bytes[]){__VA_ARGS__} / sizeof(struct bytes))

/* An element with bytes without a pattern but for the first: of a bit string no bit is left over, and a number is not negative. */
static struct bytes random_element(uint8_t tag, size_t length)
{
    struct bytes contents = room(length);

    scramble(contents, (uint32_t)length);
    contents.at[0] = tag == BIT_STRING ? 0 : 5;
    return element(tag, contents);
}

static struct bytes identifier(const char *contents)
{
    return element(IDENTIFIER, text(contents));
}

static struct bytes attribute(const char *type, uint8_t tag, const char *value)
{
    return HOLDING(SET, HOLDING(SEQUENCE, identifier(type), element(tag, text(value))));
}

static struct bytes extension(const char *type, struct bytes value)
{
    return HOLDING(SEQUENCE, identifier(type), element(OCTET_STRING, value));
}

static struct bytes critical_extension(const char *type, struct bytes value)
{
    return HOLDING(SEQUENCE, identifier(type), element(BOOLEAN, text("\xff")), element(OCTET_STRING, value));
}

/* What differs from leaf to leaf. */
struct leaf {
    int is_rsa;           /* the key is RSA's, of 2,048 bits, else of the curve P-256 */
    struct bytes dns_ids; /* their elements */
    size_t further;       /* further extensions, of 40 bytes */
};

static const char leaf_name[] = "mail.example.com";

static struct bytes subject_of(const struct leaf *leaf)
{
    struct bytes common_name = attribute(COMMON_NAME, UTF8_STRING, leaf_name);

    if (!leaf->is_rsa)
        return HOLDING(SEQUENCE, common_name);
    return HOLDING(SEQUENCE, attribute(COUNTRY, PRINTABLE_STRING, "NL"), attribute(PROVINCE, UTF8_STRING, "Utrecht"),
                   attribute(LOCALITY, UTF8_STRING, "Utrecht"), attribute(ORGANIZATION, UTF8_STRING, "Example Payments"), common_name);
}

static struct bytes key_info_of(const struct leaf *leaf)
{
    if (leaf->is_rsa)
        return HOLDING(SEQUENCE, HOLDING(SEQUENCE, identifier(RSA_KEY), element(NO_VALUE, room(0))), random_element(BIT_STRING, 271));
    return HOLDING(SEQUENCE, HOLDING(SEQUENCE, identifier(CURVE_KEY), identifier(P_256)), random_element(BIT_STRING, 66));
}

static struct bytes extensions_of(const struct leaf *leaf)
{
    struct bytes ocsp = HOLDING(SEQUENCE, identifier(OCSP), element(URI, text("http://o.ca.example")));
    struct bytes issuers = HOLDING(SEQUENCE, identifier(ISSUERS), element(URI, text("http://i.ca.example/")));
    struct bytes list = element(EXPLICIT_0, element(EXPLICIT_0, element(URI, text("http://c.ca.example/57.crl"))));
    struct bytes further = extension(FURTHER_EXTENSION, random_element(OCTET_STRING, 23));

    return HOLDING(SEQUENCE,
                   critical_extension(KEY_USAGE, random_element(BIT_STRING, 2)),
                   extension(EXTENDED_KEY_USAGE, HOLDING(SEQUENCE, identifier(SERVER_AUTHENTICATION), identifier(CLIENT_AUTHENTICATION))),
                   critical_extension(BASIC_CONSTRAINTS, element(SEQUENCE, room(0))),
                   extension(SUBJECT_KEY, random_element(OCTET_STRING, 20)),
                   extension(AUTHORITY_KEY, element(SEQUENCE, random_element(KEY_IDENTIFIER, 20))),
                   extension(AUTHORITY_ACCESS, HOLDING(SEQUENCE, ocsp, issuers)),
                   extension(SUBJECT_ALT_NAME, element(SEQUENCE, leaf->dns_ids)),
                   extension(POLICIES, element(SEQUENCE, element(SEQUENCE, identifier(DOMAIN_VALIDATED)))),
                   extension(REVOCATION_LISTS, element(SEQUENCE, element(SEQUENCE, list))),
                   extension(SIGNED_TIMESTAMPS, random_element(OCTET_STRING, 119)),
                   repeated(room(0), further, leaf->further));
}

static struct bytes leaf_of(const struct leaf *leaf)
{
    struct bytes ecdsa = HOLDING(SEQUENCE, identifier(ECDSA_SHA256)), rsa = HOLDING(SEQUENCE, identifier(RSA_SHA256), element(NO_VALUE, room(0)));
    struct bytes algorithm = leaf->is_rsa ? rsa : ecdsa, version = element(EXPLICIT_0, element(INTEGER, text("\x02")));
    struct bytes issuer = HOLDING(SEQUENCE, attribute(COUNTRY, PRINTABLE_STRING, "US"), attribute(ORGANIZATION, PRINTABLE_STRING, "Example Trust"),
                                  attribute(COMMON_NAME, PRINTABLE_STRING, "E5"));
    struct bytes validity = HOLDING(SEQUENCE, element(UTC_TIME, text("231101000000Z")), element(UTC_TIME, text("240130000000Z")));
    struct bytes to_be_signed = HOLDING(SEQUENCE, version, random_element(INTEGER, 18), algorithm, issuer, validity,
                                        subject_of(leaf), key_info_of(leaf), element(EXPLICIT_3, extensions_of(leaf)));

    return HOLDING(SEQUENCE, to_be_signed, algorithm, random_element(BIT_STRING, leaf->is_rsa ? 257 : 72));
}

/* So many DNS-IDs: "mxNN" with this end, and as the last of them leaf_name. */
static struct bytes leaf_dns_ids(size_t count, const char *end)
{
    struct bytes ids = room(0);
    char name[96];

    for (size_t i = 0; i + 1 < count; i++) {
        snprintf(name, sizeof name, "mx%02zu%s", i, end);
        ids = joined(ids, element(DNS_NAME, text(name)));
    }
    return count == 0 ? ids : joined(ids, element(DNS_NAME, text(leaf_name)));
}

/* The offset of the first place where the piece stands. It is there. */
static size_t offset_of(struct bytes b, struct bytes piece)
{
    size_t i = 0;

    while (memcmp(b.at + i, piece.at, piece.length) != 0)
        i++;
    return i;
}

enum { PLACE = 16, NAME_HEADER = 2 };

/* The places of the DNS-IDs in the certificate, as read_certificate writes them. */
static struct bytes places_of(struct bytes certificate, struct bytes dns_ids)
{
    struct bytes places = room(0);
    size_t start = offset_of(certificate, dns_ids);

    for (size_t i = 0; i < dns_ids.length; i += NAME_HEADER + dns_ids.at[i + 1]) {
        struct bytes place = room(PLACE);
        put_number(place, 1, start + i + NAME_HEADER);
        put_number(place, 3, dns_ids.at[i + 1]);
        places = joined(places, place);
    }
    return places;
}

/* This is answered and written, into places of that length. The dots behind it have to stay. */
static void expect_read(struct input *input, const struct tweedstork_certificate_answer *answer, struct bytes written, size_t length)
{
    struct bytes a = room(sizeof *answer);

    memcpy(a.at, answer, a.length);
    input->output = room(length + a.length);
    input->text = joined(repeated(written, text("."), length - written.length), a);
    expect(input, 0, answer->number, 0, 0, 0);
}

static void expect_unread(struct input *input, uint64_t refusal, uint64_t offset, size_t length)
{
    const struct tweedstork_certificate_answer answer = {refusal, 0, offset, 0, 0, 0, 0, 0, 0};

    expect_read(input, &answer, room(0), length);
}

static void make_reading(struct input *input, const struct leaf *leaf)
{
    struct bytes certificate = leaf_of(leaf), key = key_info_of(leaf), name = element(UTF8_STRING, text(leaf_name));
    struct bytes places = places_of(certificate, leaf->dns_ids);
    const struct tweedstork_certificate_answer answer = {
        TWEEDSTORK_DONE, places.length, 0, offset_of(certificate, key), key.length, places.length / PLACE,
        TWEEDSTORK_YES, offset_of(certificate, name) + NAME_HEADER, name.length - NAME_HEADER};

    input->first = certificate;
    expect_read(input, &answer, places, TWEEDSTORK_PLACES_ROOM);
}

static struct input *add_reading(struct inputs *inputs, const char *name, const struct leaf *leaf)
{
    struct input *input = add(inputs, READING, READ_CERTIFICATE, name);

    make_reading(input, leaf);
    return input;
}

static const char long_end[] = ".division-07.all-merchants-of-the-payment-house.example.com";

const char many_dns_ids_by_leaf[] = "a policy, 64 DNS-IDs, the last is the host, leaf read";
const char refused_at_the_first_byte[] = "leaf of 0.8 KB, refused at its first byte";
const char refused_at_the_last_element[] = "leaf of 0.8 KB, refused at its last element";

static void add_refused_readings(struct inputs *inputs)
{
    struct leaf leaf = {0, leaf_dns_ids(2, ".example.com"), 0};
    struct input *input = add_reading(inputs, refused_at_the_first_byte, &leaf);

    input->first.at[0] = SET;
    expect_unread(input, TWEEDSTORK_CERTIFICATE_MALFORMED, 0, TWEEDSTORK_PLACES_ROOM);
    input = add_reading(inputs, refused_at_the_last_element, &leaf);
    size_t last = input->first.length - (NAME_HEADER + 72);
    input->first.at[last] = OCTET_STRING;
    expect_unread(input, TWEEDSTORK_CERTIFICATE_MALFORMED, last, TWEEDSTORK_PLACES_ROOM);
    leaf.dns_ids = leaf_dns_ids(64, long_end);
    input = add_reading(inputs, "leaf of 5 KB, 64 DNS-IDs, places a byte too short", &leaf);
    expect_unread(input, TWEEDSTORK_OUTPUT_SHORT, 0, TWEEDSTORK_PLACES_ROOM - 1);
    leaf.dns_ids = leaf_dns_ids(65, long_end);
    input = add(inputs, READING, READ_CERTIFICATE, "leaf of 5 KB, 65 DNS-IDs, refused as over 64");
    input->first = leaf_of(&leaf);
    expect_unread(input, TWEEDSTORK_MANY_DNS_IDS, 0, TWEEDSTORK_PLACES_ROOM);
}

static void add_readings(struct inputs *inputs)
{
    struct leaf leaf = {0, leaf_dns_ids(1, ""), 0};

    add_reading(inputs, "leaf of 0.8 KB, 1 DNS-ID", &leaf);
    leaf.dns_ids = leaf_dns_ids(2, ".example.com");
    add_reading(inputs, "leaf of 0.8 KB, 2 DNS-IDs", &leaf);
    leaf.is_rsa = 1;
    add_reading(inputs, "leaf of 1.3 KB, RSA key, subject of 5 attributes, 2 DNS-IDs", &leaf);
    leaf = (struct leaf){0, leaf_dns_ids(8, long_end), 0};
    add_reading(inputs, "leaf of 1.2 KB, 8 DNS-IDs", &leaf);
    leaf.dns_ids = leaf_dns_ids(64, long_end);
    add_reading(inputs, "leaf of 5 KB, 64 DNS-IDs", &leaf);
    leaf = (struct leaf){0, leaf_dns_ids(2, ".example.com"), 100};
    add_reading(inputs, "leaf of 4.8 KB, 2 DNS-IDs, 100 further extensions", &leaf);
    add_refused_readings(inputs);
}

/* ---- hosts by their leaf ---- */

/* The leaf in the place of the first certificate, with its names and the place of its key. */
static void give_leaf(struct facts *f, const struct leaf *leaf)
{
    struct bytes certificate = leaf_of(leaf), key = key_info_of(leaf), ids = leaf->dns_ids;

    f->certificates = joined(certificate, part(f->certificates, CERTIFICATE, f->certificates.length - CERTIFICATE));
    put_number(f->certificate_lengths, 0, certificate.length);
    put_number(f->key_places, 0, offset_of(certificate, key));
    put_number(f->key_places, 1, key.length);
    f->dns_ids = f->dns_id_lengths = room(0);
    for (size_t i = 0; i < ids.length; i += NAME_HEADER + ids.at[i + 1]) {
        f->dns_ids = joined(f->dns_ids, part(ids, i + NAME_HEADER, ids.at[i + 1]));
        f->dns_id_lengths = joined(f->dns_id_lengths, list_of(1, ids.at[i + 1]));
    }
    f->common_name_given = TWEEDSTORK_YES;
    f->common_name = text(leaf_name);
}

static struct facts facts_with_leaf(size_t dns_ids)
{
    struct leaf leaf = {0, leaf_dns_ids(dns_ids, ".example.com"), 0};
    struct facts f = facts_with(3);

    give_leaf(&f, &leaf);
    return f;
}

/* One record 3 1 0 that is the leaf's key info, of the curve P-256. */
static void give_leaf_key(struct facts *f)
{
    struct leaf leaf = {0, room(0), 0};
    struct bytes record = joined(text("\x03\x01."), key_info_of(&leaf));

    record.at[2] = 0;
    give_records(f, 1, 3);
    f->tlsa[0].lengths = list_of(1, record.length);
    f->tlsa[0].records = record;
}

/* The same host by its leaf and by what the relay says of the leaf. */
static void add_judgements(struct inputs *inputs, const char *name, const struct facts *f, uint64_t number, uint64_t questions)
{
    char marked[96];

    snprintf(marked, sizeof marked, "%s, leaf read", name);
    struct input *input = add(inputs, LEAF_READ, JUDGE_HOST_CERTIFICATE, marked);
    input->facts[0] = *f;
    expect(input, 0, number, questions, 0, 0);
    snprintf(marked, sizeof marked, "%s, names given", name);
    input = add(inputs, NAMES_GIVEN, JUDGE_HOST, marked);
    input->facts[0] = *f;
    expect(input, 0, number, questions, 0, 0);
}

static void add_leaves(struct inputs *inputs)
{
    struct facts f = facts_with_leaf(2);

    give_records(&f, 1, 3);
    match(&f, 0, 0);
    add_judgements(inputs, "1 TLSA record 3 1 1, 2 DNS-IDs", &f, TWEEDSTORK_DANE, 1);
    give_leaf_key(&f);
    add_judgements(inputs, "1 TLSA record 3 1 0 (91 bytes), 2 DNS-IDs", &f, TWEEDSTORK_DANE, 1);
    give_records(&f, 1, 2);
    match(&f, 0, 1);
    add_judgements(inputs, "1 TLSA record 2 1 1, 2 DNS-IDs", &f, TWEEDSTORK_DANE, 1);
    give_policy(&f);
    add_judgements(inputs, "1 TLSA record 2 1 1, 2 DNS-IDs, a policy", &f, TWEEDSTORK_DANE_AND_MTA_STS, 1);
    f = facts_with_leaf(2);
    give_policy(&f);
    add_judgements(inputs, "a policy, 2 DNS-IDs", &f, TWEEDSTORK_MTA_STS, 0);
    f = facts_with_leaf(64);
    give_policy(&f);
    add_judgements(inputs, "a policy, 64 DNS-IDs, the last is the host", &f, TWEEDSTORK_MTA_STS, 0);
    f.certificates_given = TWEEDSTORK_CERTIFICATES_NOT_GIVEN;
    add_judgements(inputs, "a policy, no certificates given yet", &f, TWEEDSTORK_ASK_CERTIFICATES, 0);
    f = facts_with_leaf(2);
    give_policy(&f);
    struct input *input = add(inputs, LEAF_READ, JUDGE_HOST_CERTIFICATE, "a policy, 2 DNS-IDs, the leaf refused at its first byte");
    f.certificates.at[0] = SET;
    input->facts[0] = f;
    expect(input, 0, TWEEDSTORK_CERTIFICATE_MALFORMED, 0, 0, 0);
}

/* ---- whole decisions ---- */

/* Makes the calls of a relay out of the last one: each has one fact less than the next, back to none learnt. Where the last has no certificates, none are asked for. */
static void make_decision(struct input *input, struct facts f, uint64_t verdict)
{
    uint64_t questions = f.tlsa_answers;
    size_t step = input->steps = 3 + questions + (f.certificates_given == TWEEDSTORK_CERTIFICATES_GIVEN);

    input->facts[--step] = f;
    expect(input, step, verdict, questions, 0, 0);
    if (f.certificates_given == TWEEDSTORK_CERTIFICATES_GIVEN) {
        f.certificates_given = TWEEDSTORK_CERTIFICATES_NOT_GIVEN;
        input->facts[--step] = f;
        expect(input, step, TWEEDSTORK_ASK_CERTIFICATES, questions, 0, 0);
    }
    f.handshake = TWEEDSTORK_HANDSHAKE_NOT_GIVEN;
    input->facts[--step] = f;
    expect(input, step, TWEEDSTORK_ASK_HANDSHAKE, questions, 0, 0);
    f.starttls = TWEEDSTORK_STARTTLS_NOT_GIVEN;
    input->facts[--step] = f;
    expect(input, step, TWEEDSTORK_ASK_STARTTLS, questions, 0, 0);
    if (questions == 0)
        return;
    f.tlsa_answers = 0;
    input->facts[--step] = f;
    expect(input, step, TWEEDSTORK_ASK_TLSA_HOST, 0, 0, 0);
}

const char dane_decision_by_leaf[] = "DANE: 5 calls, 2 records 3 1 1, 3 certificates, leaf of 0.8 KB read";
const char mta_sts_decision_by_leaf[] = "MTA-STS: 4 calls, policy of 63 bytes, 3 certificates, leaf of 0.8 KB read";
const char whole_certificate_decision[] = "DANE: 5 calls, 1 record 3 0 0 (1.5 KB), 3 certificates";

static void add_decisions(struct inputs *inputs)
{
    struct facts f = facts_with(3);

    give_records(&f, 2, 3);
    match(&f, 1, 0);
    make_decision(add(inputs, DECISIONS, JUDGE_HOST, "DANE: 5 calls, 2 records 3 1 1, 3 certificates"), f, TWEEDSTORK_DANE);
    f = facts_with(3);
    give_policy(&f);
    make_decision(add(inputs, DECISIONS, JUDGE_HOST, "MTA-STS: 4 calls, policy of 63 bytes, 3 certificates"), f, TWEEDSTORK_MTA_STS);
    f = facts_with(3);
    give_whole_leaf(&f);
    make_decision(add(inputs, DECISIONS, JUDGE_HOST, whole_certificate_decision), f, TWEEDSTORK_DANE);
    f = facts_with(3);
    give_records(&f, 2, 3);
    f.tls_version = TWEEDSTORK_TLS_1_0;
    f.certificates_given = TWEEDSTORK_CERTIFICATES_NOT_GIVEN;
    make_decision(add(inputs, DECISIONS, JUDGE_HOST, "DANE: 4 calls, 2 records 3 1 1, TLS 1.0 (next host)"), f, TWEEDSTORK_OLD_TLS);
    f = facts_with_leaf(2);
    give_records(&f, 2, 3);
    match(&f, 1, 0);
    make_decision(add(inputs, DECISIONS, JUDGE_HOST_CERTIFICATE, dane_decision_by_leaf), f, TWEEDSTORK_DANE);
    f = facts_with_leaf(2);
    give_policy(&f);
    make_decision(add(inputs, DECISIONS, JUDGE_HOST_CERTIFICATE, mta_sts_decision_by_leaf), f, TWEEDSTORK_MTA_STS);
}

/* ---- growth ---- */

static void add_record_series(struct inputs *inputs)
{
    for (size_t count = 1; count <= 32; count *= 2) {
        struct input *input = add_counted(inputs, LAST_RECORD_MATCHES, JUDGE_HOST, count);
        input->facts[0] = facts_with(8);
        give_records(&input->facts[0], count, 2);
        match(&input->facts[0], count - 1, 7);
        expect(input, 0, TWEEDSTORK_DANE, 1, 0, 0);
    }
    for (size_t count = 1; count <= 32; count *= 2) {
        struct input *input = add_counted(inputs, NO_RECORD_MATCHES, JUDGE_HOST, count);
        input->facts[0] = facts_with(8);
        give_records(&input->facts[0], count, 2);
        expect(input, 0, TWEEDSTORK_DANE_MISMATCH, 1, 0, 0);
    }
}

/* A record 2 1 1 that matches none, so that every certificate after the leaf has to be compared, in whatever order records are tried. */
static void add_certificate_series(struct inputs *inputs)
{
    for (size_t count = 1; count <= 8; count *= 2) {
        struct input *input = add_counted(inputs, CERTIFICATES, JUDGE_HOST, count);
        input->facts[0] = facts_with(count);
        give_records(&input->facts[0], 1, 2);
        expect(input, 0, TWEEDSTORK_DANE_MISMATCH, 1, 0, 0);
    }
}

/* The leaf's names: "mxNN" with this end. */
static void give_dns_ids(struct facts *f, size_t count, const char *end)
{
    size_t length = strlen("mxNN") + strlen(end);
    char name[32];

    f->dns_ids = room(count * length);
    f->dns_id_lengths = list_of(count, length);
    for (size_t i = 0; i < count; i++) {
        snprintf(name, sizeof name, "mx%02zu%s", i, end);
        memcpy(f->dns_ids.at + i * length, name, length);
    }
}

static void add_dns_id_series(struct inputs *inputs)
{
    for (size_t count = 1; count <= 64; count *= 2) {
        struct input *input = add_counted(inputs, DNS_IDS, JUDGE_HOST, count);
        struct facts *f = &input->facts[0];
        *f = facts_with(3);
        give_policy(f);
        give_dns_ids(f, count, ".example.com");
        memcpy(f->dns_ids.at + (count - 1) * f->host.length, f->host.at, f->host.length);
        expect(input, 0, TWEEDSTORK_MTA_STS, 0, 0, 0);
    }
    for (size_t count = 1; count <= 64; count *= 2) {
        struct input *input = add_counted(inputs, OTHER_DNS_IDS, JUDGE_HOST, count);
        struct facts *f = &input->facts[0];
        *f = facts_with(3);
        give_records(f, 1, 2);
        match(f, 0, 1);
        give_dns_ids(f, count, "-backup.example.com");
        expect(input, 0, TWEEDSTORK_DANE_MISMATCH, 1, 0, 0);
    }
}

static void add_leaf_series(struct inputs *inputs)
{
    for (size_t count = 1; count <= 64; count *= 2) {
        struct leaf leaf = {0, leaf_dns_ids(count, ".example.com"), 0};
        make_reading(add_counted(inputs, LEAF_DNS_IDS, READ_CERTIFICATE, count), &leaf);
    }
    for (size_t further = 4; further <= 1024; further *= 4) {
        struct leaf leaf = {0, leaf_dns_ids(2, ".example.com"), further};
        make_reading(add_counted(inputs, LEAF_BYTES, READ_CERTIFICATE, leaf_of(&leaf).length), &leaf);
    }
}

/* The hosts stand in the reverse of their order; all are "next hosts" but the one that comes last. */
static void add_host_series(struct inputs *inputs)
{
    for (size_t count = 1; count <= 32; count *= 2) {
        struct input *input = add_counted(inputs, HOSTS, NEXT_HOST, count);
        input->first = list_of(count, 0);
        input->second = list_of(count, TWEEDSTORK_TLSA_FAILED);
        for (size_t i = 0; i < count; i++)
            put_number(input->first, i, 10 * (count - i));
        put_number(input->second, 0, TWEEDSTORK_NOT_TRIED);
        expect(input, 0, TWEEDSTORK_TRY_HOST, 0, 0, 0);
    }
}

struct inputs *build_inputs(void)
{
    struct inputs *inputs = take(sizeof *inputs);

    add_policies(inputs);
    add_caches(inputs);
    add_txt(inputs);
    add_publishing(inputs);
    add_single_hosts(inputs);
    add_readings(inputs);
    add_leaves(inputs);
    add_decisions(inputs);
    add_record_series(inputs);
    add_certificate_series(inputs);
    add_dns_id_series(inputs);
    add_leaf_series(inputs);
    add_host_series(inputs);
    return inputs;
}

const struct input *first_input(const struct inputs *inputs, enum table table)
{
    size_t i = 0;

    while (inputs->at[i].table != table)
        i++;
    return &inputs->at[i];
}
