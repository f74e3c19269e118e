/*
 * Publishing as a C program meets it: what the three calls write, what they refuse and in which order, and what they leave as it
 * was. Arguments and output each end where their memory ends. That the calls answer so for every input is the proofs' matter.
 */
#define _DEFAULT_SOURCE /* for memory() of expect.h */
#include <inttypes.h>
#include <stdio.h>
#include <string.h>

#include "expect.h"
#include "tweedstork.h"

#define LONGEST_TXT 45
#define LONGEST_POLICY 4207
#define LONGEST_BODY 65536
#define LONGEST_LIFETIME 31557600
#define MOST_PATTERNS 16

/* RFC 8461, 3.1 and 3.2 */
static const char rfc_id[] = "20160831085700Z", rfc_record[] = "v=STSv1; id=20160831085700Z;";
static const char rfc_policy[] =
    "version: STSv1\nmode: enforce\nmx: mail.example.com\nmx: *.example.net\nmx: backupmx.example.com\nmax_age: 604800\n";
static const char *const rfc_patterns[] = {"mail.example.com", "*.example.net", "backupmx.example.com"};

static const struct tweedstork_slice nothing = {NULL, 0};

static struct tweedstork_slice slice(const void *bytes, size_t length)
{
    struct tweedstork_slice slice = {bytes, length};
    return slice;
}

static struct tweedstork_slice text(const char *s)
{
    return slice(s, strlen(s));
}

static int same(struct tweedstork_slice a, struct tweedstork_slice b)
{
    return a.length == b.length && (a.length == 0 || memcmp(a.bytes, b.bytes, a.length) == 0);
}

/* ---- the memory that is lent ---- */

/* The same bytes at the end of memory, which each argument has for itself; no bytes are NULL. */
static struct tweedstork_slice at_end(size_t argument, struct tweedstork_slice bytes)
{
    static uint8_t *rooms[2];

    if (rooms[argument] == NULL)
        rooms[argument] = memory(2 * LONGEST_BODY);
    if (bytes.length == 0)
        return nothing;
    return slice(memcpy(rooms[argument] + 2 * LONGEST_BODY - bytes.length, bytes.bytes, bytes.length), bytes.length);
}

/* Outputs end where their memory ends; before them, and in them before a call, is one kind of byte, which no text has. */
enum { OUTPUTS = LONGEST_POLICY + 200, FILLED = 0xee };
static uint8_t *outputs;

static uint8_t *output_of(size_t room)
{
    if (outputs == NULL)
        outputs = memory(OUTPUTS);
    memset(outputs, FILLED, OUTPUTS);
    return room == 0 ? NULL : outputs + OUTPUTS - room;
}

/* Stands this text at the front of the output, and is all else as it was? */
static int holds_just(size_t room, struct tweedstork_slice written)
{
    static uint8_t wanted[OUTPUTS];

    memset(wanted, FILLED, OUTPUTS);
    if (written.length > room)
        return 0;
    if (written.length > 0)
        memcpy(wanted + OUTPUTS - room, written.bytes, written.length);
    return memcmp(outputs, wanted, OUTPUTS) == 0;
}

/* ---- the calls ---- */

/* One of the calls, and its arguments but for the output. */
struct call {
    enum { TXT, POLICY, REWRITE } which;
    uint64_t mode, lifetime;
    struct tweedstork_slice text; /* the id, the patterns or the body */
    struct tweedstork_slice lengths;
};

static struct call txt_call(struct tweedstork_slice id)
{
    struct call call = {TXT, 0, 0, id, {NULL, 0}};
    return call;
}

static struct call rewrite_call(struct tweedstork_slice body)
{
    struct call call = {REWRITE, 0, 0, body, {NULL, 0}};
    return call;
}

/* The bytes of the lists are the last call's. */
static struct call policy_call(uint64_t mode, uint64_t lifetime, const char *const *patterns, size_t count)
{
    static uint8_t joined[LONGEST_BODY], lengths[4 * 1000];
    struct call call = {POLICY, mode, lifetime, {joined, 0}, {lengths, 4 * count}};

    for (size_t i = 0; i < count; i++) {
        size_t length = strlen(patterns[i]);
        memcpy(joined + call.text.length, patterns[i], length);
        tweedstork_put_number(lengths, i, (uint32_t)length);
        call.text.length += length;
    }
    return call;
}

static struct tweedstork_write_answer ask(const struct call *call, struct tweedstork_slice first, struct tweedstork_slice lengths, uint8_t *output, size_t room)
{
    if (call->which == TXT)
        return tweedstork_write_txt(first.bytes, first.length, output, room);
    if (call->which == REWRITE)
        return tweedstork_rewrite_policy(first.bytes, first.length, output, room);
    return tweedstork_write_policy(call->mode, call->lifetime, first.bytes, first.length, lengths.bytes, lengths.length, output, room);
}

/* Asks with an output of this size, and sees that the arguments are as they were and the output holds just what it should. */
static void asks(const char *name, const struct call *call, size_t room, uint64_t number, struct tweedstork_slice written)
{
    struct tweedstork_slice first = at_end(0, call->text), lengths = at_end(1, call->lengths);
    uint8_t *output = output_of(room);
    struct tweedstork_write_answer answer = ask(call, first, lengths, output, room);

    if (answer.number != number || answer.length != written.length)
        printf("%s: expected %" PRIu64 " and %zu bytes in an output of %zu, got %" PRIu64 " and %" PRIu64 "\n", name, number, written.length, room, answer.number, answer.length);
    expect(name, answer.number == number && answer.length == written.length);
    expect(name, holds_just(room, written));
    expect(name, same(first, call->text) && same(lengths, call->lengths));
}

/* Refused, whatever the output's size. */
static void refuses(const char *name, uint64_t number, const struct call *call)
{
    static const size_t rooms[] = {0, 1, LONGEST_TXT, LONGEST_POLICY, OUTPUTS};

    for (size_t i = 0; i < sizeof rooms / sizeof rooms[0]; i++)
        asks(name, call, rooms[i], number, nothing);
}

/* The record's text, as the one character string of an RDATA, is read with the same id. */
static void reads_txt(const char *name, struct tweedstork_slice id, struct tweedstork_slice record)
{
    uint8_t rdata[1 + LONGEST_TXT], length[4], output[LONGEST_TXT];
    struct tweedstork_txt_answer answer;

    rdata[0] = (uint8_t)record.length;
    memcpy(rdata + 1, record.bytes, record.length);
    tweedstork_put_number(length, 0, 1 + (uint32_t)record.length);
    answer = tweedstork_read_txt(rdata, 1 + record.length, length, sizeof length, output, record.length);
    expect(name, answer.number == TWEEDSTORK_TXT_ACCEPTED && same(slice(output + answer.id_start, (size_t)answer.id_length), id));
}

/* The policy is read with the same mode, lifetime and number of patterns; written anew it stays, and so do its patterns. */
static void reads_policy(const char *name, const struct call *call, struct tweedstork_slice policy)
{
    struct tweedstork_policy_answer wanted = {7, call->mode, call->lifetime, call->lengths.length / 4, 0, 0};
    struct tweedstork_policy_answer answer = tweedstork_read_policy(policy.bytes, policy.length);
    struct call again = rewrite_call(policy);

    if (call->which == REWRITE)
        wanted = tweedstork_read_policy(call->text.bytes, call->text.length);
    expect(name, memcmp(&answer, &wanted, sizeof answer) == 0);
    asks(name, &again, policy.length, 15, policy);
}

/* Writes this text where there is room for it. */
static void writes(const char *name, const struct call *call, struct tweedstork_slice wanted)
{
    const size_t more[] = {0, 1, 100}, less[] = {wanted.length, wanted.length / 2, 2, 1};

    for (size_t i = 0; i < sizeof more / sizeof more[0]; i++)
        asks(name, call, wanted.length + more[i], 15, wanted);
    for (size_t i = 0; i < sizeof less / sizeof less[0]; i++)
        asks(name, call, wanted.length - less[i], 83, nothing);
    if (call->which == TXT)
        reads_txt(name, call->text, wanted);
    else
        reads_policy(name, call, wanted);
}

/* What is to be written for a mode, a lifetime and patterns. */
static struct tweedstork_slice policy_of(const char *mode, uint64_t lifetime, const char *const *patterns, size_t count)
{
    static char policy[2 * LONGEST_POLICY];
    int length = snprintf(policy, sizeof policy, "version: STSv1\nmode: %s\n", mode);

    for (size_t i = 0; i < count; i++)
        length += snprintf(policy + length, sizeof policy - (size_t)length, "mx: %s\n", patterns[i]);
    length += snprintf(policy + length, sizeof policy - (size_t)length, "max_age: %" PRIu64 "\n", lifetime);
    return slice(policy, (size_t)length);
}

static void writes_policy(const char *name, uint64_t mode, uint64_t lifetime, const char *const *patterns, size_t count)
{
    static const char *const modes[] = {"enforce", "testing", "none"};
    struct call call = policy_call(mode, lifetime, patterns, count);

    writes(name, &call, policy_of(modes[mode - 1], lifetime, patterns, count));
}

/* 81, also where the lifetime is refused too; but the mode comes first. */
static void refuses_patterns(const char *name, struct call call)
{
    refuses(name, 81, &call);
    call.lifetime = UINT64_MAX;
    refuses(name, 81, &call);
    call.mode = 0;
    refuses(name, 67, &call);
}

/* ---- TXT texts ---- */

static int is_letter_or_digit(unsigned byte)
{
    return (byte >= '0' && byte <= '9') || (byte >= 'A' && byte <= 'Z') || (byte >= 'a' && byte <= 'z');
}

/* Written or refused, as it should be. */
static void txt_of(const char *name, struct tweedstork_slice id, int good)
{
    struct call call = txt_call(id);
    char record[LONGEST_TXT + 1];

    if (!good) {
        refuses(name, 80, &call);
        return;
    }
    snprintf(record, sizeof record, "v=STSv1; id=%.*s;", (int)id.length, (const char *)id.bytes);
    writes(name, &call, text(record));
}

static void ids(void)
{
    static const size_t longer[] = {64, 256, 257, 288, 65536, 65537, 65568};
    static uint8_t many[65568];
    struct call rfc = txt_call(text(rfc_id));
    char name[60];

    writes("the record of RFC 8461", &rfc, text(rfc_record));
    txt_of("no id, as NULL", nothing, 0);
    for (size_t length = 1; length <= 40; length++) {
        snprintf(name, sizeof name, "an id of %zu bytes", length);
        txt_of(name, slice("0123456789ABCDEFGHIJKLMNOPqrstuvwxyz0123", length), length <= 32);
    }
    memset(many, 'a', sizeof many);
    for (size_t i = 0; i < sizeof longer / sizeof longer[0]; i++) {
        snprintf(name, sizeof name, "an id of %zu bytes", longer[i]);
        txt_of(name, slice(many, longer[i]), 0);
    }
    txt_of("an id with a zero behind it", slice("a1", 3), 0);
}

/* Every byte, alone and at some places of an id of 32. */
static void bytes_of_ids(void)
{
    static const size_t places[] = {0, 7, 8, 30, 31};

    for (unsigned byte = 0; byte < 256; byte++) {
        uint8_t id[32], alone = (uint8_t)byte;
        char name[60];
        snprintf(name, sizeof name, "an id with the byte %u", byte);
        txt_of(name, slice(&alone, 1), is_letter_or_digit(byte));
        for (size_t i = 0; i < sizeof places / sizeof places[0]; i++) {
            memset(id, 'z', sizeof id);
            id[places[i]] = alone;
            txt_of(name, slice(id, sizeof id), is_letter_or_digit(byte));
        }
    }
}

/* An output that is too short is refused last, one that is long enough never, and 45 bytes always are. */
static void sizes_of_txt_outputs(void)
{
    static const char longest[] = "v=STSv1; id=ABCDEFGHIJKLMNOPQRSTUVWXYZ012345;";
    struct call rfc = txt_call(text(rfc_id)), most = txt_call(slice(longest + 12, 32)), bad = txt_call(text("2016-08-31"));

    expect("the longest text has 45 bytes", strlen(longest) == LONGEST_TXT && TWEEDSTORK_WRITE_TXT_ROOM == LONGEST_TXT);
    for (size_t room = 0; room <= LONGEST_TXT + 1; room++) {
        int fits = room >= strlen(rfc_record), most_fits = room >= LONGEST_TXT;
        asks("the record of RFC 8461, each size", &rfc, room, fits ? 15 : 83, fits ? text(rfc_record) : nothing);
        asks("the longest text, each size", &most, room, most_fits ? 15 : 83, most_fits ? text(longest) : nothing);
        asks("an id that is refused, each size", &bad, room, 80, nothing);
    }
}

/* ---- policies ---- */

static void modes(void)
{
    static const uint64_t none_of_them[] = {0, 4, 256 + TWEEDSTORK_ENFORCE, (uint64_t)1 << 32 | TWEEDSTORK_ENFORCE, (uint64_t)1 << 63 | TWEEDSTORK_NONE, UINT64_MAX};
    struct call call = policy_call(TWEEDSTORK_ENFORCE, 604800, rfc_patterns, 3);

    writes("the policy of RFC 8461", &call, text(rfc_policy));
    writes_policy("enforce", TWEEDSTORK_ENFORCE, 86400, rfc_patterns, 2);
    writes_policy("testing", TWEEDSTORK_TESTING, 86400, rfc_patterns, 2);
    writes_policy("none", TWEEDSTORK_NONE, 86400, rfc_patterns, 2);
    for (size_t i = 0; i < sizeof none_of_them / sizeof none_of_them[0]; i++) {
        call = policy_call(none_of_them[i], 604800, rfc_patterns, 3);
        refuses("a mode that is none", 67, &call);
        call = policy_call(none_of_them[i], UINT64_MAX, NULL, 0);
        refuses("a mode that is none, no pattern and no lifetime", 67, &call);
    }
}

static void counts(void)
{
    static const char *many[1000];
    char name[60];

    for (size_t i = 0; i < 1000; i++)
        many[i] = i % 2 == 0 ? "A.example" : "*.b";
    for (uint64_t mode = TWEEDSTORK_ENFORCE; mode <= TWEEDSTORK_NONE; mode++) {
        for (size_t count = 1; count <= MOST_PATTERNS; count++) {
            snprintf(name, sizeof name, "%zu patterns, mode %u", count, (unsigned)mode);
            writes_policy(name, mode, 1, many, count);
        }
        refuses_patterns("17 patterns", policy_call(mode, 1, many, MOST_PATTERNS + 1));
        refuses_patterns("18 patterns", policy_call(mode, 1, many, MOST_PATTERNS + 2));
        refuses_patterns("272 patterns", policy_call(mode, 1, many, 272));
        refuses_patterns("1,000 patterns", policy_call(mode, 1, many, 1000));
    }
    writes_policy("no pattern, mode none", TWEEDSTORK_NONE, LONGEST_LIFETIME, NULL, 0);
    refuses_patterns("no pattern, mode enforce", policy_call(TWEEDSTORK_ENFORCE, 1, NULL, 0));
    refuses_patterns("no pattern, mode testing", policy_call(TWEEDSTORK_TESTING, 1, NULL, 0));
}

/* A policy of two patterns whose list of lengths is this one instead. */
static struct call with_lengths(const uint32_t *numbers, size_t count, size_t left_over)
{
    static const char *const patterns[] = {"a.example", "b.example"};
    static uint8_t lengths[4 * 20 + 3];
    struct call call = policy_call(TWEEDSTORK_NONE, 1, patterns, 2);

    memset(lengths, 0, sizeof lengths);
    for (size_t i = 0; i < count; i++)
        tweedstork_put_number(lengths, i, numbers[i]);
    call.lengths = slice(lengths, 4 * count + left_over);
    return call;
}

/* The lengths alone say where a pattern ends; they have to sum to the bytes. */
static void lengths_of_patterns(void)
{
    static const uint32_t good[] = {9, 9}, other[] = {7, 11}, one[] = {18};
    static const struct {
        const char *name;
        size_t count;
        uint32_t numbers[3];
    } bad[] = {
        {"a length missing", 1, {9}}, {"one byte less", 2, {9, 8}}, {"one byte more", 2, {9, 10}}, {"one byte more at first", 2, {10, 9}},
        {"a pattern of no bytes at the end", 3, {9, 9, 0}}, {"a pattern of no bytes at first", 2, {0, 18}},
        {"a pattern that ends in a dot", 2, {2, 16}}, {"a pattern that begins with a dot", 2, {10, 8}}, {"no length", 0, {0}},
        {"the largest length", 1, {UINT32_MAX}}, {"lengths that would wrap to the sum", 2, {0x80000009, 0x80000009}},
        {"three that would wrap to the sum", 3, {9, UINT32_MAX, 10}}, {"a length of 256 more", 2, {9, 265}},
        {"a length of 2 to the 24th more", 2, {9 + (1 << 24), 9}}, {"a third beyond the bytes", 3, {9, 9, 9}},
    };
    struct call call = with_lengths(good, 2, 0);

    writes("two patterns", &call, text("version: STSv1\nmode: none\nmx: a.example\nmx: b.example\nmax_age: 1\n"));
    call = with_lengths(other, 2, 0);
    writes("the same bytes cut elsewhere", &call, text("version: STSv1\nmode: none\nmx: a.examp\nmx: leb.example\nmax_age: 1\n"));
    call = with_lengths(one, 1, 0);
    writes("the same bytes as one pattern", &call, text("version: STSv1\nmode: none\nmx: a.exampleb.example\nmax_age: 1\n"));
    for (size_t left_over = 1; left_over < 4; left_over++)
        refuses_patterns("left-over bytes", with_lengths(good, 2, left_over));
    for (size_t i = 0; i < sizeof bad / sizeof bad[0]; i++)
        refuses_patterns(bad[i].name, with_lengths(bad[i].numbers, bad[i].count, 0));
}

/* Lengths without a byte of patterns. */
static void lengths_of_nothing(void)
{
    static const uint32_t lengths[20] = {0};
    struct call call = with_lengths(lengths, 0, 0);

    call.text = nothing;
    writes("neither bytes nor lengths, as NULL", &call, text("version: STSv1\nmode: none\nmax_age: 1\n"));
    for (size_t left_over = 1; left_over < 4; left_over++) {
        call = with_lengths(lengths, 0, left_over);
        call.text = nothing;
        refuses_patterns("left-over bytes alone", call);
    }
    for (size_t count = 1; count < 20; count++) {
        call = with_lengths(lengths, count, 0);
        call.text = nothing;
        refuses_patterns("lengths of zero", call);
    }
}

/* A name of this length, of labels of 63 bytes and a shorter one. */
static const char *name_of(size_t length)
{
    static char name[300];

    for (size_t i = 0; i < length; i++)
        name[i] = i % 64 == 63 ? '.' : 'n';
    name[length] = '\0';
    return name;
}

static const char *wildcard_of(size_t length)
{
    static char pattern[310];

    snprintf(pattern, sizeof pattern, "*.%s", name_of(length - 2));
    return pattern;
}

/* Written or refused, as it should be: alone, beside another, and as the last of 16. */
static void pattern_of(const char *pattern, int good)
{
    const char *patterns[MOST_PATTERNS];
    char name[60];

    snprintf(name, sizeof name, "the pattern %.40s", pattern);
    for (size_t i = 0; i < MOST_PATTERNS; i++)
        patterns[i] = "mx.example";
    patterns[MOST_PATTERNS - 1] = pattern;
    for (size_t before = 0; before < 3; before++) {
        size_t count = before < 2 ? before + 1 : MOST_PATTERNS;
        for (uint64_t mode = TWEEDSTORK_ENFORCE; mode <= TWEEDSTORK_NONE; mode++) {
            if (good)
                writes_policy(name, mode, 1, patterns + MOST_PATTERNS - count, count);
            else
                refuses_patterns(name, policy_call(mode, 1, patterns + MOST_PATTERNS - count, count));
        }
    }
}

static void patterns(void)
{
    static const char *const good[] = {
        "a", "Z", "0", "a.b", "*.a", "*.a.b", "a-b", "a--b.c", "xn--bcher-kva.example", "Mail.EXAMPLE.com", "192.0.2.1", "*.0",
        "abcdefghijklmnopqrstuvwxyzABCDEFGHIJKLMNOPQRSTUVWXYZ0123456789a.b",
    };
    static const char *const bad[] = {
        "", "*", "*.", ".", "..", "*..", "*..a", "a.", ".a", "a..b", "*.a.", "*.a..b", "-a", "a-", "a.-b", "a-.b", "*.-a", "*.a-",
        "*.*.a", "a.*.b", "a.*", "*a.b", "a*.b", "**.a", "*a", "a_b.c", "_a.b", "a b", " a", "a ", "a\t", "a\r", "a\n", "\na",
        "a.example\nmx: b.example", "a.example\nmode: none", "a.example\r\nmx: b.example", "mx: a", "a:b", "a;b", "\"a\"", "a,b", "a/b",
        "\xc3\xa9.example", "a\x7f", "a\xff", "[192.0.2.1]", "abcdefghijklmnopqrstuvwxyzABCDEFGHIJKLMNOPQRSTUVWXYZ0123456789ab.c",
    };

    for (size_t i = 0; i < sizeof good / sizeof good[0]; i++)
        pattern_of(good[i], 1);
    for (size_t i = 0; i < sizeof bad / sizeof bad[0]; i++)
        pattern_of(bad[i], 0);
    pattern_of(name_of(253), 1);
    pattern_of(name_of(254), 0);
    pattern_of(name_of(255), 0);
    pattern_of(wildcard_of(253), 1);
    pattern_of(wildcard_of(254), 1);
    pattern_of(wildcard_of(255), 1);
    pattern_of(wildcard_of(256), 0);
}

/* Every byte but zero at some places of a pattern; and zero, which a C text has not. */
static void bytes_of_patterns(void)
{
    static const char *const zero[] = {"?", "a?", "?a", "a?b.example", "*?a", "*.a?"};

    for (unsigned byte = 1; byte < 256; byte++) {
        int starts = is_letter_or_digit(byte);
        char alone[] = {(char)byte, 0}, within[] = {'a', (char)byte, 'b', 0}, star[] = {'*', (char)byte, 'a', 0}, last[] = {'*', '.', 'a', (char)byte, 0};
        pattern_of(alone, starts);
        pattern_of(within, starts || byte == '-' || byte == '.');
        pattern_of(star, byte == '.');
        pattern_of(last, starts);
    }
    for (size_t i = 0; i < sizeof zero / sizeof zero[0]; i++) {
        struct call call = policy_call(TWEEDSTORK_TESTING, 1, &zero[i], 1);
        uint8_t bytes[20];
        for (size_t at = 0; at < call.text.length; at++)
            bytes[at] = call.text.bytes[at] == '?' ? 0 : call.text.bytes[at];
        call.text.bytes = bytes;
        refuses_patterns("a pattern with a zero byte", call);
    }
}

/* In the shortest decimal form, up to the limit. */
static void lifetimes(void)
{
    static const uint64_t over[] = {
        LONGEST_LIFETIME + 1, 99999999, 100000000, UINT32_MAX, (uint64_t)1 << 32, ((uint64_t)1 << 32) + 604800,
        ((uint64_t)1 << 63) + 1, UINT64_MAX - 1, UINT64_MAX,
    };
    static const uint64_t good[] = {LONGEST_LIFETIME, LONGEST_LIFETIME - 1, 604800, 30000000, 20000001, 10203040, 90807};
    char name[60];

    for (uint64_t power = 1; power <= 10000000; power *= 10) {
        snprintf(name, sizeof name, "a lifetime about %" PRIu64, power);
        writes_policy(name, TWEEDSTORK_ENFORCE, power - 1, rfc_patterns, 3);
        writes_policy(name, TWEEDSTORK_ENFORCE, power, rfc_patterns, 3);
        writes_policy(name, TWEEDSTORK_NONE, power + 1, NULL, 0);
    }
    for (size_t i = 0; i < sizeof good / sizeof good[0]; i++)
        writes_policy("a lifetime", TWEEDSTORK_TESTING, good[i], rfc_patterns, 1);
    for (size_t i = 0; i < sizeof over / sizeof over[0]; i++) {
        struct call call = policy_call(TWEEDSTORK_TESTING, over[i], rfc_patterns, 1);
        refuses("a lifetime too long", 82, &call);
        call = policy_call(TWEEDSTORK_NONE, over[i], NULL, 0);
        refuses("a lifetime too long, mode none", 82, &call);
    }
}

/* Every set of faults: the first of them in the order is the answer. */
static void order_of_policy_refusals(void)
{
    static const char *const bad = "a..b", *const good = "a.example";
    struct tweedstork_slice policy = text("version: STSv1\nmode: testing\nmx: a.example\nmax_age: 1\n");

    for (unsigned faults = 0; faults < 16; faults++) {
        struct call call = policy_call(faults & 1 ? 4 : TWEEDSTORK_TESTING, faults & 4 ? LONGEST_LIFETIME + 1 : 1, faults & 2 ? &bad : &good, 1);
        uint64_t number = faults & 1 ? 67 : faults & 2 ? 81 : faults & 4 ? 82 : faults & 8 ? 83 : 15;
        char name[60];
        snprintf(name, sizeof name, "the faults %s%s%s%s", faults & 1 ? "mode " : "", faults & 2 ? "pattern " : "", faults & 4 ? "lifetime " : "", faults & 8 ? "output" : "");
        asks(name, &call, policy.length - (faults & 8 ? 1 : 0), number, number == 15 ? policy : nothing);
    }
}

/* An output of each size for RFC 8461's, and the longest policy. */
static void sizes_of_policy_outputs(void)
{
    const char *longest[MOST_PATTERNS];
    struct call call = policy_call(TWEEDSTORK_ENFORCE, 604800, rfc_patterns, 3), again = rewrite_call(text(rfc_policy));
    struct tweedstork_slice policy;

    for (size_t room = 0; room <= strlen(rfc_policy) + 8; room++) {
        int fits = room >= strlen(rfc_policy);
        asks("the policy of RFC 8461, each size", &call, room, fits ? 15 : 83, fits ? text(rfc_policy) : nothing);
        asks("the policy of RFC 8461 anew, each size", &again, room, fits ? 15 : 83, fits ? text(rfc_policy) : nothing);
    }
    for (size_t i = 0; i < MOST_PATTERNS; i++)
        longest[i] = wildcard_of(255);
    policy = policy_of("testing", LONGEST_LIFETIME, longest, MOST_PATTERNS);
    expect("the longest policy has 4,207 bytes", policy.length == LONGEST_POLICY && TWEEDSTORK_WRITE_POLICY_ROOM == LONGEST_POLICY);
    writes_policy("the longest policy", TWEEDSTORK_TESTING, LONGEST_LIFETIME, longest, MOST_PATTERNS);
    writes_policy("the longest policy, enforce", TWEEDSTORK_ENFORCE, LONGEST_LIFETIME, longest, MOST_PATTERNS);
}

/* ---- policies written anew ---- */

static void rewrites(const char *name, struct tweedstork_slice body, const char *policy)
{
    struct call call = rewrite_call(body);
    writes(name, &call, text(policy));
}

static void bodies(void)
{
    static const struct {
        const char *name, *body, *policy;
    } anew[] = {
        {"the policy of RFC 8461", rfc_policy, rfc_policy},
        {"CRLF, blanks, another order, other fields, no end of the last line",
         "max_age:\t604800 \t\r\nnote: x: y\r\nmx:   B.example  \r\nmode:testing\nversion: STSv1\r\nmode.x: none\nmx:*.a.Example",
         "version: STSv1\nmode: testing\nmx: B.example\nmx: *.a.Example\nmax_age: 604800\n"},
        {"as short as it can be", "version:STSv1\nmode:none\nmax_age:0", "version: STSv1\nmode: none\nmax_age: 0\n"},
        {"the first version, mode and max_age count", "mode: none\nmax_age: 7\nmode: enforce\nversion: STSv1\nmax_age: 8\nversion: x\nmode: y\nmax_age: z\n",
         "version: STSv1\nmode: none\nmax_age: 7\n"},
        {"mode none with patterns", "version: STSv1\nmax_age: 1\nmx: b\nmode: none\nmx: a\n", "version: STSv1\nmode: none\nmx: b\nmx: a\nmax_age: 1\n"},
        {"the same pattern twice", "version: STSv1\nmax_age: 1\nmx: a\nmx: A\nmx: a\nmode: enforce\n",
         "version: STSv1\nmode: enforce\nmx: a\nmx: A\nmx: a\nmax_age: 1\n"},
        {"fields like ours", "version: STSv1\nMX: a..b\nmx.a: c\nmxx: d\nm: x\nmx: e\nMode: none\nmode: enforce\nmax_age1: 2\nmax_age: 1\nVersion: 2\n",
         "version: STSv1\nmode: enforce\nmx: e\nmax_age: 1\n"},
        {"UTF-8 in another field", "version: STSv1\nmode: none\nx: \xc3\xa9 \xe2\x82\xac\nmax_age: 1\n", "version: STSv1\nmode: none\nmax_age: 1\n"},
        {"leading zeros", "version: STSv1\nmode: none\nmax_age: 0000604800\n", "version: STSv1\nmode: none\nmax_age: 604800\n"},
        {"zeros", "version: STSv1\nmode: none\nmax_age: 0000000000\n", "version: STSv1\nmode: none\nmax_age: 0\n"},
        {"the longest lifetime", "version: STSv1\nmode: none\nmax_age: 31557600\n", "version: STSv1\nmode: none\nmax_age: 31557600\n"},
        {"a lifetime longer by one", "version: STSv1\nmode: none\nmax_age: 31557601\n", "version: STSv1\nmode: none\nmax_age: 31557600\n"},
        {"a lifetime over 32 bits", "version: STSv1\nmode: none\nmax_age: 4294967297\n", "version: STSv1\nmode: none\nmax_age: 31557600\n"},
        {"the longest max_age", "version: STSv1\nmode: none\nmax_age: 9999999999\n", "version: STSv1\nmode: none\nmax_age: 31557600\n"},
    };

    for (size_t i = 0; i < sizeof anew / sizeof anew[0]; i++)
        rewrites(anew[i].name, text(anew[i].body), anew[i].policy);
}

static void refuses_body(const char *name, uint64_t number, struct tweedstork_slice body)
{
    struct call call = rewrite_call(body);

    expect(name, number == 81 || tweedstork_read_policy(body.bytes, body.length).number == number);
    refuses(name, number, &call);
}

/* A line for each of so many patterns, and then these lines. */
static struct tweedstork_slice body_of(size_t patterns, const char *lines)
{
    static char body[2 * LONGEST_BODY];
    int length = 0;

    for (size_t i = 0; i < patterns; i++)
        length += snprintf(body + length, sizeof body - (size_t)length, "mx: %c.example\r\n", (char)('a' + i % 26));
    length += snprintf(body + length, sizeof body - (size_t)length, "%s", lines);
    return slice(body, (size_t)length);
}

/* Each refusal of a reader, by itself and before that of 17 patterns. */
static void bodies_that_offend(void)
{
    static const struct {
        uint64_t number;
        const char *lines;
    } faults[] = {
        {53, "\n"}, {53, "version : STSv1\nmode: x\n"}, {53, "version: STSv1\nmode: none\nmax_age: 1\n\n"}, {53, "version: STSv1\rmode: none\n"},
        {54, "version: STSv2\n\n"}, {54, "mode: none\nmax_age: 1\nversion: stsv1\n"}, {55, "mode: Enforce\nversion: x\n"}, {55, "version: STSv1\nmode: reject\nmax_age: 1\n"},
        {56, "max_age: -1\nmode: x\n"}, {56, "version: STSv1\nmode: none\nmax_age: 12345678901\n"}, {57, "mx: a..b\nmax_age: x\n"},
        {57, "version: STSv1\nmode: none\nmax_age: 1\nmx: a.example.\n"}, {52, "version: STSv1\nmode: enforce\n"}, {52, "version: STSv1\nmax_age: 1\n"},
        {52, "mode: enforce\nmax_age: 1\n"}, {52, "x: y\n"},
    };

    refuses_body("no body, as NULL", 53, nothing);
    refuses_body("enforce without a pattern", 52, text("version: STSv1\nmode: enforce\nmax_age: 1\n"));
    refuses_body("testing without a pattern", 52, text("version: STSv1\nmode: testing\nmax_age: 1\n"));
    for (size_t i = 0; i < sizeof faults / sizeof faults[0]; i++) {
        char name[60];
        snprintf(name, sizeof name, "a body that is refused with %u", (unsigned)faults[i].number);
        refuses_body(name, faults[i].number, text(faults[i].lines));
        refuses_body(name, faults[i].number, body_of(1, faults[i].lines));
        refuses_body(name, faults[i].number, body_of(17, faults[i].lines));
        refuses_body(name, faults[i].number, body_of(4000, faults[i].lines));
    }
}

static void counts_of_mx_lines(void)
{
    static const char *const lines[] = {
        "version: STSv1\nmode: enforce\nmax_age: 1", "version: STSv1\nmode: testing\nmax_age: 1\n", "version: STSv1\nmode: none\nmax_age: 31557601\r\n",
    };
    static const char *const modes[] = {"enforce", "testing", "none"};
    static const char *const names[] = {
        "a.example", "b.example", "c.example", "d.example", "e.example", "f.example", "g.example", "h.example",
        "i.example", "j.example", "k.example", "l.example", "m.example", "n.example", "o.example", "p.example",
    };

    for (size_t i = 0; i < sizeof lines / sizeof lines[0]; i++) {
        for (size_t count = 1; count <= MOST_PATTERNS; count++)
            rewrites("up to 16 mx lines", body_of(count, lines[i]), (const char *)policy_of(modes[i], i == 2 ? LONGEST_LIFETIME : 1, names, count).bytes);
        refuses_body("17 mx lines", 81, body_of(17, lines[i]));
        refuses_body("18 mx lines", 81, body_of(18, lines[i]));
        refuses_body("272 mx lines", 81, body_of(272, lines[i]));
        refuses_body("4,000 mx lines", 81, body_of(4000, lines[i]));
    }
}

/* A body that an unknown field fills up to this length. */
static struct tweedstork_slice filled(const char *lines, size_t length)
{
    static char body[2 * LONGEST_BODY];
    size_t start = strlen(lines);

    memset(body, 'x', sizeof body);
    memcpy(body, lines, start);
    memcpy(body + start, "note: ", 6);
    return slice(body, length);
}

/* Up to 65,536 bytes; one more comes before all other refusals. */
static void lengths_of_bodies(void)
{
    char longest[3 * LONGEST_POLICY];
    const char *patterns[MOST_PATTERNS];
    int length = snprintf(longest, sizeof longest, "mode: enforce\r\nmax_age: 9999999999\r\n");

    rewrites("65,536 bytes", filled(rfc_policy, LONGEST_BODY), rfc_policy);
    rewrites("65,535 bytes", filled(rfc_policy, LONGEST_BODY - 1), rfc_policy);
    refuses_body("65,537 bytes", 50, filled(rfc_policy, LONGEST_BODY + 1));
    refuses_body("65,537 bytes, a line of no form", 50, filled("\n", LONGEST_BODY + 1));
    refuses_body("65,537 bytes, an incomplete policy", 50, filled("", LONGEST_BODY + 1));
    refuses_body("65,536 bytes, an incomplete policy", 52, filled("", LONGEST_BODY));
    refuses_body("131,072 bytes", 50, filled(rfc_policy, 2 * LONGEST_BODY));
    refuses_body("65,537 bytes, 17 mx lines", 50, slice(body_of(4500, "version: STSv1\nmode: none\nmax_age: 1\n").bytes, LONGEST_BODY + 1));
    for (size_t i = 0; i < MOST_PATTERNS; i++) {
        patterns[i] = wildcard_of(255);
        length += snprintf(longest + length, sizeof longest - (size_t)length, "mx:\t %s \r\n", patterns[i]);
    }
    snprintf(longest + length, sizeof longest - (size_t)length, "version: STSv1\r\n");
    rewrites("the longest policy", text(longest), (const char *)policy_of("enforce", LONGEST_LIFETIME, patterns, MOST_PATTERNS).bytes);
    rewrites("the longest policy of 65,536 bytes", filled(longest, LONGEST_BODY), (const char *)policy_of("enforce", LONGEST_LIFETIME, patterns, MOST_PATTERNS).bytes);
}

int main(void)
{
    expect("tweedstork_write_answer has two numbers", sizeof(struct tweedstork_write_answer) == 16 && offsetof(struct tweedstork_write_answer, length) == 8);
    ids();
    bytes_of_ids();
    sizes_of_txt_outputs();
    modes();
    counts();
    lengths_of_patterns();
    lengths_of_nothing();
    patterns();
    bytes_of_patterns();
    lifetimes();
    order_of_policy_refusals();
    sizes_of_policy_outputs();
    bodies();
    bodies_that_offend();
    counts_of_mx_lines();
    lengths_of_bodies();
    printf("publishing: %u passed, %u failed\n", passed, failed);
    return failed == 0 ? 0 : 1;
}
