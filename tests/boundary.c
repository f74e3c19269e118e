/*
 * The boundary as a C program meets it: layouts, empty slices as NULL, slices that end where their memory ends, and
 * memory left as it was. What each call answers is the proofs' matter, and the cases' of crates/vectors; here a few of
 * document 01's are asked once more through C. The cache calls are in tests/cache.c, those that publish in tests/publish.c, those
 * that read a certificate in tests/reader.c and tests/leaf.c.
 */
#define _DEFAULT_SOURCE /* for memory() of expect.h */
#include <inttypes.h>
#include <stdio.h>
#include <string.h>

#include "expect.h"
#include "tweedstork.h"

/* A list of numbers in memory of just its size. */
struct list {
    uint8_t *bytes;
    size_t length;
};

static struct list list_of(const uint32_t *numbers, size_t count, size_t left_over)
{
    struct list list = {NULL, count * 4 + left_over};
    if (list.length == 0)
        return list;
    list.bytes = memory(list.length);
    for (size_t i = 0; i < count; i++)
        tweedstork_put_number(list.bytes, i, numbers[i]);
    memset(list.bytes + count * 4, 0, left_over);
    return list;
}

/* Asks, and sees that the lists are as they were. */
static void next_host(const char *name, uint64_t mx_lookup, struct list preferences, struct list verdicts, uint64_t number, uint64_t position)
{
    struct list before[2] = {list_of(NULL, 0, preferences.length), list_of(NULL, 0, verdicts.length)};
    if (preferences.length != 0)
        memcpy(before[0].bytes, preferences.bytes, preferences.length);
    if (verdicts.length != 0)
        memcpy(before[1].bytes, verdicts.bytes, verdicts.length);
    struct tweedstork_message_answer answer = tweedstork_next_host(mx_lookup, preferences.bytes, preferences.length, verdicts.bytes, verdicts.length);
    if (answer.number != number || answer.position != position)
        printf("%s: expected %" PRIu64 " %" PRIu64 ", got %" PRIu64 " %" PRIu64 "\n", name, number, position, answer.number, answer.position);
    expect(name, answer.number == number && answer.position == position);
    expect(name, preferences.length == 0 || memcmp(before[0].bytes, preferences.bytes, preferences.length) == 0);
    expect(name, verdicts.length == 0 || memcmp(before[1].bytes, verdicts.bytes, verdicts.length) == 0);
}

static void message_hosts(void)
{
    uint32_t preferences[33], verdicts[33];
    for (uint32_t i = 0; i < 33; i++) {
        preferences[i] = 100 - i;
        verdicts[i] = TWEEDSTORK_TLSA_FAILED;
    }
    verdicts[17] = TWEEDSTORK_NOT_TRIED;
    verdicts[3] = TWEEDSTORK_DANE;
    next_host("31 hosts, the later of two has the lower preference", TWEEDSTORK_MX_ANSWERED, list_of(preferences, 31, 0), list_of(verdicts, 31, 0), TWEEDSTORK_TRY_HOST, 17);
    next_host("32 hosts", TWEEDSTORK_MX_ANSWERED, list_of(preferences, 32, 0), list_of(verdicts, 32, 0), TWEEDSTORK_TRY_HOST, 17);
    next_host("33 hosts", TWEEDSTORK_MX_ANSWERED, list_of(preferences, 33, 0), list_of(verdicts, 33, 0), TWEEDSTORK_BAD_HOST_LIST, 0);
    for (size_t left_over = 1; left_over < 4; left_over++) {
        next_host("preferences with left-over bytes", TWEEDSTORK_MX_ANSWERED, list_of(preferences, 31, left_over), list_of(verdicts, 31, 0), TWEEDSTORK_BAD_HOST_LIST, 0);
        next_host("verdicts with left-over bytes", TWEEDSTORK_MX_ANSWERED, list_of(preferences, 31, 0), list_of(verdicts, 31, left_over), TWEEDSTORK_BAD_HOST_LIST, 0);
    }
    next_host("lists of unequal length", TWEEDSTORK_MX_ANSWERED, list_of(preferences, 31, 0), list_of(verdicts, 30, 0), TWEEDSTORK_BAD_HOST_LIST, 0);
    next_host("no host, as NULL", TWEEDSTORK_MX_ANSWERED, list_of(NULL, 0, 0), list_of(NULL, 0, 0), TWEEDSTORK_BAD_HOST_LIST, 0);
    next_host("lookup failed, NULL", TWEEDSTORK_MX_FAILED, list_of(NULL, 0, 0), list_of(NULL, 0, 0), TWEEDSTORK_MX_LOOKUP_FAILED, 0);
    next_host("lookup failed, malformed lists", TWEEDSTORK_MX_FAILED, list_of(preferences, 33, 1), list_of(verdicts, 1, 3), TWEEDSTORK_MX_LOOKUP_FAILED, 0);
    next_host("zero is no code", 0, list_of(preferences, 31, 0), list_of(verdicts, 31, 0), TWEEDSTORK_BAD_CODE, 0);
    next_host("a code above 32 bits", (uint64_t)1 << 32 | TWEEDSTORK_MX_ANSWERED, list_of(preferences, 31, 0), list_of(verdicts, 31, 0), TWEEDSTORK_BAD_CODE, 0);
    next_host("the largest number is no code", UINT64_MAX, list_of(NULL, 0, 0), list_of(NULL, 0, 0), TWEEDSTORK_BAD_CODE, 0);
}

/* Which numbers a host's verdict may be: 9, 1 to 5, or a "next host", 20 to 28 (documents 01 and 02, No. 6). */
static void host_verdicts(void)
{
    static const uint32_t preferences[2] = {10, 20};
    for (uint32_t number = 0; number <= 100; number++) {
        int is_delivery = number >= 1 && number <= 5, is_next_host = number >= 20 && number <= 28, is_verdict = is_delivery || is_next_host || number == 9;
        uint32_t verdicts[2] = {number, TWEEDSTORK_NOT_TRIED};
        char name[40];
        snprintf(name, sizeof name, "%u in a list of verdicts", (unsigned)number);
        next_host(name, TWEEDSTORK_MX_ANSWERED, list_of(preferences, 1, 0), list_of(verdicts, 1, 0), is_delivery ? number : is_next_host ? 31 : is_verdict ? 8 : 63, 0);
        next_host(name, TWEEDSTORK_MX_ANSWERED, list_of(preferences, 2, 0), list_of(verdicts, 2, 0), is_delivery ? number : is_verdict ? 8 : 63, is_next_host);
    }
}

/* Asks with an output of just its size, and sees what is in it afterwards. */
static void read_txt(const char *name, const char *rdatas, size_t rdatas_length, struct list lengths, const char *before, uint64_t number, uint64_t start, uint64_t length, const char *after)
{
    size_t room = strlen(before);
    uint8_t *output = room == 0 ? NULL : memory(room), *wire = rdatas_length == 0 ? NULL : memory(rdatas_length);
    if (room != 0)
        memcpy(output, before, room);
    if (rdatas_length != 0)
        memcpy(wire, rdatas, rdatas_length);
    struct tweedstork_txt_answer answer = tweedstork_read_txt(wire, rdatas_length, lengths.bytes, lengths.length, output, room);
    expect(name, answer.number == number && answer.id_start == start && answer.id_length == length);
    expect(name, room == 0 || memcmp(output, after, room) == 0);
}

static void txt_records(void)
{
    static const char record[] = "\x1cv=STSv1; id=20160831085700Z;";
    uint32_t size = 29;
    read_txt("the record of RFC 8461", record, 29, list_of(&size, 1, 0), "..............................", TWEEDSTORK_TXT_ACCEPTED, 12, 15, "v=STSv1; id=20160831085700Z;..");
    read_txt("an output of just its size", record, 29, list_of(&size, 1, 0), "............................", TWEEDSTORK_TXT_ACCEPTED, 12, 15, "v=STSv1; id=20160831085700Z;");
    read_txt("an output of one byte less", record, 29, list_of(&size, 1, 0), "...........................", TWEEDSTORK_TXT_OUTPUT_SHORT, 0, 0, "...........................");
    read_txt("no output, as NULL", record, 29, list_of(&size, 1, 0), "", TWEEDSTORK_TXT_OUTPUT_SHORT, 0, 0, "");
    read_txt("left-over bytes", record, 29, list_of(&size, 1, 1), "....", TWEEDSTORK_TXT_WIRE_FORM, 0, 0, "....");
    read_txt("nothing at all, as NULL", NULL, 0, list_of(NULL, 0, 0), "", TWEEDSTORK_TXT_NO_CANDIDATE, 0, 0, "");
}

/* Asks, and sees that the body is as it was. A body of NULL is so many letters. */
static void read_policy(const char *name, const char *body, size_t length, struct tweedstork_policy_answer wanted)
{
    uint8_t *bytes = length == 0 ? NULL : memory(length), *before = length == 0 ? NULL : memory(length);
    if (length != 0 && body != NULL)
        memcpy(bytes, body, length);
    else if (length != 0)
        memset(bytes, 'a', length);
    if (length != 0)
        memcpy(before, bytes, length);
    struct tweedstork_policy_answer answer = tweedstork_read_policy(bytes, length);
    if (answer.number != wanted.number || answer.line != wanted.line || answer.offset != wanted.offset)
        printf("%s: expected %" PRIu64 " at line %" PRIu64 ", offset %" PRIu64 ", got %" PRIu64 " at line %" PRIu64 ", offset %" PRIu64 "\n", name, wanted.number, wanted.line, wanted.offset, answer.number, answer.line, answer.offset);
    expect(name, memcmp(&answer, &wanted, sizeof answer) == 0);
    expect(name, length == 0 || memcmp(before, bytes, length) == 0);
}

/* Without a line: accepted with these, or 50 or 52. */
static void reads(const char *name, const char *body, size_t length, uint64_t number, uint64_t mode, uint64_t lifetime, uint64_t mx_count)
{
    struct tweedstork_policy_answer wanted = {number, mode, lifetime, mx_count, 0, 0};
    read_policy(name, body, length, wanted);
}

/* Refused with 53 to 57 for this line, which begins at this offset. */
static void offends(const char *name, const char *body, size_t length, uint64_t number, uint64_t line, uint64_t offset)
{
    struct tweedstork_policy_answer wanted = {number, 0, 0, 0, line, offset};
    read_policy(name, body, length, wanted);
}

static void policies(void)
{
    static const char body[] = "version: STSv1\r\nmode: enforce\r\nmx: mail.example.com\r\nmx: *.example.net\r\nmax_age: 604800";
    reads("a policy", body, sizeof body - 1, TWEEDSTORK_POLICY_ACCEPTED, TWEEDSTORK_ENFORCE, 604800, 2);
    reads("a policy without its last line", body, sizeof body - 1 - 15, TWEEDSTORK_POLICY_INCOMPLETE, 0, 0, 0);
    offends("a policy cut inside a line end", body, sizeof body - 1 - 16, TWEEDSTORK_POLICY_BAD_LINE, 4, 53);
    offends("a policy cut before a value", body, sizeof body - 1 - 6, TWEEDSTORK_POLICY_BAD_LINE, 5, 72);
    offends("a policy cut after a star and a dot", body, 59, TWEEDSTORK_POLICY_BAD_MX, 4, 53);
    offends("a policy cut inside its mode", body, 25, TWEEDSTORK_POLICY_BAD_MODE, 2, 16);
    offends("a policy cut inside its version", body, 13, TWEEDSTORK_POLICY_BAD_VERSION, 1, 0);
    offends("no bytes, as NULL", NULL, 0, TWEEDSTORK_POLICY_BAD_LINE, 1, 0);
    offends("65,536 bytes", NULL, 65536, TWEEDSTORK_POLICY_BAD_LINE, 1, 0);
    reads("65,537 bytes", NULL, 65537, TWEEDSTORK_POLICY_LONG, 0, 0, 0);
}

/* The first line that offends, counted from 1, and the offset where it begins. */
static void policy_faults(void)
{
    static const struct {
        const char *name, *body;
        uint64_t number, line, offset;
    } faults[] = {
        {"an empty line", "version: STSv1\n\nmode: none\nmax_age: 1\n", TWEEDSTORK_POLICY_BAD_LINE, 2, 15},
        {"an empty line at the end", "version: STSv1\nmode: none\nmax_age: 1\n\n", TWEEDSTORK_POLICY_BAD_LINE, 4, 37},
        {"a lone CR, which ends no line", "version: STSv1\nmode: none\rmax_age: 1\n", TWEEDSTORK_POLICY_BAD_LINE, 2, 15},
        {"a blank before the colon, in the last line", "version: STSv1\nmode: none\nmax_age : 1", TWEEDSTORK_POLICY_BAD_LINE, 3, 26},
        {"form before content", "version: STS\tv2\nmode: none\nmax_age: 1\n", TWEEDSTORK_POLICY_BAD_LINE, 1, 0},
        {"a bad version", "mode: none\nversion: STSv2\nmax_age: 1\n", TWEEDSTORK_POLICY_BAD_VERSION, 2, 11},
        {"a bad mode, after CRLF", "version: STSv1\r\nmode: None\r\nmax_age: 1\r\n", TWEEDSTORK_POLICY_BAD_MODE, 2, 16},
        {"a bad max_age, in the last line", "version: STSv1\nmode: none\nmax_age: 12345678901", TWEEDSTORK_POLICY_BAD_MAX_AGE, 3, 26},
        {"a bad mx, after a good one", "version: STSv1\nmx: a.example\nmx: b.example.\n", TWEEDSTORK_POLICY_BAD_MX, 3, 29},
        {"the first of several faults", "x: y\nmx: *\nmax_age: x\nmode: x\nversion: x\n\n", TWEEDSTORK_POLICY_BAD_MX, 2, 5},
        {"a second version's content is not looked at", "version: STSv1\nversion: STSv2\nmode: x\n", TWEEDSTORK_POLICY_BAD_MODE, 3, 30},
    };
    for (size_t i = 0; i < sizeof faults / sizeof faults[0]; i++)
        offends(faults[i].name, faults[i].body, strlen(faults[i].body), faults[i].number, faults[i].line, faults[i].offset);
}

/* As many lines as 65,536 bytes have room for. */
static void policies_of_many_lines(void)
{
    static char body[65536];
    for (size_t i = 0; i < sizeof body; i += 4)
        memcpy(body + i, "a:b\n", 4);
    reads("16,384 lines", body, sizeof body, TWEEDSTORK_POLICY_INCOMPLETE, 0, 0, 0);
    body[sizeof body - 4] = ' ';
    offends("the last of 16,384 lines", body, sizeof body, TWEEDSTORK_POLICY_BAD_LINE, 16384, 65532);
    memcpy(body + 4000, "mx:a..b\n", 8);
    offends("line 1,001 of many", body, sizeof body, TWEEDSTORK_POLICY_BAD_MX, 1001, 4000);
}

/*
 * A host with an insecure address, no policy and nothing learnt; what isn't supplied is NULL. Without a leaf the call that would read
 * it answers the same.
 */
static struct tweedstork_host_answer judge(uint64_t clock, const char *host, uint64_t address, uint64_t starttls, uint64_t certificates_given)
{
    size_t length = strlen(host);
    uint8_t *name = memory(length);
    struct tweedstork_host_answer answer, by_leaf;
    memcpy(name, host, length);
    answer = tweedstork_judge_host(
        clock, name, length, TWEEDSTORK_NO, NULL, 0, TWEEDSTORK_NO_MX, name, length, address, NULL, 0, TWEEDSTORK_NO_POLICY, NULL, 0, UINT64_MAX,
        0, UINT64_MAX, NULL, 0, NULL, 0, UINT64_MAX, NULL, 0, NULL, 0, starttls, TWEEDSTORK_HANDSHAKE_NOT_GIVEN, UINT64_MAX, certificates_given,
        NULL, 0, NULL, 0, NULL, 0, NULL, 0, NULL, 0, TWEEDSTORK_NO, NULL, 0, NULL, 0, TWEEDSTORK_NO, NULL, 0);
    by_leaf = tweedstork_judge_host_certificate(
        clock, name, length, TWEEDSTORK_NO, NULL, 0, TWEEDSTORK_NO_MX, name, length, address, NULL, 0, TWEEDSTORK_NO_POLICY, NULL, 0, UINT64_MAX,
        0, UINT64_MAX, NULL, 0, NULL, 0, UINT64_MAX, NULL, 0, NULL, 0, starttls, TWEEDSTORK_HANDSHAKE_NOT_GIVEN, UINT64_MAX, certificates_given,
        NULL, 0, NULL, 0, NULL, 0, NULL, 0, NULL, 0, TWEEDSTORK_NO);
    expect("the call that reads the leaf, without one", answer.number == by_leaf.number && answer.tlsa_questions == by_leaf.tlsa_questions);
    return answer;
}

static void judged(const char *name, struct tweedstork_host_answer answer, uint64_t number, uint64_t questions)
{
    expect(name, answer.number == number && answer.tlsa_questions == questions);
}

static void hosts(void)
{
    judged("STARTTLS is asked for", judge(0, "a.example", TWEEDSTORK_NO_ALIAS_INSECURE, 0, 0), TWEEDSTORK_ASK_STARTTLS, 0);
    judged("cleartext", judge(0, "a.example", TWEEDSTORK_NO_ALIAS_INSECURE, TWEEDSTORK_STARTTLS_NOT_OFFERED, 0), TWEEDSTORK_CLEARTEXT, 0);
    judged("TLSA is asked for", judge(0, "a.example", TWEEDSTORK_NO_ALIAS_SECURE, 0, 0), TWEEDSTORK_ASK_TLSA_HOST, 0);
    judged("address lookup failed", judge(0, "a.example", TWEEDSTORK_ADDRESS_LOOKUP_FAILED, 0, 0), TWEEDSTORK_ADDRESS_FAILED, 0);
    judged("an empty host name", judge(0, "", TWEEDSTORK_NO_ALIAS_INSECURE, 0, 0), TWEEDSTORK_BAD_NEXT_HOP, 0);
    judged("the latest clock", judge(253402300799, "a.example", TWEEDSTORK_ADDRESS_ABSENT, 0, 0), TWEEDSTORK_NO_ADDRESS, 0);
    judged("a clock too late", judge(253402300800, "a.example", TWEEDSTORK_ADDRESS_ABSENT, 0, 0), TWEEDSTORK_BAD_CLOCK, 0);
    judged("a code above 32 bits", judge(0, "a.example", (uint64_t)1 << 32 | TWEEDSTORK_ADDRESS_ABSENT, 0, 0), TWEEDSTORK_BAD_CODE, 0);
    judged("certificates before STARTTLS", judge(0, "a.example", TWEEDSTORK_NO_ALIAS_INSECURE, 0, TWEEDSTORK_CERTIFICATES_GIVEN), TWEEDSTORK_FACT_MISSING, 0);
    judged("certificates beside not offered", judge(0, "a.example", TWEEDSTORK_NO_ALIAS_INSECURE, TWEEDSTORK_STARTTLS_NOT_OFFERED, TWEEDSTORK_CERTIFICATES_GIVEN), TWEEDSTORK_CLEARTEXT, 0);
}

static struct tweedstork_slice text(const char *s)
{
    struct tweedstork_slice slice = {(const uint8_t *)s, strlen(s)};
    return slice;
}

/* What is known of a host before its handshake, with a policy (or NULL) that was fetched at 1,000 and ends at 605,800. */
static struct tweedstork_host_facts known(uint64_t address, const char *policy)
{
    struct tweedstork_host_facts facts;

    memset(&facts, 0, sizeof facts);
    facts.clock = 605799;
    facts.next_hop = text("example.com");
    facts.expanded_next_hop_given = TWEEDSTORK_NO;
    facts.origin = TWEEDSTORK_INSECURE_MX;
    facts.host = text("mail.example.com");
    facts.address = address;
    facts.expanded = text("mx.example.net");
    facts.policy_given = policy == NULL ? TWEEDSTORK_NO_POLICY : TWEEDSTORK_POLICY;
    facts.policy = text(policy == NULL ? "" : policy);
    facts.fetched = 1000;
    return facts;
}

/* A further TLSA answer with one record, of 255 bytes at most. */
static void learn_tlsa(struct tweedstork_host_facts *facts, uint64_t result, const char *record, uint8_t length, uint8_t lengths[4])
{
    struct tweedstork_tlsa_answer *answer = &facts->tlsa[facts->tlsa_answers++];

    tweedstork_put_number(lengths, 0, length);
    answer->result = result;
    answer->lengths.bytes = lengths;
    answer->lengths.length = 4;
    answer->records.bytes = (const uint8_t *)record;
    answer->records.length = length;
}

/* The same, with one TLSA answer learnt. */
static struct tweedstork_host_facts known_with(uint64_t address, const char *policy, uint64_t result, const char *record, uint8_t length, uint8_t lengths[4])
{
    struct tweedstork_host_facts facts = known(address, policy);

    learn_tlsa(&facts, result, record, length, lengths);
    return facts;
}

/*
 * Do certificates matter, whatever else is given of the handshake? A server that shows none fails just where they do; so does one
 * with old TLS, whatever it shows.
 */
static void matters(const char *name, struct tweedstork_host_facts facts, int wanted)
{
    static const uint64_t versions[] = {0, TWEEDSTORK_TLS_1_1, TWEEDSTORK_TLS_1_2, TWEEDSTORK_TLS_1_3, 65536, UINT64_MAX};
    uint64_t shows_none, is_old;

    expect(name, tweedstork_certificates_matter(&facts) == wanted);
    facts.starttls = TWEEDSTORK_STARTTLS_NOT_OFFERED;
    facts.handshake = UINT64_MAX;
    facts.certificates_given = UINT64_MAX;
    expect(name, tweedstork_certificates_matter(&facts) == wanted);
    facts.starttls = TWEEDSTORK_STARTTLS_OFFERED;
    facts.handshake = TWEEDSTORK_ESTABLISHED;
    facts.certificates_given = TWEEDSTORK_CERTIFICATES_GIVEN;
    facts.trusted_root = facts.common_name_given = TWEEDSTORK_NO;
    for (size_t i = 0; i < sizeof versions / sizeof versions[0]; i++) {
        facts.tls_version = versions[i];
        expect(name, tweedstork_certificates_matter(&facts) == wanted);
    }
    facts.tls_version = TWEEDSTORK_TLS_1_2;
    shows_none = tweedstork_judge_facts(&facts).number;
    expect(name, wanted == (shows_none == TWEEDSTORK_DANE_MISMATCH || shows_none == TWEEDSTORK_MTA_STS_MISMATCH || shows_none == TWEEDSTORK_FACT_MISSING));
    facts.tls_version = TWEEDSTORK_TLS_1_1;
    is_old = tweedstork_judge_facts(&facts).number;
    expect(name, wanted == (is_old == TWEEDSTORK_OLD_TLS || is_old == TWEEDSTORK_FACT_MISSING));
}

/* A policy is refused as tweedstork_read_policy refuses it. */
static void host_policies(void)
{
    static const struct {
        const char *policy;
        uint64_t number;
    } refused[] = {
        {"version: STSv1\n", TWEEDSTORK_POLICY_INCOMPLETE},
        {"", TWEEDSTORK_POLICY_BAD_LINE},
        {"version: STSv1\nmode: none\nmax_age: 1\n\n", TWEEDSTORK_POLICY_BAD_LINE},
        {"version: STSv2\nmode: none\nmax_age: 1\n", TWEEDSTORK_POLICY_BAD_VERSION},
        {"version: STSv1\r\nmode: None\r\nmax_age: 1\r\n", TWEEDSTORK_POLICY_BAD_MODE},
        {"version: STSv1\nmode: none\nmax_age: -1\n", TWEEDSTORK_POLICY_BAD_MAX_AGE},
        {"version: STSv1\nmode: enforce\nmax_age: 1\nmx: mail.example.com\nmx: .example.com", TWEEDSTORK_POLICY_BAD_MX},
    };
    for (size_t i = 0; i < sizeof refused / sizeof refused[0]; i++) {
        struct tweedstork_host_facts facts = known(TWEEDSTORK_NO_ALIAS_INSECURE, refused[i].policy);
        char name[40];
        snprintf(name, sizeof name, "a host's policy, refused with %u", (unsigned)refused[i].number);
        judged(name, tweedstork_judge_facts(&facts), refused[i].number, 0);
    }
}

/* The text in memory of just its size. */
static struct tweedstork_slice guarded(const char *s)
{
    struct tweedstork_slice slice = {NULL, strlen(s)};

    if (slice.length != 0)
        slice.bytes = memcpy(memory(slice.length), s, slice.length);
    return slice;
}

/*
 * RFC 7672, 3.2.2: mail to exchange.example.org, an alias of example.com, through mx10.example.com with its record 2 0 1. The server
 * shows a leaf with this DNS-ID, and the certificate that the record names. The lists are the last call's.
 */
static struct tweedstork_host_facts aliased(const char *dns_id)
{
    static const char record[35] = {2, 0, 1}; /* and a digest of zeros, which the second certificate has */
    static const uint8_t certificates[2], key_places[16];
    static uint8_t record_length[4], lengths[8], digests[2 * 192], paths[8], dns_id_length[4];
    struct tweedstork_host_facts facts = known_with(TWEEDSTORK_NO_ALIAS_SECURE, NULL, TWEEDSTORK_TLSA_SECURE, record, 35, record_length);
    const struct tweedstork_slice lists[] = {{certificates, 2}, {lengths, 8}, {key_places, 16}, {digests, sizeof digests}, {paths, 8}, {dns_id_length, 4}};

    for (size_t i = 0; i < 2; i++) {
        tweedstork_put_number(lengths, i, 1);
        tweedstork_put_number(paths, i, TWEEDSTORK_YES);
    }
    memset(digests, 1, 192);
    tweedstork_put_number(dns_id_length, 0, (uint32_t)strlen(dns_id));
    facts.next_hop = text("exchange.example.org");
    facts.expanded_next_hop_given = TWEEDSTORK_YES;
    facts.expanded_next_hop = guarded("example.com");
    facts.origin = TWEEDSTORK_SECURE_MX;
    facts.host = text("mx10.example.com");
    facts.starttls = TWEEDSTORK_STARTTLS_OFFERED;
    facts.handshake = TWEEDSTORK_ESTABLISHED;
    facts.tls_version = TWEEDSTORK_TLS_1_2;
    facts.certificates_given = TWEEDSTORK_CERTIFICATES_GIVEN;
    facts.certificates = lists[0];
    facts.certificate_lengths = lists[1];
    facts.key_places = lists[2];
    facts.digests = lists[3];
    facts.paths = lists[4];
    facts.dns_ids = text(dns_id);
    facts.dns_id_lengths = lists[5];
    facts.trusted_root = facts.common_name_given = TWEEDSTORK_NO;
    return facts;
}

/* The expanded next-hop is a name that the leaf may have, with secure MX alone. */
static void expanded_next_hops(void)
{
    enum { YES = TWEEDSTORK_DANE, NO = TWEEDSTORK_DANE_MISMATCH };
    static const struct {
        const char *dns_id;
        uint64_t secure_mx, insecure_mx, none_given;
    } names[] = {
        {"exchange.example.org", YES, NO, YES},
        {"example.com", YES, NO, NO},
        {"EXAMPLE.com", YES, NO, NO},
        {"*.com", YES, NO, NO},
        {"mx10.example.com", YES, YES, YES},
        {"mail.example.org", NO, NO, NO},
        {"mx15.example.com", NO, NO, NO},
    };
    for (size_t i = 0; i < sizeof names / sizeof names[0]; i++) {
        struct tweedstork_host_facts facts = aliased(names[i].dns_id);
        char name[60];
        snprintf(name, sizeof name, "aliased next-hop, DNS-ID %s", names[i].dns_id);
        judged(name, tweedstork_judge_facts(&facts), names[i].secure_mx, 1);
        facts.origin = TWEEDSTORK_INSECURE_MX;
        judged(name, tweedstork_judge_facts(&facts), names[i].insecure_mx, 1);
        facts.origin = TWEEDSTORK_SECURE_MX;
        facts.expanded_next_hop_given = TWEEDSTORK_NO;
        judged(name, tweedstork_judge_facts(&facts), names[i].none_given, 1);
        facts.expanded_next_hop = text("no name, and not looked at");
        judged(name, tweedstork_judge_facts(&facts), names[i].none_given, 1);
    }
}

/* Refused after the next-hop and before the host, whatever the origin. */
static void refused_expanded_next_hops(void)
{
    static const char *const refused[] = {"", "example.com.", "my_shop.example", "example..com"};
    static const uint64_t codes[] = {0, 3, (uint64_t)1 << 32 | TWEEDSTORK_YES, UINT64_MAX};
    struct tweedstork_host_facts facts = aliased("exchange.example.org");

    for (size_t i = 0; i < sizeof refused / sizeof refused[0]; i++) {
        facts.expanded_next_hop = guarded(refused[i]);
        for (facts.origin = TWEEDSTORK_SECURE_MX; facts.origin <= TWEEDSTORK_NO_MX; facts.origin++)
            judged("expanded next-hop that is no name", tweedstork_judge_facts(&facts), TWEEDSTORK_BAD_NEXT_HOP, 0);
        facts.origin = TWEEDSTORK_SECURE_MX;
    }
    facts.host = text("");
    judged("neither expanded next-hop nor host is a name", tweedstork_judge_facts(&facts), TWEEDSTORK_BAD_NEXT_HOP, 0);
    facts.expanded_next_hop = guarded("example.com");
    judged("the host is no name", tweedstork_judge_facts(&facts), TWEEDSTORK_BAD_HOST, 0);
    for (size_t i = 0; i < sizeof codes / sizeof codes[0]; i++) {
        facts.expanded_next_hop_given = codes[i];
        judged("expanded next-hop neither given nor none", tweedstork_judge_facts(&facts), TWEEDSTORK_BAD_CODE, 0);
    }
}

/*
 * An established handshake with these certificate facts, and with none given: the answers from TLS 1.2 on. Every older version is 28
 * with both; but where no authentication is needed, the version changes nothing.
 */
static void versions(const char *name, struct tweedstork_host_facts facts, uint64_t with, uint64_t without, uint64_t questions)
{
    static const uint64_t old[] = {0, 1, 3, 0x0203, 0x02ff, 0x0300, TWEEDSTORK_TLS_1_0, TWEEDSTORK_TLS_1_1};
    static const uint64_t new[] = {TWEEDSTORK_TLS_1_2, TWEEDSTORK_TLS_1_3, 0x0305, 0x0400, 65535};
    uint64_t below = with == TWEEDSTORK_ENCRYPTED ? TWEEDSTORK_ENCRYPTED : TWEEDSTORK_OLD_TLS;

    facts.starttls = TWEEDSTORK_STARTTLS_OFFERED;
    facts.handshake = TWEEDSTORK_ESTABLISHED;
    for (uint64_t given = 0; given <= 1; given++) {
        facts.certificates_given = given;
        for (size_t i = 0; i < sizeof old / sizeof old[0]; i++) {
            facts.tls_version = old[i];
            judged(name, tweedstork_judge_facts(&facts), below, questions);
        }
        for (size_t i = 0; i < sizeof new / sizeof new[0]; i++) {
            facts.tls_version = new[i];
            judged(name, tweedstork_judge_facts(&facts), given ? with : without, questions);
        }
    }
}

/* Document 02, No. 6: where authentication is needed, a version below 03 03 hex is 28, before 26. */
static void old_tls(void)
{
    static const char enforce[] = "version: STSv1\nmode: enforce\nmx: *.example.com\nmax_age: 604800\n";
    static const char unusable[35] = {1, 1, 1};
    uint8_t length[4];
    struct tweedstork_host_facts record, both, policy;

    versions("DANE that doesn't match", aliased("mail.example.org"), TWEEDSTORK_DANE_MISMATCH, TWEEDSTORK_ASK_CERTIFICATES, 1);
    record = both = aliased("mx10.example.com");
    versions("DANE", record, TWEEDSTORK_DANE, TWEEDSTORK_ASK_CERTIFICATES, 1);
    both.policy_given = TWEEDSTORK_POLICY;
    both.policy = text(enforce);
    versions("DANE and MTA-STS, no trusted root", both, TWEEDSTORK_MTA_STS_MISMATCH, TWEEDSTORK_ASK_CERTIFICATES, 1);
    both.trusted_root = TWEEDSTORK_YES;
    versions("DANE and MTA-STS", both, TWEEDSTORK_DANE_AND_MTA_STS, TWEEDSTORK_ASK_CERTIFICATES, 1);
    policy = both;
    policy.address = TWEEDSTORK_NO_ALIAS_INSECURE;
    versions("MTA-STS", policy, TWEEDSTORK_MTA_STS, TWEEDSTORK_ASK_CERTIFICATES, 0);
    policy.trusted_root = TWEEDSTORK_NO;
    versions("MTA-STS that doesn't pass", policy, TWEEDSTORK_MTA_STS_MISMATCH, TWEEDSTORK_ASK_CERTIFICATES, 0);
    policy.clock = policy.fetched + 604800;
    versions("stale policy", policy, TWEEDSTORK_ENCRYPTED, TWEEDSTORK_ENCRYPTED, 0);
    policy.policy_given = TWEEDSTORK_NO_POLICY;
    versions("nothing needed", policy, TWEEDSTORK_ENCRYPTED, TWEEDSTORK_ENCRYPTED, 0);
    record.tlsa_answers = both.tlsa_answers = 0;
    learn_tlsa(&record, TWEEDSTORK_TLSA_SECURE, unusable, 35, length);
    versions("TLS needed", record, TWEEDSTORK_ENCRYPTED, TWEEDSTORK_ENCRYPTED, 1);
    learn_tlsa(&both, TWEEDSTORK_TLSA_SECURE, unusable, 35, length);
    versions("TLS needed, live policy", both, TWEEDSTORK_MTA_STS, TWEEDSTORK_ASK_CERTIFICATES, 1);
}

/* What is refused beside an old version, and which facts it doesn't stand in for. */
static void refused_beside_old_tls(void)
{
    struct tweedstork_host_facts facts = aliased("mx10.example.com");

    facts.tls_version = TWEEDSTORK_TLS_1_1;
    facts.key_places.length = 8;
    judged("old TLS, certificate facts of the wrong length", tweedstork_judge_facts(&facts), TWEEDSTORK_BAD_CERTIFICATES, 0);
    facts.trusted_root = 0;
    judged("old TLS, trusted root neither yes nor no", tweedstork_judge_facts(&facts), TWEEDSTORK_BAD_CODE, 0);
    facts.certificates_given = TWEEDSTORK_CERTIFICATES_NOT_GIVEN;
    judged("old TLS, certificate facts not given", tweedstork_judge_facts(&facts), TWEEDSTORK_OLD_TLS, 1);
    facts.starttls = TWEEDSTORK_STARTTLS_NOT_GIVEN;
    judged("old TLS, STARTTLS not given", tweedstork_judge_facts(&facts), TWEEDSTORK_FACT_MISSING, 0);
    facts.starttls = TWEEDSTORK_STARTTLS_NOT_OFFERED;
    judged("old TLS beside not offered", tweedstork_judge_facts(&facts), TWEEDSTORK_TLS_NOT_OFFERED, 1);
    facts.starttls = TWEEDSTORK_STARTTLS_OFFERED;
    facts.tlsa_answers = 0;
    judged("old TLS, no TLSA answer learnt yet", tweedstork_judge_facts(&facts), TWEEDSTORK_FACT_MISSING, 0);
    facts.address = TWEEDSTORK_ADDRESS_ABSENT;
    judged("old TLS, no address", tweedstork_judge_facts(&facts), TWEEDSTORK_NO_ADDRESS, 0);
}

/* A version of over two bytes is refused first of all, whatever is needed; without an established handshake it is not looked at. */
static void refused_versions(void)
{
    static const uint64_t refused[] = {65536, 65536 + TWEEDSTORK_TLS_1_2, (uint64_t)1 << 32 | TWEEDSTORK_TLS_1_3, UINT64_MAX};
    struct tweedstork_host_facts record = aliased("mx10.example.com"), nothing = known(TWEEDSTORK_NO_ALIAS_INSECURE, NULL);

    for (size_t i = 0; i < sizeof refused / sizeof refused[0]; i++) {
        struct tweedstork_host_facts facts[2] = {record, nothing};
        for (size_t k = 0; k < 2; k++) {
            facts[k].tls_version = refused[i];
            facts[k].certificates_given = TWEEDSTORK_CERTIFICATES_NOT_GIVEN;
            facts[k].handshake = TWEEDSTORK_ESTABLISHED;
            for (facts[k].starttls = 0; facts[k].starttls <= TWEEDSTORK_STARTTLS_NOT_OFFERED; facts[k].starttls++)
                judged("a version of over two bytes", tweedstork_judge_facts(&facts[k]), TWEEDSTORK_BAD_CODE, 0);
            facts[k].clock = UINT64_MAX;
            judged("a version of over two bytes, and a bad clock", tweedstork_judge_facts(&facts[k]), TWEEDSTORK_BAD_CODE, 0);
            facts[k].clock = 605799;
            facts[k].starttls = TWEEDSTORK_STARTTLS_OFFERED;
            facts[k].handshake = TWEEDSTORK_HANDSHAKE_NOT_GIVEN;
            judged("a version without a handshake", tweedstork_judge_facts(&facts[k]), TWEEDSTORK_ASK_HANDSHAKE, k == 0);
            facts[k].handshake = TWEEDSTORK_NOT_ESTABLISHED;
            judged("a version after a failed handshake", tweedstork_judge_facts(&facts[k]), k == 0 ? TWEEDSTORK_HANDSHAKE_FAILED : TWEEDSTORK_CLEARTEXT, k == 0);
        }
    }
}

/*
 * Document 02, No. 8: a record of SHA-256 is ignored beside one of SHA-512 in its own set. The set at the other name, or one that is not
 * secure, is another set. The host of RFC 7672, 3.2.2 is an alias here; its second certificate has the SHA-256 and not the SHA-512.
 */
static void sets_of_two_names(void)
{
    static const char sha256[35] = {2, 0, 1}, stale[67] = {2, 0, 2, 1};
    static const struct {
        const char *name;
        uint64_t results[2], number, questions;
        int sha256_first;
    } sets[] = {
        {"SHA-256 at the first name, SHA-512 at the second", {TWEEDSTORK_TLSA_SECURE, TWEEDSTORK_TLSA_SECURE}, TWEEDSTORK_DANE, 1, 1},
        {"SHA-512 at the first name, SHA-256 at the second", {TWEEDSTORK_TLSA_SECURE, TWEEDSTORK_TLSA_SECURE}, TWEEDSTORK_DANE_MISMATCH, 1, 0},
        {"insecure SHA-512, SHA-256 at the second name", {TWEEDSTORK_TLSA_INSECURE, TWEEDSTORK_TLSA_SECURE}, TWEEDSTORK_DANE, 2, 0},
        {"absent SHA-512, SHA-256 at the second name", {TWEEDSTORK_TLSA_ABSENT, TWEEDSTORK_TLSA_SECURE}, TWEEDSTORK_DANE, 2, 0},
        {"insecure SHA-256, SHA-512 at the second name", {TWEEDSTORK_TLSA_INSECURE, TWEEDSTORK_TLSA_SECURE}, TWEEDSTORK_DANE_MISMATCH, 2, 1},
    };
    for (size_t i = 0; i < sizeof sets / sizeof sets[0]; i++) {
        struct tweedstork_host_facts facts = aliased("exchange.example.org");
        uint8_t lengths[2][4];

        facts.address = TWEEDSTORK_ALIAS_SECURE;
        facts.tlsa_answers = 0;
        for (int k = 0; k < 2; k++) {
            int is_sha256 = sets[i].sha256_first == (k == 0);
            learn_tlsa(&facts, sets[i].results[k], is_sha256 ? sha256 : stale, is_sha256 ? sizeof sha256 : sizeof stale, lengths[k]);
        }
        judged(sets[i].name, tweedstork_judge_facts(&facts), sets[i].number, sets[i].questions);
    }
}

/* What a host needs doesn't change by it: certificates matter wherever a record is usable, ignored or not. */
static void needs_of_digests(void)
{
    static const char records[35 + 67] = {3, 1, 1, [35] = 3, 1, 2};
    static const uint32_t sizes[2] = {35, 67};
    struct list lengths = list_of(sizes, 2, 0);
    uint8_t length[4];
    struct tweedstork_host_facts facts = known_with(TWEEDSTORK_NO_ALIAS_SECURE, NULL, TWEEDSTORK_TLSA_SECURE, records, sizeof records, length);

    facts.tlsa[0].lengths.bytes = lengths.bytes;
    facts.tlsa[0].lengths.length = lengths.length;
    matters("SHA-256 that is ignored beside SHA-512", facts, 1);
}

static void certificates_matter(void)
{
    static const char enforce[] = "version: STSv1\nmode: enforce\nmx: *.example.com\nmax_age: 604800\n";
    static const char other[] = "version: STSv1\nmode: enforce\nmx: *.example.org\nmax_age: 604800\n";
    static const char testing[] = "version: STSv1\nmode: testing\nmx: *.example.com\nmax_age: 604800\n";
    static const char usable[35] = {3, 1, 1}, unusable[35] = {1, 1, 1};
    uint8_t first[4], second[4];
    struct tweedstork_host_facts facts = known(TWEEDSTORK_NO_ALIAS_INSECURE, enforce);

    matters("live enforce policy", facts, 1);
    facts.clock++;
    matters("stale enforce policy", facts, 0);
    facts.clock = UINT64_MAX;
    matters("bad clock", facts, 0);
    matters("nothing needed", known(TWEEDSTORK_NO_ALIAS_INSECURE, NULL), 0);
    matters("policy in testing", known(TWEEDSTORK_NO_ALIAS_INSECURE, testing), 0);
    matters("no pattern matches", known(TWEEDSTORK_NO_ALIAS_INSECURE, other), 0);
    matters("refused policy", known(TWEEDSTORK_NO_ALIAS_INSECURE, "version: STSv1\n"), 0);
    matters("address lookup failed", known(TWEEDSTORK_ADDRESS_LOOKUP_FAILED, enforce), 0);
    matters("no TLSA answer learnt yet", known(TWEEDSTORK_NO_ALIAS_SECURE, NULL), 1);
    matters("no TLSA answer learnt yet, live policy", known(TWEEDSTORK_NO_ALIAS_SECURE, enforce), 1);

    facts = known(TWEEDSTORK_NO_ALIAS_SECURE, NULL);
    facts.host = text("mail_.example.com");
    matters("bad host name", facts, 0);

    matters("usable record", known_with(TWEEDSTORK_NO_ALIAS_SECURE, NULL, TWEEDSTORK_TLSA_SECURE, usable, 35, first), 1);
    matters("only an unusable record", known_with(TWEEDSTORK_NO_ALIAS_SECURE, NULL, TWEEDSTORK_TLSA_SECURE, unusable, 35, first), 0);
    matters("unusable record, live policy", known_with(TWEEDSTORK_NO_ALIAS_SECURE, enforce, TWEEDSTORK_TLSA_SECURE, unusable, 35, first), 1);
    matters("record of two bytes", known_with(TWEEDSTORK_NO_ALIAS_SECURE, enforce, TWEEDSTORK_TLSA_SECURE, usable, 2, first), 0);
    matters("TLSA lookup failed", known_with(TWEEDSTORK_NO_ALIAS_SECURE, enforce, TWEEDSTORK_TLSA_LOOKUP_FAILED, usable, 35, first), 0);
    matters("insecure record", known_with(TWEEDSTORK_NO_ALIAS_SECURE, NULL, TWEEDSTORK_TLSA_INSECURE, usable, 35, first), 0);

    facts = known_with(TWEEDSTORK_ALIAS_SECURE, NULL, TWEEDSTORK_TLSA_ABSENT, usable, 35, first);
    matters("the second of two TLSA answers not learnt yet", facts, 1);
    learn_tlsa(&facts, TWEEDSTORK_TLSA_SECURE, usable, 35, second);
    matters("usable record at the second name", facts, 1);
    facts.tlsa[1].result = TWEEDSTORK_TLSA_ABSENT;
    matters("no record at either name", facts, 0);
}

/* The server name at the handshake: the expanded name where DANE is checked with the records there. */
static void serves(const char *name, struct tweedstork_host_facts facts, const char *wanted)
{
    struct tweedstork_slice got = tweedstork_server_name(&facts);

    expect(name, got.length == strlen(wanted) && memcmp(got.bytes, wanted, got.length) == 0);
}

static void server_names(void)
{
    static const char enforce[] = "version: STSv1\nmode: enforce\nmx: *.example.com\nmax_age: 604800\n";
    static const char usable[35] = {3, 1, 1}, unusable[35] = {1, 1, 1};
    uint8_t first[4], second[4];
    struct tweedstork_host_facts facts = known(TWEEDSTORK_ALIAS_SECURE, NULL);

    serves("no TLSA answer learnt", facts, "mail.example.com");
    learn_tlsa(&facts, TWEEDSTORK_TLSA_SECURE, usable, 35, first);
    serves("usable record at the expanded name", facts, "mx.example.net");
    facts.policy_given = TWEEDSTORK_POLICY;
    facts.policy = text(enforce);
    serves("usable record at the expanded name, live policy", facts, "mx.example.net");
    facts.tlsa[0].records.bytes = (const uint8_t *)unusable;
    serves("only an unusable record at the expanded name, live policy", facts, "mail.example.com");
    facts.tlsa[0].result = TWEEDSTORK_TLSA_ABSENT;
    learn_tlsa(&facts, TWEEDSTORK_TLSA_SECURE, usable, 35, second);
    serves("usable record at the host name", facts, "mail.example.com");
    serves("usable record, no alias", known_with(TWEEDSTORK_NO_ALIAS_SECURE, NULL, TWEEDSTORK_TLSA_SECURE, usable, 35, first), "mail.example.com");
}

int main(void)
{
    expect("tweedstork_host_answer has two numbers", sizeof(struct tweedstork_host_answer) == 16 && offsetof(struct tweedstork_host_answer, tlsa_questions) == 8);
    expect("tweedstork_txt_answer has three numbers", sizeof(struct tweedstork_txt_answer) == 24 && offsetof(struct tweedstork_txt_answer, id_start) == 8 && offsetof(struct tweedstork_txt_answer, id_length) == 16);
    expect("tweedstork_policy_answer has six numbers", sizeof(struct tweedstork_policy_answer) == 48 && offsetof(struct tweedstork_policy_answer, mode) == 8 && offsetof(struct tweedstork_policy_answer, lifetime) == 16 && offsetof(struct tweedstork_policy_answer, mx_count) == 24);
    expect("tweedstork_policy_answer: the line that offends", offsetof(struct tweedstork_policy_answer, line) == 32 && offsetof(struct tweedstork_policy_answer, offset) == 40);
    expect("tweedstork_message_answer has two numbers", sizeof(struct tweedstork_message_answer) == 16 && offsetof(struct tweedstork_message_answer, position) == 8);
    expect("header and archive are of one version", tweedstork_version() == TWEEDSTORK_VERSION_NUMBER);
    txt_records();
    policies();
    policy_faults();
    policies_of_many_lines();
    hosts();
    host_policies();
    expanded_next_hops();
    refused_expanded_next_hops();
    old_tls();
    refused_beside_old_tls();
    refused_versions();
    sets_of_two_names();
    needs_of_digests();
    certificates_matter();
    server_names();
    message_hosts();
    host_verdicts();
    printf("boundary: %u passed, %u failed\n", passed, failed);
    return failed == 0 ? 0 : 1;
}
