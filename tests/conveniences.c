/*
 * The header's own C: the words, the lists of numbers, the places of DNS-IDs, the server name, and tweedstork_judge_facts and
 * tweedstork_judge_facts_certificate, which must hand each field to the argument of its name, with tweedstork_certificates_matter,
 * which asks by the first. To see that, this program is linked without the archive and has both calls that judge a host of its
 * own, which note their arguments and answer what a test wants.
 */
#include <stdio.h>
#include <string.h>

#include "expect.h"
#include "tweedstork.h"

static struct tweedstork_host_facts noted;
static struct tweedstork_host_answer answered;

static struct tweedstork_slice slice(const uint8_t *bytes, size_t length)
{
    struct tweedstork_slice slice = {bytes, length};
    return slice;
}

struct tweedstork_host_answer tweedstork_judge_host(
    uint64_t clock, const uint8_t *next_hop, size_t next_hop_length, uint64_t expanded_next_hop_given,
    const uint8_t *expanded_next_hop, size_t expanded_next_hop_length, uint64_t origin, const uint8_t *host, size_t host_length,
    uint64_t address, const uint8_t *expanded, size_t expanded_length, uint64_t policy_given, const uint8_t *policy,
    size_t policy_length, uint64_t fetched, uint64_t tlsa_answers, uint64_t tlsa1_result, const uint8_t *tlsa1_lengths,
    size_t tlsa1_lengths_length, const uint8_t *tlsa1_records, size_t tlsa1_records_length, uint64_t tlsa2_result,
    const uint8_t *tlsa2_lengths, size_t tlsa2_lengths_length, const uint8_t *tlsa2_records, size_t tlsa2_records_length,
    uint64_t starttls, uint64_t handshake, uint64_t tls_version, uint64_t certificates_given, const uint8_t *certificates,
    size_t certificates_length, const uint8_t *certificate_lengths, size_t certificate_lengths_length, const uint8_t *key_places,
    size_t key_places_length, const uint8_t *digests, size_t digests_length, const uint8_t *paths, size_t paths_length,
    uint64_t trusted_root, const uint8_t *dns_ids, size_t dns_ids_length, const uint8_t *dns_id_lengths,
    size_t dns_id_lengths_length, uint64_t common_name_given, const uint8_t *common_name, size_t common_name_length)
{
    noted.clock = clock;
    noted.next_hop = slice(next_hop, next_hop_length);
    noted.expanded_next_hop_given = expanded_next_hop_given;
    noted.expanded_next_hop = slice(expanded_next_hop, expanded_next_hop_length);
    noted.origin = origin;
    noted.host = slice(host, host_length);
    noted.address = address;
    noted.expanded = slice(expanded, expanded_length);
    noted.policy_given = policy_given;
    noted.policy = slice(policy, policy_length);
    noted.fetched = fetched;
    noted.tlsa_answers = tlsa_answers;
    noted.tlsa[0].result = tlsa1_result;
    noted.tlsa[0].lengths = slice(tlsa1_lengths, tlsa1_lengths_length);
    noted.tlsa[0].records = slice(tlsa1_records, tlsa1_records_length);
    noted.tlsa[1].result = tlsa2_result;
    noted.tlsa[1].lengths = slice(tlsa2_lengths, tlsa2_lengths_length);
    noted.tlsa[1].records = slice(tlsa2_records, tlsa2_records_length);
    noted.starttls = starttls;
    noted.handshake = handshake;
    noted.tls_version = tls_version;
    noted.certificates_given = certificates_given;
    noted.certificates = slice(certificates, certificates_length);
    noted.certificate_lengths = slice(certificate_lengths, certificate_lengths_length);
    noted.key_places = slice(key_places, key_places_length);
    noted.digests = slice(digests, digests_length);
    noted.paths = slice(paths, paths_length);
    noted.trusted_root = trusted_root;
    noted.dns_ids = slice(dns_ids, dns_ids_length);
    noted.dns_id_lengths = slice(dns_id_lengths, dns_id_lengths_length);
    noted.common_name_given = common_name_given;
    noted.common_name = slice(common_name, common_name_length);
    return answered;
}

/* Notes the arguments by the plain call's, in the place of whose names nothing comes. */
static int noted_certificate;

struct tweedstork_host_answer tweedstork_judge_host_certificate(
    uint64_t clock, const uint8_t *next_hop, size_t next_hop_length, uint64_t expanded_next_hop_given,
    const uint8_t *expanded_next_hop, size_t expanded_next_hop_length, uint64_t origin, const uint8_t *host, size_t host_length,
    uint64_t address, const uint8_t *expanded, size_t expanded_length, uint64_t policy_given, const uint8_t *policy,
    size_t policy_length, uint64_t fetched, uint64_t tlsa_answers, uint64_t tlsa1_result, const uint8_t *tlsa1_lengths,
    size_t tlsa1_lengths_length, const uint8_t *tlsa1_records, size_t tlsa1_records_length, uint64_t tlsa2_result,
    const uint8_t *tlsa2_lengths, size_t tlsa2_lengths_length, const uint8_t *tlsa2_records, size_t tlsa2_records_length,
    uint64_t starttls, uint64_t handshake, uint64_t tls_version, uint64_t certificates_given, const uint8_t *certificates,
    size_t certificates_length, const uint8_t *certificate_lengths, size_t certificate_lengths_length, const uint8_t *key_places,
    size_t key_places_length, const uint8_t *digests, size_t digests_length, const uint8_t *paths, size_t paths_length,
    uint64_t trusted_root)
{
    noted_certificate++;
    return tweedstork_judge_host(
        clock, next_hop, next_hop_length, expanded_next_hop_given, expanded_next_hop, expanded_next_hop_length, origin, host,
        host_length, address, expanded, expanded_length, policy_given, policy, policy_length, fetched, tlsa_answers, tlsa1_result,
        tlsa1_lengths, tlsa1_lengths_length, tlsa1_records, tlsa1_records_length, tlsa2_result, tlsa2_lengths, tlsa2_lengths_length,
        tlsa2_records, tlsa2_records_length, starttls, handshake, tls_version, certificates_given, certificates, certificates_length,
        certificate_lengths, certificate_lengths_length, key_places, key_places_length, digests, digests_length, paths, paths_length,
        trusted_root, NULL, 0, NULL, 0, 0, NULL, 0);
}

/* Every field is a number of eight bytes or a pointer: each gets a value of its own. */
static struct tweedstork_host_facts facts_of_their_own(void)
{
    struct tweedstork_host_facts facts;
    uint64_t words[sizeof facts / 8];

    for (size_t i = 0; i < sizeof words / 8; i++)
        words[i] = 1000 + i;
    memcpy(&facts, words, sizeof facts);
    return facts;
}

static void each_field_arrives(void)
{
    struct tweedstork_host_facts facts = facts_of_their_own();
    struct tweedstork_host_answer answer;

    expect("no field is padded or of another size", sizeof facts == 8 * (15 + 2 * 17));
    memset(&noted, 0, sizeof noted);
    answered.number = 12345;
    answered.tlsa_questions = 67890;
    answer = tweedstork_judge_facts(&facts);
    expect("each field arrives at its argument", memcmp(&noted, &facts, sizeof facts) == 0);
    expect("the answer comes back", answer.number == 12345 && answer.tlsa_questions == 67890);
    memset(&facts, 0, sizeof facts);
    tweedstork_judge_facts(&facts);
    expect("nothing given is all zero", memcmp(&noted, &facts, sizeof facts) == 0);
    expect("the plain call alone is asked", noted_certificate == 0);
}

/* The same for the call that reads the leaf itself: the names are the last of the fields, and are not handed on. */
static void each_field_but_names_arrives(void)
{
    struct tweedstork_host_facts facts = facts_of_their_own(), wanted = facts;
    struct tweedstork_host_answer answer;
    size_t names = offsetof(struct tweedstork_host_facts, dns_ids);

    expect("the names are the last seven words", names + 8 * 7 == sizeof facts);
    memset((uint8_t *)&wanted + names, 0, sizeof wanted - names);
    memset(&noted, 0xee, sizeof noted);
    answered.number = 54321;
    answered.tlsa_questions = 9876;
    answer = tweedstork_judge_facts_certificate(&facts);
    expect("each field but the names arrives at its argument", memcmp(&noted, &wanted, sizeof facts) == 0);
    expect("the answer comes back from the call that reads the leaf", answer.number == 54321 && answer.tlsa_questions == 9876);
    expect("that call is asked once", noted_certificate == 1);
    memset(&facts, 0, sizeof facts);
    tweedstork_judge_facts_certificate(&facts);
    expect("nothing given is all zero for it too", memcmp(&noted, &facts, sizeof facts) == 0 && noted_certificate == 2);
}

/* The part of a certificate that a place names: start and length, eight bytes each, the highest first. */
static void dns_ids_at_their_places(void)
{
    static const uint8_t certificate[70000];
    static const uint8_t places[] = {
        0, 0, 0, 0, 0, 0, 0, 5, 0, 0, 0, 0, 0, 0, 0, 0, 0, 0, 0, 0, 0, 1, 2, 3, 0, 0, 0, 0, 0, 0, 0x0a, 0x0b,
        0, 0, 0, 0, 0, 0, 0x80, 0xff, 0, 0, 0, 0, 0, 0, 0, 0xfe, 0, 0, 0, 0, 0, 0, 0, 0, 0, 0, 0, 4, 3, 2, 1, 0,
    };
    static const size_t wanted[][2] = {{5, 0}, {0x10203, 0x0a0b}, {0x80ff, 0xfe}, {0, 0x403020100}};

    for (size_t i = 0; i < sizeof wanted / sizeof wanted[0]; i++) {
        struct tweedstork_slice name = tweedstork_dns_id(certificate, places, i);
        expect("a DNS-ID at its place", name.bytes == certificate + wanted[i][0] && name.length == wanted[i][1]);
    }
}

/*
 * Certificates matter where the library would ask for them (12), or for a TLSA answer before (66, since a handshake is given). It is
 * asked at TLS 1.2, the lowest version at which they can decide (document 02, No. 6).
 */
static void certificates_matter(void)
{
    const struct tweedstork_host_facts before = facts_of_their_own();
    struct tweedstork_host_facts facts = before, wanted = before;

    wanted.starttls = 1;
    wanted.handshake = 1;
    wanted.tls_version = 0x0303;
    wanted.certificates_given = 0;
    answered.tlsa_questions = 12;
    for (uint64_t number = 0; number <= 100; number++) {
        char name[40];
        snprintf(name, sizeof name, "certificates matter on %u", (unsigned)number);
        memset(&noted, 0, sizeof noted);
        answered.number = number;
        expect(name, tweedstork_certificates_matter(&facts) == (number == 12 || number == 66));
        expect("it asks with STARTTLS offered, TLS 1.2 established, no certificates, all else as it is", memcmp(&noted, &wanted, sizeof noted) == 0);
        expect("the caller's facts are as they were", memcmp(&facts, &before, sizeof facts) == 0);
    }
    answered.number = ((uint64_t)1 << 32) + 12;
    expect("the whole number is looked at", tweedstork_certificates_matter(&facts) == 0);
}

/* The server name of these facts is the expanded name exactly where DANE is checked there: the library asks for certificates (12) without a policy. */
static void server_name(const char *test, const struct tweedstork_host_facts *facts, int may_be_expanded)
{
    static const uint64_t answers[] = {12, 2, 22, 26, 28, 61, 64};

    for (size_t i = 0; i < sizeof answers / sizeof answers[0]; i++) {
        struct tweedstork_slice name, wanted = may_be_expanded && answers[i] == 12 ? facts->expanded : facts->host;

        noted.policy_given = TWEEDSTORK_NO_POLICY;
        answered.number = answers[i];
        name = tweedstork_server_name(facts);
        expect(test, name.bytes == wanted.bytes && name.length == wanted.length);
        expect("it asks without a policy", noted.policy_given == TWEEDSTORK_NO_POLICY);
    }
}

/*
 * The server name for each address and first TLSA answer. Two names are tried only for an alias that is secure at every stage,
 * the expanded one first; only a secure answer with a record is taken (RFC 7672, 2.2.2 and 2.2.3).
 */
static void server_names(void)
{
    enum { ADDRESSES = 7, ANSWERS = 9 };
    static const uint64_t results[ANSWERS] = {0, 1, 1, 2, 2, 3, 3, 4, 4};
    /* A letter for each TLSA answer: none; then secure, insecure, absent, failed, each without and with records. */
    static const char *const wanted[ADDRESSES] = {
        "h hh hh hh hh", /* no alias, secure */
        "h hh hh hh hh", /* no alias, insecure */
        "h hE hh hh hh", /* alias, secure at every stage */
        "h hh hh hh hh", /* alias, only its first step secure */
        "h hh hh hh hh", /* alias, first step insecure */
        "h hh hh hh hh", /* address lookup failed */
        "h hh hh hh hh", /* no address */
    };
    static const uint8_t host[] = "a.example", expanded[] = "bb.example", bytes[39];

    for (uint64_t address = 1; address <= ADDRESSES; address++) {
        const char *letter = wanted[address - 1];
        for (size_t answer = 0; answer < ANSWERS; answer++, letter++) {
            struct tweedstork_host_facts facts;
            char test[60];

            memset(&facts, 0, sizeof facts);
            facts.address = address;
            facts.policy_given = TWEEDSTORK_POLICY;
            facts.host = slice(host, 9);
            facts.expanded = slice(expanded, 10);
            facts.tlsa_answers = answer == 0 ? 0 : 1;
            facts.tlsa[0].result = results[answer];
            facts.tlsa[0].lengths = slice(bytes, answer % 2 == 0 && answer != 0 ? 4 : 0);
            facts.tlsa[0].records = slice(bytes, answer % 2 == 0 && answer != 0 ? 35 : 0);
            letter += *letter == ' ';
            snprintf(test, sizeof test, "server name: address %u, TLSA answer %u", (unsigned)address, (unsigned)answer);
            server_name(test, &facts, *letter == 'E');
            /* A second answer is of the host's own name. */
            facts.tlsa_answers += answer != 0;
            facts.tlsa[1].result = 1;
            facts.tlsa[1].lengths = slice(bytes, 4);
            facts.tlsa[1].records = slice(bytes, 35);
            server_name(test, &facts, *letter == 'E');
            /* An answer that isn't given is not looked at. */
            facts.tlsa_answers = 0;
            server_name(test, &facts, 0);
        }
        expect("the table has a letter for each TLSA answer", *letter == '\0');
    }
}

/* The versions of TLS as their two wire bytes, the high byte first. */
static void versions(void)
{
    expect("TLS 1.0", TWEEDSTORK_TLS_1_0 == 0x0301);
    expect("TLS 1.1", TWEEDSTORK_TLS_1_1 == 0x0302);
    expect("TLS 1.2", TWEEDSTORK_TLS_1_2 == 0x0303);
    expect("TLS 1.3", TWEEDSTORK_TLS_1_3 == 0x0304);
}

static void numbers_are_written_high_first(void)
{
    static const uint8_t wanted[13] = {0xee, 0xee, 0xee, 0xee, 0x01, 0x02, 0x03, 0x04, 0, 0, 1, 0, 0xee};
    uint8_t list[13];

    memset(list, 0xee, sizeof list);
    tweedstork_put_number(list, 1, 0x01020304);
    tweedstork_put_number(list, 2, 256);
    expect("numbers are written high first, at their place", memcmp(list, wanted, sizeof list) == 0);
}

/*
 * The answer table of document 01 (1 to 14, 20 to 27, 30 and 31, 40 to 44, 50 to 52, 60 to 67) and what document 02 adds to it, with
 * 53 to 57 in the place of 51.
 */
static void each_number_has_words(void)
{
    static const uint64_t ranges[][2] = {{1, 15}, {20, 28}, {30, 31}, {40, 44}, {50, 50}, {52, 57}, {60, 67}, {70, 72}, {74, 74}, {80, 83}, {90, 91}};
    const char *none = tweedstork_answer_words(0);
    unsigned with_words = 0;

    for (uint64_t number = 0; number < 1000; number++) {
        const char *words = tweedstork_answer_words(number);
        int in_table = 0;
        for (size_t i = 0; i < sizeof ranges / sizeof ranges[0]; i++)
            in_table |= ranges[i][0] <= number && number <= ranges[i][1];
        if (words == NULL || (strcmp(words, none) != 0) != in_table) {
            printf("words of %u\n", (unsigned)number);
            expect("exactly the numbers of the table have words", 0);
            return;
        }
        with_words += (unsigned)in_table;
        if (in_table && (number >= 40) != (strncmp(words, "refused: ", 9) == 0))
            expect("exactly the words of 40 and above begin with 'refused'", 0);
        if (in_table && (number >= 20 && number <= 28) != (strncmp(words, "next host: ", 11) == 0))
            expect("exactly the words of 20 to 28 begin with 'next host'", 0);
        for (uint64_t other = 1; in_table && other < number; other++)
            if (strcmp(words, tweedstork_answer_words(other)) == 0)
                expect("no two numbers have the same words", 0);
    }
    expect("56 numbers have words", with_words == 56);
    expect("the largest number has none", strcmp(tweedstork_answer_words(UINT64_MAX), none) == 0);
}

int main(void)
{
    each_field_arrives();
    each_field_but_names_arrives();
    dns_ids_at_their_places();
    certificates_matter();
    server_names();
    versions();
    numbers_are_written_high_first();
    each_number_has_words();
    printf("conveniences: %u passed, %u failed\n", passed, failed);
    return failed == 0 ? 0 : 1;
}
