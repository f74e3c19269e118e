/*
 * The call that judges a host by the leaf that it reads itself, as a C program meets it: the order of its refusals, where the leaf is
 * read, and that it answers as the plain call does on what stands in the leaf, with one TLSA record and with several. Every slice
 * ends where its memory ends. That it answers so for every input is the proofs' matter.
 */
#define _DEFAULT_SOURCE /* for memory() of expect.h */
#include <inttypes.h>
#include <stdio.h>
#include <string.h>

#include "der.h"
#include "expect.h"
#include "tweedstork.h"

#define HOST "mail.example.com"
#define ENFORCE "version: STSv1\nmode: enforce\nmx: *.example.com\nmax_age: 604800\n"

static struct tweedstork_slice text_of(const char *s)
{
    struct tweedstork_slice slice = {(const uint8_t *)s, strlen(s)};
    return slice;
}

/* What a server shows: its leaf, and one more certificate, of one byte, which a path leads to. Each list ends where its memory ends. */
struct shown {
    struct tweedstork_slice certificates, lengths, key_places, digests, paths;
    const struct der *leaf;
};

static struct tweedstork_slice guarded(size_t length)
{
    struct tweedstork_slice slice = {memory(length), length};
    return slice;
}

static void put(struct tweedstork_slice list, size_t place, size_t number)
{
    tweedstork_put_number((uint8_t *)list.bytes, place, (uint32_t)number);
}

/* All digests are zeros, but those of the leaf's key info, which are ones. */
static struct shown shows(const char *leaf)
{
    struct shown shown = {{NULL, 0}, {NULL, 0}, {NULL, 0}, {NULL, 0}, {NULL, 0}, der_of(leaf)};

    shown.certificates = guarded(shown.leaf->length + 1);
    memcpy((uint8_t *)shown.certificates.bytes, shown.leaf->bytes, shown.leaf->length);
    shown.lengths = guarded(8);
    put(shown.lengths, 0, shown.leaf->length);
    put(shown.lengths, 1, 1);
    shown.key_places = guarded(8); /* of the second: its one byte */
    put(shown.key_places, 1, 1);
    shown.digests = guarded(2 * 192);
    memset((uint8_t *)shown.digests.bytes + 96, 1, 96);
    shown.paths = guarded(8);
    put(shown.paths, 0, TWEEDSTORK_YES);
    put(shown.paths, 1, TWEEDSTORK_YES);
    return shown;
}

/* A host with TLS 1.2 and a TLSA record, or none (NULL), and a policy, or none, to which this was shown. */
static struct tweedstork_host_facts met(const struct shown *shown, const char *record, size_t length, const char *policy)
{
    struct tweedstork_host_facts facts;

    memset(&facts, 0, sizeof facts);
    facts.clock = facts.fetched = 1000;
    facts.next_hop = text_of("example.com");
    facts.expanded_next_hop_given = TWEEDSTORK_NO;
    facts.origin = TWEEDSTORK_SECURE_MX;
    facts.host = text_of(HOST);
    facts.address = TWEEDSTORK_NO_ALIAS_SECURE;
    facts.policy_given = policy == NULL ? TWEEDSTORK_NO_POLICY : TWEEDSTORK_POLICY;
    facts.policy = text_of(policy == NULL ? "" : policy);
    facts.tlsa_answers = 1;
    facts.tlsa[0].result = record == NULL ? TWEEDSTORK_TLSA_ABSENT : TWEEDSTORK_TLSA_SECURE;
    facts.tlsa[0].lengths = guarded(4);
    put(facts.tlsa[0].lengths, 0, length);
    facts.tlsa[0].records.bytes = (const uint8_t *)record;
    facts.tlsa[0].records.length = length;
    facts.starttls = TWEEDSTORK_STARTTLS_OFFERED;
    facts.handshake = TWEEDSTORK_ESTABLISHED;
    facts.tls_version = TWEEDSTORK_TLS_1_2;
    facts.certificates_given = TWEEDSTORK_CERTIFICATES_GIVEN;
    facts.certificates = shown->certificates;
    facts.certificate_lengths = shown->lengths;
    facts.key_places = shown->key_places;
    facts.digests = shown->digests;
    facts.paths = shown->paths;
    facts.trusted_root = TWEEDSTORK_YES;
    return facts;
}

static const char by_issuer[35] = {2, 0, 1};            /* the second certificate's digest */
static const char by_key[35] = {3, 1, 1, 1, 1, 1, 1, 1, 1, 1, 1, 1, 1, 1, 1, 1, 1, 1, 1, 1, 1, 1, 1, 1, 1, 1, 1, 1, 1, 1, 1, 1, 1, 1, 1};

static void judged(const char *name, const struct tweedstork_host_facts *facts, uint64_t number)
{
    struct tweedstork_host_answer answer = tweedstork_judge_facts_certificate(facts);
    uint64_t questions = number < 40 && number != 20 && number != 23 ? 1 : 0;

    if (answer.number != number || answer.tlsa_questions != questions)
        printf("%s: expected %" PRIu64 " %" PRIu64 ", got %" PRIu64 " %" PRIu64 "\n", name, number, questions, answer.number, answer.tlsa_questions);
    expect(name, answer.number == number && answer.tlsa_questions == questions);
}

/* The same by the plain call, with what is marked in the leaf as the relay's own facts. */
static void plainly(const char *name, const struct shown *shown, struct tweedstork_host_facts facts, uint64_t number)
{
    static uint8_t key_places[16], names[20000], name_lengths[4 * MOST_NAMES];
    const struct der *leaf = shown->leaf;
    size_t length = 0;

    tweedstork_put_number(key_places, 0, (uint32_t)leaf->key.start);
    tweedstork_put_number(key_places, 1, (uint32_t)leaf->key.length);
    memcpy(key_places + 8, shown->key_places.bytes, 8);
    for (size_t i = 0; i < leaf->name_count; i++) {
        memcpy(names + length, leaf->bytes + leaf->names[i].start, leaf->names[i].length);
        tweedstork_put_number(name_lengths, i, (uint32_t)leaf->names[i].length);
        length += leaf->names[i].length;
    }
    facts.key_places = (struct tweedstork_slice){key_places, sizeof key_places};
    facts.dns_ids = (struct tweedstork_slice){names, length};
    facts.dns_id_lengths = (struct tweedstork_slice){name_lengths, 4 * leaf->name_count};
    facts.common_name_given = leaf->has_common_name ? TWEEDSTORK_YES : TWEEDSTORK_NO;
    facts.common_name = (struct tweedstork_slice){leaf->bytes + leaf->common_name.start, leaf->common_name.length};
    expect(name, tweedstork_judge_facts(&facts).number == number);
}

/* By 2 0 1 of the second certificate, by a policy, and by the bytes of the key info and its digest: 3, whatever names there are. */
static void by_names(const char *name, const char *leaf, uint64_t issuer, uint64_t policy)
{
    struct shown shown = shows(leaf);
    struct tweedstork_host_facts facts[4];
    const uint64_t wanted[4] = {issuer, policy, TWEEDSTORK_DANE, TWEEDSTORK_DANE};
    static char by_key_bytes[MOST_DER] = {3, 1, 0};

    memcpy(by_key_bytes + 3, shown.leaf->bytes + shown.leaf->key.start, shown.leaf->key.length);
    facts[0] = met(&shown, by_issuer, sizeof by_issuer, NULL);
    facts[1] = met(&shown, NULL, 0, ENFORCE);
    facts[2] = met(&shown, by_key, sizeof by_key, NULL);
    facts[3] = met(&shown, by_key_bytes, 3 + shown.leaf->key.length, NULL);
    for (size_t i = 0; i < 4; i++) {
        judged(name, &facts[i], wanted[i]);
        plainly(name, &shown, facts[i], wanted[i]);
    }
}

static void judged_by_names(void)
{
    enum { DANE = TWEEDSTORK_DANE, NO_DANE = TWEEDSTORK_DANE_MISMATCH, STS = TWEEDSTORK_MTA_STS, NO_STS = TWEEDSTORK_MTA_STS_MISMATCH };

    by_names("the host", NAMED("@82'" HOST "'"), DANE, STS);
    by_names("the host, second", NAMED("@82'other.example' @82'" HOST "'"), DANE, STS);
    by_names("a wildcard behind other names", NAMED("@82'a' 81'b@c' @82'b' 87:00 @82'*.example.com'"), DANE, STS);
    by_names("the host as another kind of name", NAMED("81'" HOST "' 86'" HOST "' @82'a' 88:2A"), NO_DANE, NO_STS);
    by_names("the next-hop", NAMED("@82'Example.COM'"), DANE, NO_STS);
    by_names("others", NAMED("@82'a.example' @82'mail.example.org'"), NO_DANE, NO_STS);
    by_names("the common name", SUBJECT(CN("#0C'" HOST "'")), DANE, NO_STS);
    by_names("the last common name", SUBJECT(CN("0C'a'") CN("#13'" HOST "'")), DANE, NO_STS);
    by_names("an earlier common name", SUBJECT(CN("0C'" HOST "'") CN("#13'a'")), NO_DANE, NO_STS);
    by_names("the common name beside a DNS-ID", CERTIFICATE(CN("#0C'" HOST "'"), EXTENSIONS(SAN("@82'a'"))), NO_DANE, NO_STS);
    by_names("the common name beside an empty DNS-ID", CERTIFICATE(CN("#0C'" HOST "'"), EXTENSIONS(SAN("@82''"))), NO_DANE, NO_STS);
    by_names("the common name beside an address", CERTIFICATE(CN("#0C'" HOST "'"), EXTENSIONS(SAN("87:00"))), DANE, NO_STS);
    by_names("a common name of two bytes a letter", SUBJECT(CN("#1E:006D00610069006C")), NO_DANE, NO_STS);
    by_names("no name", SUBJECT(""), NO_DANE, NO_STS);
    by_names("a zero byte in the DNS-ID", NAMED("@82:6D61696C2E6578616D706C652E636F6D002E6F7267"), NO_DANE, NO_STS);
}

/*
 * A TLSA set, written as text: of each record its kind, such as 311, and + where its data are those of what the server shows, - where
 * they are another's, and < where these lack their last byte.
 */
#define MOST_RECORDS 4

struct set {
    uint8_t records[1000], lengths[4 * MOST_RECORDS];
    size_t length, count;
};

/* The data of a record that matches. The digests are those of `shows`. */
static size_t put_data(const struct shown *shown, const char *record, uint8_t *data)
{
    const struct place leaf = {0, shown->leaf->length}, second = {shown->leaf->length, 1};
    int of_leaf = record[0] == '3', of_key = record[1] == '1';
    struct place place = !of_leaf ? second : of_key ? shown->leaf->key : leaf;
    size_t length = record[2] == '0' ? place.length : record[2] == '1' ? 32 : 64;

    if (record[2] == '0')
        memcpy(data, shown->certificates.bytes + place.start, length);
    else
        memset(data, of_leaf && of_key ? 1 : 0, length);
    return length;
}

/* One more record. Data that match are another's once their last byte is changed. */
static void add_record(struct set *set, const struct shown *shown, const char *record)
{
    uint8_t *rdata = set->records + set->length;
    size_t length = 3 + put_data(shown, record, rdata + 3);

    for (int i = 0; i < 3; i++)
        rdata[i] = (uint8_t)(record[i] - '0');
    rdata[length - 1] ^= record[3] == '+' ? 0 : 1;
    length -= record[3] == '<' ? 1 : 0;
    tweedstork_put_number(set->lengths, set->count++, (uint32_t)length);
    set->length += length;
}

/* The set of this text, or the same in the other order. */
static struct set set_of(const char *text, const struct shown *shown, int is_reversed)
{
    struct set set = {{0}, {0}, 0, 0};
    size_t count = (strlen(text) + 1) / 5;

    for (size_t i = 0; i < count; i++)
        add_record(&set, shown, text + 5 * (is_reversed ? count - 1 - i : i));
    return set;
}

static struct tweedstork_slice copied(const uint8_t *bytes, size_t length)
{
    struct tweedstork_slice slice = guarded(length);

    memcpy((uint8_t *)slice.bytes, bytes, length);
    return slice;
}

/* Asks both calls, in either order of the records, and sees that the set is as it was. */
static void by_set(const char *text, const struct shown *shown, uint64_t wanted)
{
    for (int is_reversed = 0; is_reversed < 2; is_reversed++) {
        struct set set = set_of(text, shown, is_reversed);
        struct tweedstork_host_facts facts = met(shown, NULL, 0, NULL);

        facts.tlsa[0].result = TWEEDSTORK_TLSA_SECURE;
        facts.tlsa[0].records = copied(set.records, set.length);
        facts.tlsa[0].lengths = copied(set.lengths, 4 * set.count);
        judged(text, &facts, wanted);
        plainly(text, shown, facts, wanted);
        expect(text, memcmp(facts.tlsa[0].records.bytes, set.records, set.length) == 0);
        expect(text, memcmp(facts.tlsa[0].lengths.bytes, set.lengths, 4 * set.count) == 0);
    }
}

/* Document 02, No. 8: of usable records with one usage and selector SHA-256 is ignored beside SHA-512; type 0 always counts. */
static void strongest_digests(void)
{
    enum { YES = TWEEDSTORK_DANE, NO = TWEEDSTORK_DANE_MISMATCH, TLS = TWEEDSTORK_ENCRYPTED };
    static const struct {
        const char *set;
        uint64_t wanted;
    } sets[] = {
        {"311+ 312-", NO}, {"311- 312+", YES}, {"311+ 312+", YES}, {"311- 312-", NO}, {"311+", YES}, {"312+", YES},
        {"301+ 302-", NO}, {"301- 302+", YES}, {"201+ 202-", NO}, {"201- 202+", YES}, {"211+ 212-", NO}, {"211- 212+", YES},
        {"311+ 311+ 312-", NO}, {"311+ 312- 312-", NO}, {"311+ 312- 312+", YES}, /* several of one digest */
        {"311+ 302-", YES}, {"301+ 312-", YES}, {"211+ 202-", YES}, {"201+ 212-", YES}, /* another selector */
        {"311+ 212-", YES}, {"211+ 312-", YES}, {"301+ 202-", YES}, {"201+ 302-", YES}, /* another usage */
        {"311+ 302- 212- 202-", YES}, {"311+ 302- 212- 312-", NO}, {"311+ 312- 201+ 202-", NO}, {"311+ 312- 201+ 212-", YES},
        {"310+ 311- 312-", YES}, {"300+ 301- 302-", YES}, {"200+ 201- 202-", YES}, {"210+ 211- 212-", YES}, /* as it is */
        {"310- 311+", YES}, {"310- 311+ 312-", NO}, {"310+ 312-", YES}, {"310- 312+", YES},
        {"311+ 312<", YES}, {"311+ 312< 312-", NO}, {"311< 312+", YES}, {"311< 312-", NO}, /* unusable */
        {"311+ 112-", YES}, {"311+ 012-", YES}, {"311+ 322-", YES}, {"311+ 313-", YES}, {"311< 312<", TLS}, {"111+ 112+", TLS},
    };
    struct shown shown = shows(NAMED("@82'" HOST "'")), before = shows(NAMED("@82'" HOST "'"));

    for (size_t i = 0; i < sizeof sets / sizeof sets[0]; i++)
        by_set(sets[i].set, &shown, sets[i].wanted);
    expect("certificates as they were", memcmp(shown.certificates.bytes, before.certificates.bytes, before.certificates.length) == 0);
    expect("lengths as they were", memcmp(shown.lengths.bytes, before.lengths.bytes, before.lengths.length) == 0);
    expect("key places as they were", memcmp(shown.key_places.bytes, before.key_places.bytes, before.key_places.length) == 0);
    expect("digests as they were", memcmp(shown.digests.bytes, before.digests.bytes, before.digests.length) == 0);
    expect("paths as they were", memcmp(shown.paths.bytes, before.paths.bytes, before.paths.length) == 0);
}

/* Names of 255 bytes are taken, longer ones refused. */
static void long_names(void)
{
    for (int size = 254; size <= 257; size++) {
        char text[600];
        struct shown shown;
        struct tweedstork_host_facts facts;

        snprintf(text, sizeof text, CERTIFICATE(CN("#0C*%d"), EXTENSIONS(SAN("@82'" HOST "'"))), size);
        shown = shows(text);
        facts = met(&shown, by_issuer, sizeof by_issuer, NULL);
        judged("a long common name", &facts, size > 255 ? 65 : 3);
        snprintf(text, sizeof text, CERTIFICATE(CN("#0C'a'"), EXTENSIONS(SAN("@82'" HOST "' @82*%d"))), size);
        shown = shows(text);
        facts = met(&shown, by_issuer, sizeof by_issuer, NULL);
        judged("a long DNS-ID", &facts, size > 255 ? 65 : 3);
    }
}

/* A leaf for the host that is malformed at its end, has 64 DNS-IDs more, or one of 256 bytes, or several of these. */
static struct shown faulty_leaf(int is_malformed, int has_many, int has_long)
{
    static char text[4000];
    int length = snprintf(text, sizeof text, "30(30(" BEFORE_SUBJECT "30() " KEY "A3(30(30(06:551D11 04(30(82'" HOST "' ");

    for (int i = 0; i < 64 && has_many; i++)
        length += snprintf(text + length, sizeof text - (size_t)length, "82'n%d' ", i);
    snprintf(text + length, sizeof text - (size_t)length, "%s)))))" END ")%s", has_long ? "82*256" : "", is_malformed ? "=00" : "");
    return shows(text);
}

/* Every set of faults: the first of them in the order is the answer. */
static void order_of_refusals(void)
{
    static const uint64_t numbers[] = {67, 62, 60, 61, 53, 64, 65, 90, 91, 65, 66};
    enum { FAULTS = sizeof numbers / sizeof numbers[0] };
    struct tweedstork_host_facts leaves[8];
    char name[60];

    for (int i = 0; i < 8; i++) {
        struct shown shown = faulty_leaf(i & 1, i >> 1 & 1, i >> 2 & 1);
        leaves[i] = met(&shown, by_issuer, sizeof by_issuer, ENFORCE);
    }
    for (unsigned faults = 0; faults < 1u << FAULTS; faults++) {
        struct tweedstork_host_facts facts = leaves[faults >> 7 & 7];
        unsigned first = 0;

        facts.trusted_root = faults & 1 ? 0 : TWEEDSTORK_YES;
        facts.clock = faults & 2 ? UINT64_MAX : facts.clock;
        facts.next_hop = faults & 4 ? text_of("example..com") : facts.next_hop;
        facts.host = faults & 8 ? text_of("mail_.example.com") : facts.host;
        facts.policy = faults & 16 ? text_of("\n") : facts.policy;
        facts.tlsa[0].lengths.length = faults & 32 ? 3 : 4;
        facts.paths.length = faults & 64 ? 4 : 8;
        facts.starttls = faults & 1024 ? TWEEDSTORK_STARTTLS_NOT_GIVEN : TWEEDSTORK_STARTTLS_OFFERED;
        while (first < FAULTS && !(faults >> first & 1))
            first++;
        snprintf(name, sizeof name, "the set of faults %u", faults);
        judged(name, &facts, first == FAULTS ? TWEEDSTORK_DANE_AND_MTA_STS : numbers[first]);
    }
}

/* The lists begin with the leaf, but for the key places; each fault of theirs comes before those of the leaf. */
static void lists_of_certificates(const char *name, struct shown shown, uint64_t wanted)
{
    struct tweedstork_host_facts facts = met(&shown, by_issuer, sizeof by_issuer, NULL), changed;
    static uint8_t longer[3 * 192];

    judged(name, &facts, wanted);
    for (size_t length = 0; length <= 24; length++) {
        changed = facts;
        changed.key_places = (struct tweedstork_slice){longer, length};
        judged(name, &changed, length == 8 ? wanted : 65);
        changed = facts;
        changed.certificate_lengths.length = length < 8 ? length : 8;
        judged(name, &changed, length < 8 ? 65 : wanted);
    }
    changed = facts;
    changed.paths.length = 4;
    judged(name, &changed, 65);
    changed = facts;
    changed.digests.length--;
    judged(name, &changed, 65);
    changed.digests = (struct tweedstork_slice){longer, sizeof longer};
    judged(name, &changed, 65);
    changed = facts;
    changed.certificates.length--;
    judged(name, &changed, 65);
    changed.certificates.length -= 1;
    judged(name, &changed, 65);
    changed = facts;
    put(changed.key_places, 0, 1);
    judged("a key place outside the second certificate", &changed, 65);
    put(changed.key_places, 0, 0);
    put(changed.paths, 1, 3);
    judged("a path that is neither yes nor no", &changed, 67);
    put(changed.paths, 1, TWEEDSTORK_YES);
}

static void lists(void)
{
    lists_of_certificates("lists beside a good leaf", faulty_leaf(0, 0, 0), TWEEDSTORK_DANE);
    lists_of_certificates("lists beside a malformed leaf", faulty_leaf(1, 1, 1), 90);
    lists_of_certificates("lists beside a leaf with many names", faulty_leaf(0, 1, 1), 91);
    lists_of_certificates("lists beside a leaf with a long name", faulty_leaf(0, 0, 1), 65);
}

/* The leaf is read wherever it is given, also where no rule comes to it; what isn't given is not read. */
static void where_a_leaf_is_read(void)
{
    struct shown shown[2];
    struct tweedstork_host_facts facts;

    shown[0] = faulty_leaf(0, 0, 0);
    shown[1] = faulty_leaf(1, 0, 0);
    for (int i = 0; i < 2; i++) {
        facts = met(&shown[i], NULL, 0, NULL);
        judged("nothing needed", &facts, i ? 90 : 2);
        facts = met(&shown[i], by_issuer, sizeof by_issuer, NULL);
        facts.tls_version = TWEEDSTORK_TLS_1_1;
        judged("old TLS", &facts, i ? 90 : 28);
        facts.starttls = TWEEDSTORK_STARTTLS_NOT_OFFERED;
        judged("no STARTTLS", &facts, i ? 90 : 24);
        facts.handshake = TWEEDSTORK_NOT_ESTABLISHED;
        facts.starttls = TWEEDSTORK_STARTTLS_OFFERED;
        judged("no handshake", &facts, i ? 90 : 25);
        facts.starttls = TWEEDSTORK_STARTTLS_NOT_GIVEN;
        judged("a missing fact", &facts, i ? 90 : 66);
        facts.address = TWEEDSTORK_ADDRESS_LOOKUP_FAILED;
        judged("no address", &facts, i ? 90 : 20);
        facts.certificates_given = TWEEDSTORK_CERTIFICATES_NOT_GIVEN;
        facts.trusted_root = UINT64_MAX;
        facts.key_places.length = 3;
        judged("no address, and no certificates given", &facts, 20);
        facts.address = TWEEDSTORK_NO_ALIAS_SECURE;
        facts.starttls = TWEEDSTORK_STARTTLS_OFFERED;
        facts.handshake = TWEEDSTORK_ESTABLISHED;
        facts.tls_version = TWEEDSTORK_TLS_1_2;
        judged("no certificates given", &facts, 12);
        facts.certificates_given = 2;
        judged("certificates neither given nor not", &facts, 67);
    }
}

/* No certificate, a leaf of no bytes, a leaf alone, and one of the most bytes and of one more. */
static void odd_leaves(void)
{
    struct shown shown = faulty_leaf(0, 0, 0);
    struct tweedstork_host_facts facts = met(&shown, by_key, sizeof by_key, NULL), none = facts;

    none.certificates.length = none.certificate_lengths.length = none.key_places.length = none.digests.length = none.paths.length = 0;
    judged("no certificate", &none, 26);
    none.certificates.bytes = none.certificate_lengths.bytes = none.key_places.bytes = none.digests.bytes = none.paths.bytes = NULL;
    judged("no certificate, as NULL", &none, 26);
    none.key_places = facts.key_places;
    judged("no certificate, and a key place", &none, 65);
    facts.certificates.length = shown.leaf->length;
    facts.certificate_lengths.length = facts.paths.length = 4;
    facts.digests.length = 192;
    facts.key_places.length = 0;
    judged("a leaf alone", &facts, 3);
    facts.certificates.length = 0;
    put(facts.certificate_lengths, 0, 0);
    judged("a leaf of no bytes", &facts, 90);
    for (size_t more = 0; more < 2; more++) {
        char text[200];

        snprintf(text, sizeof text, SUBJECT("31(30(06:2A 04*%zu))"), 16309 + more);
        shown = shows(text);
        facts = met(&shown, by_key, sizeof by_key, NULL);
        expect("the longest leaf", shown.leaf->length == 16384 + more);
        judged("the longest leaf, and one more byte", &facts, more ? 65 : 3);
    }
}

int main(void)
{
    judged_by_names();
    strongest_digests();
    long_names();
    order_of_refusals();
    lists();
    where_a_leaf_is_read();
    odd_leaves();
    printf("leaf: %u passed, %u failed\n", passed, failed);
    return failed == 0 ? 0 : 1;
}
