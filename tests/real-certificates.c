/*
 * The certificate reader on real certificates, held against what OpenSSL reads in the same bytes: those of Debian's package
 * ca-certificates, or another file in PEM, some that OpenSSL makes here, and each of them with bytes changed.
 * Usage: real-certificates FILE
 */
#define _DEFAULT_SOURCE /* for memory() of expect.h */
#include <inttypes.h>
#include <openssl/pem.h>
#include <stdio.h>
#include <string.h>

#include "certificates.h"
#include "der.h"
#include "expect.h"
#include "tweedstork.h"

#define MOST_BYTES 100000
#define CHANGES 50 /* of each certificate */

static uint8_t *lent; /* a certificate ends where this memory ends */
static unsigned changed_count, both_read;

/* What the library reads in a certificate. */
struct reading {
    const uint8_t *bytes;
    size_t length;
    struct tweedstork_certificate_answer answer;
    uint8_t places[TWEEDSTORK_PLACES_ROOM];
};

static void read_into(struct reading *reading, const uint8_t *bytes, size_t length)
{
    reading->bytes = memcpy(lent + MOST_BYTES - length, bytes, length);
    reading->length = length;
    reading->answer = tweedstork_read_certificate(reading->bytes, length, reading->places, sizeof reading->places);
}

static int is_part(const struct reading *reading, uint64_t start, uint64_t part_length, const uint8_t *wanted, int length)
{
    return length >= 0 && part_length == (uint64_t)length && start <= reading->length && part_length <= reading->length - start
           && (length == 0 || memcmp(reading->bytes + start, wanted, (size_t)length) == 0);
}

/* Are the DNS-IDs OpenSSL's, in their order? */
static int same_dns_ids(const struct reading *reading, const GENERAL_NAMES *names)
{
    uint64_t count = 0;
    int same = 1;

    for (int i = 0; i < sk_GENERAL_NAME_num(names); i++) {
        const GENERAL_NAME *name = sk_GENERAL_NAME_value(names, i);

        if (name->type == GEN_DNS && count < reading->answer.dns_id_count) {
            struct tweedstork_slice id = tweedstork_dns_id(reading->bytes, reading->places, (size_t)count);

            same = same && is_part(reading, (uint64_t)(id.bytes - reading->bytes), id.length, ASN1_STRING_get0_data(name->d.dNSName),
                                   ASN1_STRING_length(name->d.dNSName));
        }
        count += name->type == GEN_DNS;
    }
    return same && count == reading->answer.dns_id_count;
}

/* Is the common name the last of OpenSSL's? Of a value that is no text OpenSSL keeps something else than its contents. */
static int same_common_name(const struct reading *reading, const X509 *certificate)
{
    const X509_NAME *subject = X509_get_subject_name(certificate);
    const ASN1_STRING *value = NULL;
    uint64_t start = reading->answer.common_name_start, length = reading->answer.common_name_length;

    for (int at = -1; (at = X509_NAME_get_index_by_NID(subject, NID_commonName, at)) >= 0;)
        value = X509_NAME_ENTRY_get_data(X509_NAME_get_entry(subject, at));
    if (value == NULL)
        return reading->answer.common_name_given == TWEEDSTORK_NO && start == 0 && length == 0;
    if (reading->answer.common_name_given != TWEEDSTORK_YES)
        return 0;
    return (ASN1_tag2bit(ASN1_STRING_type(value)) & (B_ASN1_DIRECTORYSTRING | B_ASN1_IA5STRING)) == 0
           || is_part(reading, start, length, ASN1_STRING_get0_data(value), ASN1_STRING_length(value));
}

/* Is the key info what OpenSSL encodes, with its header? */
static int same_key(const struct reading *reading, const X509 *certificate)
{
    unsigned char *key = NULL;
    int length = i2d_X509_PUBKEY(X509_get_X509_PUBKEY(certificate), &key);
    int same = is_part(reading, reading->answer.key_start, reading->answer.key_length, key, length);

    OPENSSL_free(key);
    return same;
}

static uint64_t random_number(uint64_t below)
{
    static uint64_t state = 88172645463325252u;

    state ^= state << 13;
    state ^= state >> 7;
    state ^= state << 17;
    return (state >> 16) % below;
}

/* Where both read a certificate with bytes changed, they read the same names in it. Each may refuse what the other reads. */
static void change(const char *name, const uint8_t *bytes, size_t length)
{
    static uint8_t changed[MOST_BYTES];

    for (int i = 0; i < CHANGES; i++) {
        const unsigned char *from = changed;
        struct reading reading;
        GENERAL_NAMES *names;
        X509 *certificate;
        int found;

        memcpy(changed, bytes, length);
        for (uint64_t more = random_number(3) + 1; more > 0; more--)
            changed[random_number(length)] = (uint8_t)random_number(256);
        read_into(&reading, changed, length);
        certificate = reading.answer.number == TWEEDSTORK_DONE ? d2i_X509(NULL, &from, (long)length) : NULL;
        names = certificate == NULL ? NULL : X509_get_ext_d2i(certificate, NID_subject_alt_name, &found, NULL);
        changed_count++;
        if (certificate != NULL && (names != NULL || found == -1)) {
            both_read++;
            expect(name, same_dns_ids(&reading, names) && same_common_name(&reading, certificate));
        }
        GENERAL_NAMES_free(names);
        X509_free(certificate);
        ERR_clear_error();
    }
}

/* A certificate by its bytes: read as OpenSSL reads it, with the places' room just enough, too short, cut off and with a byte more. */
static void compare(const char *name, const uint8_t *bytes, size_t length)
{
    const unsigned char *from = bytes;
    X509 *certificate = d2i_X509(NULL, &from, (long)length);
    struct reading reading;
    GENERAL_NAMES *names;
    uint8_t longer[MOST_BYTES] = {0};
    size_t room;

    need(name, certificate != NULL && from == bytes + length && length < MOST_BYTES);
    names = X509_get_ext_d2i(certificate, NID_subject_alt_name, NULL, NULL);
    read_into(&reading, bytes, length);
    if (reading.answer.number != TWEEDSTORK_DONE)
        printf("%s: %" PRIu64 " at %" PRIu64 "\n", name, reading.answer.number, reading.answer.offset);
    expect(name, reading.answer.number == TWEEDSTORK_DONE && reading.answer.offset == 0);
    expect(name, same_dns_ids(&reading, names) && same_common_name(&reading, certificate) && same_key(&reading, certificate));
    room = (size_t)reading.answer.length;
    expect(name, room == 16 * reading.answer.dns_id_count);
    expect(name, tweedstork_read_certificate(reading.bytes, length, reading.places, room).number == TWEEDSTORK_DONE);
    expect(name, room == 0 || tweedstork_read_certificate(reading.bytes, length, reading.places, room - 1).number == TWEEDSTORK_OUTPUT_SHORT);
    read_into(&reading, bytes, length - 1);
    expect(name, reading.answer.number == TWEEDSTORK_CERTIFICATE_MALFORMED && reading.answer.offset == 0);
    memcpy(longer, bytes, length);
    read_into(&reading, longer, length + 1);
    expect(name, reading.answer.number == TWEEDSTORK_CERTIFICATE_MALFORMED && reading.answer.offset == length);
    GENERAL_NAMES_free(names);
    X509_free(certificate);
    change(name, bytes, length);
}

static struct made *root;
static unsigned made_count;

/* The bytes of a certificate that was made, signed by the root; to be freed. */
static unsigned char *encode(struct made *new, size_t *length)
{
    unsigned char *bytes = NULL;
    int size = i2d_X509(signed_by(root, new)->certificate, &bytes);

    need("an encoding", size > 0 && size < MOST_BYTES);
    *length = (size_t)size;
    return bytes;
}

static void made(const char *name, struct made *new)
{
    size_t length;
    unsigned char *bytes = encode(new, &length);

    compare(name, bytes, length);
    OPENSSL_free(bytes);
    made_count++;
}

/* A subjectAltName of these bytes, written as tests/der.h has it. */
static struct made *naming_all(const char *names)
{
    const struct der *der = der_of(names);

    return with(begin(), NID_subject_alt_name, (const char *)der->bytes, (int)der->length);
}

static void dns_ids(void)
{
    size_t length;
    unsigned char *bytes = encode(naming_after(64, begin(), "a.example"), &length);
    struct reading reading;

    made("no subjectAltName", begin());
    made("one DNS-ID", naming(begin(), "mail.example.com"));
    made("two DNS-IDs", naming_after(1, begin(), "mail.example.com"));
    made("64 DNS-IDs", naming_after(63, begin(), "mail.example.com"));
    made("64 DNS-IDs and an address", naming_last(begin(), 64, NULL, GEN_EMAIL, "a@b.example", 11));
    made("an empty DNS-ID", naming(begin(), ""));
    made("a DNS-ID with a zero byte", naming_last(begin(), 1, NULL, GEN_DNS, "a\0b", 3));
    made("every kind of name", naming_all("30(A0(06:2A0304 A0(0C'x')) 81'a@b.example' 82'a.example' A3(30()) A4(30(31(30(06:55040A 0C'Test')))) "
                                          "A5(A0(0C'x') A1(0C'y')) 86'https://b.example' 82'b.example' 87:C0000201 88:2A0304 82'c.example')"));
    made("no name in subjectAltName", naming_all("30()"));
    read_into(&reading, bytes, length);
    expect("65 DNS-IDs", reading.answer.number == TWEEDSTORK_MANY_DNS_IDS && reading.answer.offset == 0 && reading.answer.key_length == 0);
    OPENSSL_free(bytes);
}

static void common_names(void)
{
    static const int types[] = {V_ASN1_UTF8STRING, V_ASN1_PRINTABLESTRING, V_ASN1_T61STRING, V_ASN1_IA5STRING};
    static const char wide[] = "\0m\0a\0i\0l", wider[] = "\0\0\0m\0\0\0x";
    struct made *several = called(called(called(begin(), "first"), "second"), "third");
    X509_NAME *subject = X509_get_subject_name(several->certificate);

    for (size_t i = 0; i < sizeof types / sizeof types[0]; i++)
        made("a common name", called_bytes(begin(), types[i], "mail.example.com", 16));
    made("a common name of two bytes a letter", called_bytes(begin(), V_ASN1_BMPSTRING, wide, sizeof wide - 1));
    made("a common name of four bytes a letter", called_bytes(begin(), V_ASN1_UNIVERSALSTRING, wider, sizeof wider - 1));
    made("several common names", several);
    need("names in one set", X509_NAME_add_entry_by_txt(subject, "CN", MBSTRING_ASC, (const unsigned char *)"fourth", -1, -1, -1)
                                 && X509_NAME_add_entry_by_txt(subject, "OU", MBSTRING_ASC, (const unsigned char *)"unit", -1, -1, -1)
                                 && X509_NAME_add_entry_by_txt(subject, "CN", MBSTRING_ASC, (const unsigned char *)"z", -1, 0, 1));
    made("several common names in one set", several);
    made("common names and DNS-IDs", naming_after(2, called(called(begin(), "a.example"), "b.example"), "c.example"));
}

static void keys(void)
{
    made("RSA", naming(keyed(begin(), EVP_RSA_gen(2048)), "a.example"));
    made("P-384", naming(keyed(begin(), EVP_EC_gen("P-384")), "a.example"));
    made("P-521", naming(keyed(begin(), EVP_EC_gen("P-521")), "a.example"));
    made("Ed25519", naming(keyed(begin(), EVP_PKEY_Q_keygen(NULL, NULL, "ED25519")), "a.example"));
}

/* Puts bytes behind the key info, for which OpenSSL has no call, and makes the lengths of what holds them fit again. */
static void with_unique_ids(const char *name, const char *ids)
{
    static uint8_t longer[MOST_BYTES];
    size_t length, key_length, more;
    unsigned char *bytes = encode(naming_after(3, called(begin(), "so that the signed part has over 255 bytes"), "a.example"), &length), *key = NULL;
    const struct der *der = der_of(ids);
    uint8_t *at = longer;

    key_length = (size_t)i2d_X509_PUBKEY(X509_get_X509_PUBKEY(kept[kept_count - 1].certificate), &key);
    memcpy(longer, bytes, length);
    while (memcmp(at, key, key_length) != 0)
        at++;
    at += key_length;
    more = der->length;
    memmove(at + more, at, (size_t)(longer + length - at));
    memcpy(at, der->bytes, more);
    for (size_t i = 3; i <= 7; i += 4) { /* the last byte of a length of two bytes: of Certificate, then of TBSCertificate */
        need("longer parts", longer[i - 2] == 0x82 && longer[i] + more < 256);
        longer[i] = (uint8_t)(longer[i] + more);
    }
    compare(name, longer, length + more);
    made_count++;
    OPENSSL_free(key);
    OPENSSL_free(bytes);
}

static void other_fields(void)
{
    static char comment[70000];
    struct made *first = begin();

    need("version 1", X509_set_version(first->certificate, X509_VERSION_1));
    made("version 1", called(first, "mail.example.com"));
    with_unique_ids("issuerUniqueID", "81:00FF");
    with_unique_ids("subjectUniqueID", "82:00");
    with_unique_ids("both unique ids", "81:0001 82:0002");
    made("an authority", with(authority("Other"), NID_key_usage, "\x03\x02\x01\x06", 4));
    made("an extension of 70,000 bytes", naming(with(begin(), NID_netscape_comment, comment, sizeof comment), "a.example"));
}

/* Each certificate of a file in PEM. Returns how many there are. */
static unsigned compare_all(BIO *file)
{
    unsigned count = 0;
    char *kind, *header;
    unsigned char *bytes;
    long length;

    while (PEM_read_bio(file, &kind, &header, &bytes, &length)) {
        char name[60];

        snprintf(name, sizeof name, "certificate %u of the file", ++count);
        compare(name, bytes, (size_t)length);
        OPENSSL_free(kind);
        OPENSSL_free(header);
        OPENSSL_free(bytes);
    }
    ERR_clear_error();
    return count;
}

int main(int argc, char **argv)
{
    BIO *file = argc == 2 ? BIO_new_file(argv[1], "r") : NULL;
    unsigned count = 0;

    lent = memory(MOST_BYTES);
    root = authority("Root");
    signed_by(root, root);
    dns_ids();
    common_names();
    keys();
    other_fields();
    if (file == NULL)
        printf("real-certificates: those of Debian's package ca-certificates are left out, since %s cannot be read\n", argc == 2 ? argv[1] : "no file");
    else
        count = compare_all(file);
    BIO_free(file);
    free_kept();
    printf("real-certificates: %u of the file and %u made here; %u changed, of which %u are read by both; %u passed, %u failed\n", count,
           made_count, changed_count, both_read, passed, failed);
    return failed == 0 ? 0 : 1;
}
