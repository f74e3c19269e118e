/* Certificates for a test, made in memory by OpenSSL: one begins with a key of its own, gets what it is to have, and is signed. */
#ifndef CERTIFICATES_H
#define CERTIFICATES_H

#include <openssl/err.h>
#include <openssl/x509v3.h>
#include <stdint.h>
#include <stdio.h>
#include <stdlib.h>
#include <string.h>

#define DAY (24L * 60 * 60)

/* Without this there is nothing to test. */
static void need(const char *what, int is_there)
{
    if (!is_there) {
        printf("the test could not make %s\n", what);
        ERR_print_errors_fp(stdout);
        exit(2);
    }
}

/* A certificate and its key, and what the library refuses it with where it reads the leaf itself, or 0. All are kept until the end. */
struct made {
    X509 *certificate;
    EVP_PKEY *key;
    uint64_t refused;
};

static struct made kept[100];
static size_t kept_count;

static struct made *keyed(struct made *new, EVP_PKEY *key)
{
    EVP_PKEY_free(new->key);
    new->key = key;
    need("a key", key != NULL && X509_set_pubkey(new->certificate, key));
    return new;
}

static struct made *valid(struct made *new, long first_day, long last_day)
{
    need("dates", X509_gmtime_adj(X509_getm_notBefore(new->certificate), first_day * DAY) != NULL
                      && X509_gmtime_adj(X509_getm_notAfter(new->certificate), last_day * DAY) != NULL);
    return new;
}

/* A certificate that isn't signed yet, with a key of its own. */
static struct made *begin(void)
{
    struct made *new = &kept[kept_count++];
    X509_NAME *subject;

    need("so many certificates", kept_count <= sizeof kept / sizeof kept[0]);
    new->certificate = X509_new();
    need("a certificate", new->certificate != NULL && X509_set_version(new->certificate, X509_VERSION_3));
    subject = X509_get_subject_name(new->certificate);
    need("its fields", ASN1_INTEGER_set(X509_get_serialNumber(new->certificate), (long)kept_count)
                           && X509_NAME_add_entry_by_txt(subject, "O", MBSTRING_ASC, (const unsigned char *)"Test", -1, -1, 0));
    return valid(keyed(new, EVP_EC_gen("P-256")), -1, 30);
}

/* One more common name; its bytes may be of any length. */
static struct made *called_bytes(struct made *new, int type, const char *bytes, size_t length)
{
    need("a common name", X509_NAME_add_entry_by_NID(X509_get_subject_name(new->certificate), NID_commonName, type,
                                                     (const unsigned char *)bytes, (int)length, -1, 0));
    return new;
}

static struct made *called(struct made *new, const char *name)
{
    return called_bytes(new, V_ASN1_UTF8STRING, name, strlen(name));
}

static void add_name(GENERAL_NAMES *names, int type, const char *bytes, size_t length)
{
    GENERAL_NAME *name = GENERAL_NAME_new();
    ASN1_IA5STRING *text = ASN1_IA5STRING_new();

    need("a name", names != NULL && name != NULL && text != NULL && ASN1_STRING_set(text, bytes, (int)length));
    GENERAL_NAME_set0_value(name, type, text);
    need("a name", sk_GENERAL_NAME_push(names, name) > 0);
}

/* A subjectAltName: so many DNS-IDs that all differ (or, where "same" is given, don't), then a name of this type. */
static struct made *naming_last(struct made *new, int others, const char *same, int type, const char *bytes, size_t length)
{
    GENERAL_NAMES *names = GENERAL_NAMES_new();

    for (int i = 0; i < others; i++) {
        char other[32];

        snprintf(other, sizeof other, "n%d.example.org", i);
        add_name(names, GEN_DNS, same == NULL ? other : same, strlen(same == NULL ? other : same));
    }
    add_name(names, type, bytes, length);
    need("names", X509_add1_ext_i2d(new->certificate, NID_subject_alt_name, names, 0, X509V3_ADD_APPEND) == 1);
    GENERAL_NAMES_free(names);
    return new;
}

static struct made *naming_after(int others, struct made *new, const char *dns_id)
{
    return naming_last(new, others, NULL, GEN_DNS, dns_id, strlen(dns_id));
}

static struct made *naming(struct made *new, const char *dns_id)
{
    return naming_after(0, new, dns_id);
}

/* An extension of these bytes. */
static struct made *with(struct made *new, int nid, const char *bytes, int length)
{
    ASN1_OCTET_STRING *value = ASN1_OCTET_STRING_new();
    X509_EXTENSION *extension = NULL;

    need("an extension", value != NULL && ASN1_OCTET_STRING_set(value, (const unsigned char *)bytes, length)
                             && (extension = X509_EXTENSION_create_by_NID(NULL, nid, 0, value)) != NULL
                             && X509_add_ext(new->certificate, extension, -1));
    X509_EXTENSION_free(extension);
    ASN1_OCTET_STRING_free(value);
    return new;
}

static struct made *signed_by(const struct made *issuer, struct made *new)
{
    need("a signature", X509_set_issuer_name(new->certificate, X509_get_subject_name(issuer->certificate))
                            && X509_sign(new->certificate, issuer->key, EVP_sha256()) > 0);
    return new;
}

/* One that may issue others: basicConstraints with cA. */
static struct made *authority(const char *name)
{
    return with(called(begin(), name), NID_basic_constraints, "\x30\x03\x01\x01\xff", 5);
}

static void free_kept(void)
{
    while (kept_count-- > 0) {
        X509_free(kept[kept_count].certificate);
        EVP_PKEY_free(kept[kept_count].key);
    }
}

#endif
