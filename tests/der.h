/*
 * Certificates for a test, written as text: each element is its tag and what it holds, and the lengths are made to fit.
 *
 *     30(02:01 0C'text' 04*300)   a SEQUENCE of an INTEGER with the byte 01, a UTF8String, and an OCTET STRING of 300 zeros
 *     =3080                       these bytes as they are, for what is no element
 *
 * A mark stands before an element, or before the bracket that ends its holder: @ a DNS-ID, # the common name, $ the public key
 * info, ! the place of a fault. What is marked is noted with its place in the bytes.
 */
#ifndef DER_H
#define DER_H

#include <stdint.h>
#include <stdio.h>
#include <stdlib.h>
#include <string.h>

#define MOST_DER 200000
#define MOST_NAMES 66

struct place {
    size_t start, length;
};

struct der {
    uint8_t bytes[MOST_DER];
    size_t length;
    struct place names[MOST_NAMES], common_name, key;
    size_t name_count, fault;
    int has_common_name, has_fault;
};

static inline void der_error(const char *at)
{
    printf("no text of a certificate: %.60s\n", at);
    exit(2);
}

static inline unsigned der_digit(const char *at)
{
    static const char digits[] = "0123456789ABCDEF";
    const char *found = *at == '\0' ? NULL : strchr(digits, *at);

    if (found == NULL)
        der_error(at);
    return (unsigned)(found - digits);
}

static inline int is_digit(char c)
{
    return c != '\0' && strchr("0123456789ABCDEF", c) != NULL;
}

static inline void der_put(struct der *to, unsigned byte)
{
    if (to->length == MOST_DER)
        der_error("too long");
    to->bytes[to->length++] = (uint8_t)byte;
}

/* The contents in hexadecimal, as a text in quotes, or as so many zeros. Returns what follows. */
static inline const char *der_contents(const char *at, struct der *to)
{
    if (*at == '\'') {
        for (at++; *at != '\'' && *at != '\0'; at++)
            der_put(to, (unsigned char)*at);
        return at + 1;
    }
    if (*at == '*') {
        char *end;

        for (long count = strtol(at + 1, &end, 10); count > 0; count--)
            der_put(to, 0);
        return end;
    }
    for (at++; is_digit(*at); at += 2)
        der_put(to, 16 * der_digit(at) + der_digit(at + 1));
    return at;
}

/* How many bytes a length has behind the first. */
static inline size_t length_bytes(size_t length)
{
    size_t count = 0;

    for (; length >= 128 || (count > 0 && length > 0); length >>= 8)
        count++;
    return count;
}

/* A header with its length in the shortest form. */
static inline size_t der_header(unsigned tag, size_t length, uint8_t *to)
{
    size_t more = length_bytes(length);

    to[0] = (uint8_t)tag;
    to[1] = (uint8_t)(more == 0 ? length : 0x80 + more);
    for (size_t i = 0; i < more; i++)
        to[2 + i] = (uint8_t)(length >> 8 * (more - 1 - i));
    return 2 + more;
}

/* Moves what was noted since then, by the length of a header that is put before it. */
static inline void der_shift(struct der *to, size_t names, int had_common_name, int had_fault, size_t key, size_t by)
{
    for (size_t i = names; i < to->name_count; i++)
        to->names[i].start += by;
    if (to->has_common_name && !had_common_name)
        to->common_name.start += by;
    if (to->has_fault && !had_fault)
        to->fault += by;
    if (to->key.length != key)
        to->key.start += by;
}

static inline const char *der_run(const char *at, struct der *to);

/* One element. Its contents are written first, and then moved behind its header. */
static inline const char *der_element(const char *at, struct der *to, char mark)
{
    unsigned tag = 16 * der_digit(at) + der_digit(at + 1);
    size_t start = to->length, names = to->name_count, key = to->key.length, length, size;
    int had_common_name = to->has_common_name, had_fault = to->has_fault;
    uint8_t header[10];

    if (at[2] == '(') {
        at = der_run(at + 3, to);
        if (*at++ != ')')
            der_error("a bracket is missing");
    } else {
        at = der_contents(at + 2, to);
    }
    length = to->length - start;
    size = der_header(tag, length, header);
    if (to->length + size > MOST_DER)
        der_error("too long");
    memmove(to->bytes + start + size, to->bytes + start, length);
    memcpy(to->bytes + start, header, size);
    to->length += size;
    der_shift(to, names, had_common_name, had_fault, key, size);
    if (mark == '@' && to->name_count < MOST_NAMES)
        to->names[to->name_count++] = (struct place){start + size, length};
    if (mark == '#') {
        to->common_name = (struct place){start + size, length};
        to->has_common_name = 1;
    }
    if (mark == '$')
        to->key = (struct place){start, size + length};
    return at;
}

/* Elements up to the bracket that ends their holder, or the end, which is returned. */
static inline const char *der_run(const char *at, struct der *to)
{
    for (char mark = 0;; mark = 0) {
        at += strspn(at, " ");
        if (*at == '!') {
            to->fault = to->length;
            to->has_fault = 1;
            at += 1 + strspn(at + 1, " ");
        }
        if (*at == '@' || *at == '#' || *at == '$')
            mark = *at++;
        if (*at == '\0' || *at == ')')
            return at;
        at = *at == '=' ? der_contents(at, to) : der_element(at, to, mark);
    }
}

static inline const struct der *der_of(const char *text)
{
    static struct der made;

    memset(&made, 0, sizeof made);
    if (*der_run(text, &made) != '\0')
        der_error(text);
    return &made;
}

/* The fields of a certificate, each as RFC 5280, 4.1 has it; contents that no rule reads are as short as they can be. */
#define VERSION "A0(02:02) "
#define MIDDLE "30(06:2A) 30() 30(17:00 17:00) " /* signature, issuer, validity */
#define BEFORE_SUBJECT VERSION "02:01 " MIDDLE
#define KEY "$30(30(06:2A8648CE3D0201) 03:0004) "
#define OTHER_KEY "30(30() 03:00) "
#define END ") 30(06:2A) 03:00"
#define CN(value) "31(30(06:550403 " value ")) "
#define EXTENSIONS(list) "A3(30(" list "))"
#define SAN(names) "30(06:551D11 04(30(" names "))) "
#define CERTIFICATE(subject, after_key) "30(30(" BEFORE_SUBJECT "30(" subject ") " KEY after_key END ")"
#define NAMED(names) CERTIFICATE("", EXTENSIONS(SAN(names)))
#define EXTENDED(extensions) CERTIFICATE("", EXTENSIONS(extensions))
#define SUBJECT(subject) CERTIFICATE(subject, "")

#endif
