/*
 * What a certificate says: prints its DNS-IDs, its common name and where its public key info stands, or where it is malformed.
 *
 * Usage: certificate FILE
 * FILE has the certificate in DER or in PEM; of several in PEM the first is read.
 */
#include <inttypes.h>
#include <stdio.h>
#include <string.h>

#include "tweedstork.h"

#define MOST_BYTES 1000000
#define MOST_SHOWN 100 /* of a name */
#define MOST_OFFENDING 16

static const char begin[] = "-----BEGIN CERTIFICATE-----", end[] = "-----END CERTIFICATE-----";

/* Reads a whole file, and puts a zero behind it; -1 where it cannot be opened, or has more than fits. */
static long read_file(const char *path, uint8_t *bytes)
{
    FILE *file = fopen(path, "rb");
    if (file == NULL)
        return -1;
    size_t length = fread(bytes, 1, MOST_BYTES, file);
    int whole = fgetc(file) == EOF && !ferror(file);
    fclose(file);
    bytes[length] = '\0';
    return whole ? (long)length : -1;
}

/* The six bits of a letter in base64; -1 where it is none. */
static int bits_of(char letter)
{
    static const char letters[] = "ABCDEFGHIJKLMNOPQRSTUVWXYZabcdefghijklmnopqrstuvwxyz0123456789+/";
    const char *found = letter == '\0' ? NULL : strchr(letters, letter);
    return found == NULL ? -1 : (int)(found - letters);
}

/* Turns a certificate in PEM into its bytes, in the same place. A text that is none stays: it may be DER. -1 where base64 is broken. */
static long decode(uint8_t *bytes, long length)
{
    const char *at = strstr((const char *)bytes, begin), *stop = at == NULL ? NULL : strstr(at, end);
    uint32_t bits = 0;
    int count = 0;
    long put = 0;

    if (stop == NULL)
        return length;
    for (at += sizeof begin - 1; at < stop && *at != '='; at++) {
        int six = bits_of(*at);
        if (six < 0 && strchr(" \t\r\n", *at) == NULL)
            return -1;
        if (six < 0)
            continue;
        bits = bits << 6 | (uint32_t)six;
        count += 6;
        if (count >= 8) {
            count -= 8;
            bytes[put++] = (uint8_t)(bits >> count);
        }
    }
    return put;
}

/* Shows a part of the certificate as text: of a long one the front, and each byte that does not print as \xHH. */
static void show_text(const char *name, const uint8_t *certificate, struct tweedstork_slice part)
{
    printf("%s, at byte %zu: \"", name, (size_t)(part.bytes - certificate));
    for (size_t i = 0; i < part.length && i < MOST_SHOWN; i++) {
        if (part.bytes[i] >= 0x20 && part.bytes[i] <= 0x7e && part.bytes[i] != '"' && part.bytes[i] != '\\')
            putchar(part.bytes[i]);
        else
            printf("\\x%02x", part.bytes[i]);
    }
    putchar('"');
    if (part.length > MOST_SHOWN)
        printf(" and so on, %zu bytes", part.length);
    putchar('\n');
}

/* Shows the first bytes of the element that offends. */
static void show_offending(const uint8_t *certificate, size_t length, size_t offset)
{
    printf("certificate: at byte %zu of %zu:", offset, length);
    for (size_t at = offset; at < length && at < offset + MOST_OFFENDING; at++)
        printf(" %02x", certificate[at]);
    puts(offset == length ? " the end" : length - offset > MOST_OFFENDING ? " and so on" : "");
}

static int show(const uint8_t *certificate, size_t length)
{
    uint8_t places[TWEEDSTORK_PLACES_ROOM];
    struct tweedstork_certificate_answer answer = tweedstork_read_certificate(certificate, length, places, sizeof places);

    printf("certificate: answer %" PRIu64 ": %s\n", answer.number, tweedstork_answer_words(answer.number));
    if (answer.number == TWEEDSTORK_CERTIFICATE_MALFORMED)
        show_offending(certificate, length, (size_t)answer.offset);
    if (answer.number != TWEEDSTORK_DONE)
        return 1;
    for (size_t i = 0; i < answer.dns_id_count; i++) {
        char name[40];
        snprintf(name, sizeof name, "DNS-ID %zu", i + 1);
        show_text(name, certificate, tweedstork_dns_id(certificate, places, i));
    }
    if (answer.common_name_given == TWEEDSTORK_YES) {
        struct tweedstork_slice common_name = {certificate + answer.common_name_start, (size_t)answer.common_name_length};
        show_text("common name", certificate, common_name);
    }
    printf("public key info, at byte %" PRIu64 ": %" PRIu64 " bytes\n", answer.key_start, answer.key_length);
    return 0;
}

int main(int argc, char **argv)
{
    static uint8_t bytes[MOST_BYTES + 1];
    if (argc != 2) {
        fprintf(stderr, "usage: certificate FILE\n");
        return 2;
    }
    long length = read_file(argv[1], bytes);
    if (length < 0) {
        fprintf(stderr, "certificate: cannot read %s (at most %d bytes)\n", argv[1], MOST_BYTES);
        return 2;
    }
    length = decode(bytes, length);
    if (length < 0) {
        fprintf(stderr, "certificate: %s has something else than base64 between its lines of PEM\n", argv[1]);
        return 2;
    }
    return show(bytes, (size_t)length);
}
