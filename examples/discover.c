/*
 * What a domain says of MTA-STS: reads its TXT records and its policy from files and prints what they say, or what is wrong.
 *
 * Usage: discover RECORDS POLICY
 * RECORDS has the TXT records of _mta-sts.DOMAIN, one a line; POLICY is the policy's body as it was fetched.
 */
#include <inttypes.h>
#include <stdio.h>
#include <stdlib.h>
#include <string.h>

#include "tweedstork.h"

#define MOST_BYTES 100000
#define MOST_SHOWN 100

/* Reads a whole file; -1 where it cannot be opened, or has more than fits. */
static long read_file(const char *path, uint8_t *bytes)
{
    FILE *file = fopen(path, "rb");
    if (file == NULL)
        return -1;
    size_t length = fread(bytes, 1, MOST_BYTES, file);
    int whole = fgetc(file) == EOF && !ferror(file);
    fclose(file);
    return whole ? (long)length : -1;
}

/* A record's RDATA as DNS sends it: character strings of at most 255 bytes, each with its length before it. */
static size_t put_rdata(uint8_t *rdata, const uint8_t *record, size_t length)
{
    size_t at = 0;
    do {
        size_t part = length < 255 ? length : 255;
        rdata[at++] = (uint8_t)part;
        memcpy(rdata + at, record, part);
        at += part;
        record += part;
        length -= part;
    } while (length > 0);
    return at;
}

static const char *mode_words(uint64_t mode)
{
    switch (mode) {
    case TWEEDSTORK_ENFORCE: return "enforce";
    case TWEEDSTORK_TESTING: return "testing";
    case TWEEDSTORK_NONE: return "none";
    default: return "unexpected mode";
    }
}

static int show_records(const uint8_t *text, size_t length)
{
    static uint8_t rdatas[2 * MOST_BYTES], lengths[4 * MOST_BYTES], output[MOST_BYTES];
    size_t rdatas_length = 0, records = 0, at = 0;

    while (at < length) {
        const uint8_t *end = memchr(text + at, '\n', length - at);
        size_t stop = end == NULL ? length : (size_t)(end - text);
        size_t rdata = put_rdata(rdatas + rdatas_length, text + at, stop - at);
        tweedstork_put_number(lengths, records, (uint32_t)rdata);
        rdatas_length += rdata;
        records++;
        at = stop + 1;
    }
    struct tweedstork_txt_answer answer = tweedstork_read_txt(rdatas, rdatas_length, lengths, records * 4, output, sizeof output);
    if (answer.number != TWEEDSTORK_TXT_ACCEPTED) {
        printf("records: answer %" PRIu64 ": %s\n", answer.number, tweedstork_answer_words(answer.number));
        return 1;
    }
    printf("records: answer %" PRIu64 ": an MTA-STS record with the id %.*s\n", answer.number, (int)answer.id_length, (const char *)output + answer.id_start);
    return 0;
}

/*
 * Shows the line of a policy that begins at the offset: without its LF or CRLF, of a long line the front, and each byte that does
 * not print as \xHH.
 */
static void show_line(const uint8_t *body, size_t length, size_t offset)
{
    size_t end = offset;
    while (end < length && body[end] != '\n')
        end++;
    if (end < length && end > offset && body[end - 1] == '\r')
        end--;
    putchar('"');
    for (size_t at = offset; at < end && at < offset + MOST_SHOWN; at++) {
        if (body[at] >= 0x20 && body[at] <= 0x7e && body[at] != '"' && body[at] != '\\')
            putchar(body[at]);
        else
            printf("\\x%02x", body[at]);
    }
    putchar('"');
    if (end - offset > MOST_SHOWN)
        printf(" and so on, %zu bytes", end - offset);
    putchar('\n');
}

static int show_policy(const uint8_t *body, size_t length)
{
    struct tweedstork_policy_answer answer = tweedstork_read_policy(body, length);
    if (answer.number != TWEEDSTORK_POLICY_ACCEPTED) {
        printf("policy: answer %" PRIu64 ": %s\n", answer.number, tweedstork_answer_words(answer.number));
        if (answer.line > 0) {
            printf("policy: line %" PRIu64 ", at byte %" PRIu64 ": ", answer.line, answer.offset);
            show_line(body, length, (size_t)answer.offset);
        }
        return 1;
    }
    printf("policy: answer %" PRIu64 ": mode %s, for %" PRIu64 " seconds, with %" PRIu64 " mx patterns\n", answer.number, mode_words(answer.mode), answer.lifetime, answer.mx_count);
    return 0;
}

int main(int argc, char **argv)
{
    static uint8_t bytes[MOST_BYTES];
    if (argc != 3) {
        fprintf(stderr, "usage: discover RECORDS POLICY\n");
        return 2;
    }
    for (int i = 1; i < 3; i++) {
        long length = read_file(argv[i], bytes);
        if (length < 0) {
            fflush(stdout);
            fprintf(stderr, "discover: cannot read %s (at most %d bytes)\n", argv[i], MOST_BYTES);
            return 2;
        }
        if ((i == 1 ? show_records : show_policy)(bytes, (size_t)length) != 0)
            return 1;
    }
    return 0;
}
