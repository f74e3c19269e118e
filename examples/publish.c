/*
 * What a domain publishes for MTA-STS: prints the policy file and the DNS line, ready to copy.
 *
 * Usage: publish [--id ID] MODE LIFETIME [PATTERN ...]
 *        publish [--id ID] --rewrite FILE
 * MODE is enforce, testing or none. LIFETIME is how many seconds senders keep the policy. A PATTERN is the name of a mail server,
 * or '*.' and a name (in quotes, or the shell takes the star). FILE has a policy, which is written anew with its mode, lifetime and
 * patterns alone. ID is one that the domain never had; without --id it is the present time.
 *
 * The file is changed first and DNS second: a sender that sees a new id fetches the file at once, and would keep the old one under
 * the new id (RFC 8461, 8.1). To have just the file, and none where something is refused:
 *
 *     publish enforce 604800 mail.example.com >publication.txt &&
 *         sed -n '/^version: /,/^max_age: /p' publication.txt >mta-sts.txt
 */
#include <inttypes.h>
#include <stdio.h>
#include <stdlib.h>
#include <string.h>
#include <time.h>

#include "tweedstork.h"

#define MOST_BYTES 65537 /* one more than a policy may have: the library then says that it is too long */

static int wrong_usage(void)
{
    fputs("usage: publish [--id ID] MODE LIFETIME [PATTERN ...]\n"
          "       publish [--id ID] --rewrite FILE\n"
          "MODE is enforce, testing or none; LIFETIME is in seconds; a PATTERN is a name or '*.' and a name\n", stderr);
    return 2;
}

/* Ends a line on standard error that begins with what is refused. */
static int refused(uint64_t number)
{
    fprintf(stderr, ": answer %" PRIu64 ": %s\n", number, tweedstork_answer_words(number));
    return 1;
}

/* The mode of this name; 0 where it is none. */
static uint64_t mode_of(const char *word)
{
    if (strcmp(word, "enforce") == 0)
        return TWEEDSTORK_ENFORCE;
    if (strcmp(word, "testing") == 0)
        return TWEEDSTORK_TESTING;
    return strcmp(word, "none") == 0 ? TWEEDSTORK_NONE : 0;
}

/* Reads a number of decimal digits; returns 0 where the word is none, or its number does not fit. */
static int read_number(const char *word, uint64_t *number)
{
    *number = 0;
    for (const char *at = word; *at != '\0'; at++) {
        uint64_t digit = (uint64_t)*at - '0';
        if (*at < '0' || *at > '9' || *number > (UINT64_MAX - digit) / 10)
            return 0;
        *number = *number * 10 + digit;
    }
    return *word != '\0';
}

/* The library takes the patterns one after another, and the list of their lengths. */
static struct tweedstork_write_answer write_policy(uint64_t mode, uint64_t lifetime, char **patterns, size_t count, uint8_t *output)
{
    size_t length = 0, at = 0;
    for (size_t i = 0; i < count; i++)
        length += strlen(patterns[i]);
    uint8_t *joined = malloc(length + 1), *lengths = malloc(4 * count + 1); /* malloc of no bytes may be NULL */
    if (joined == NULL || lengths == NULL) {
        perror("publish");
        exit(2);
    }
    for (size_t i = 0; i < count; i++) {
        size_t own = strlen(patterns[i]);
        memcpy(joined + at, patterns[i], own);
        tweedstork_put_number(lengths, i, (uint32_t)own);
        at += own;
    }
    struct tweedstork_write_answer answer =
        tweedstork_write_policy(mode, lifetime, joined, length, lengths, 4 * count, output, TWEEDSTORK_WRITE_POLICY_ROOM);
    free(joined);
    free(lengths);
    return answer;
}

/* Names the first pattern that is refused by itself; where there is none, it is their number. */
static void name_patterns(char **patterns, size_t count)
{
    uint8_t output[TWEEDSTORK_WRITE_POLICY_ROOM];
    for (size_t i = 0; i < count; i++) {
        if (write_policy(TWEEDSTORK_NONE, 0, &patterns[i], 1, output).number == TWEEDSTORK_BAD_PATTERNS) {
            fprintf(stderr, "publish: pattern %zu, \"%s\"", i + 1, patterns[i]);
            return;
        }
    }
    fprintf(stderr, "publish: %zu patterns", count);
}

/* Writes the policy of MODE, LIFETIME and PATTERNs to the output. Returns the status to end with, 0 where all is well. */
static int make_policy(char **words, size_t count, uint8_t *output, size_t *length)
{
    uint64_t mode = count < 2 ? 0 : mode_of(words[0]), lifetime;
    if (mode == 0 || !read_number(words[1], &lifetime))
        return wrong_usage();
    struct tweedstork_write_answer answer = write_policy(mode, lifetime, words + 2, count - 2, output);
    *length = (size_t)answer.length;
    if (answer.number == TWEEDSTORK_DONE)
        return 0;
    if (answer.number == TWEEDSTORK_BAD_PATTERNS)
        name_patterns(words + 2, count - 2);
    else
        fprintf(stderr, "publish: lifetime %" PRIu64, lifetime);
    return refused(answer.number);
}

/* The same for the policy in a file. */
static int rewrite_policy(const char *path, uint8_t *output, size_t *length)
{
    static uint8_t body[MOST_BYTES];
    FILE *file = fopen(path, "rb");
    size_t size = file == NULL ? 0 : fread(body, 1, sizeof body, file);
    int is_read = file != NULL && !ferror(file);
    if (file != NULL)
        fclose(file);
    if (!is_read) {
        fprintf(stderr, "publish: cannot read %s\n", path);
        return 2;
    }
    struct tweedstork_write_answer answer = tweedstork_rewrite_policy(body, size, output, TWEEDSTORK_WRITE_POLICY_ROOM);
    *length = (size_t)answer.length;
    if (answer.number == TWEEDSTORK_DONE)
        return 0;
    struct tweedstork_policy_answer old = tweedstork_read_policy(body, size); /* which line is it? */
    fprintf(stderr, "publish: %s", path);
    if (old.line > 0)
        fprintf(stderr, ", line %" PRIu64, old.line);
    if (answer.number == TWEEDSTORK_BAD_PATTERNS)
        fprintf(stderr, ", %" PRIu64 " patterns", old.mx_count);
    return refused(answer.number);
}

static void show(const uint8_t *policy, size_t policy_length, const uint8_t *record, size_t record_length)
{
    puts("1. Serve these lines at https://mta-sts.DOMAIN/.well-known/mta-sts.txt, as\n"
         "   text/plain and with no empty line at either end:\n");
    fwrite(policy, 1, policy_length, stdout);
    puts("\n2. Only then put this line into DOMAIN's zone, in the place of an older one:\n"
         "   a sender that sees a new id fetches the file at once.\n");
    printf("_mta-sts IN TXT \"%.*s\"\n", (int)record_length, (const char *)record);
}

int main(int argc, char **argv)
{
    uint8_t record[TWEEDSTORK_WRITE_TXT_ROOM], policy[TWEEDSTORK_WRITE_POLICY_ROOM];
    char now[32];
    time_t clock = time(NULL);
    int has_id = argc > 2 && strcmp(argv[1], "--id") == 0, first = has_id ? 3 : 1;
    const char *id = has_id ? argv[2] : now;
    size_t words = argc > first ? (size_t)(argc - first) : 0, policy_length = 0;

    if (tweedstork_version() != TWEEDSTORK_VERSION_NUMBER) {
        fprintf(stderr, "publish: the archive has version %" PRIu64 ", the header %d\n", tweedstork_version(), TWEEDSTORK_VERSION_NUMBER);
        return 2;
    }
    int status = words == 2 && strcmp(argv[first], "--rewrite") == 0
        ? rewrite_policy(argv[first + 1], policy, &policy_length)
        : make_policy(argv + first, words, policy, &policy_length);
    if (status != 0)
        return status;
    strftime(now, sizeof now, "%Y%m%d%H%M%SZ", gmtime(&clock));
    struct tweedstork_write_answer answer = tweedstork_write_txt((const uint8_t *)id, strlen(id), record, sizeof record);
    if (answer.number != TWEEDSTORK_DONE) {
        fprintf(stderr, "publish: id \"%s\"", id);
        return refused(answer.number);
    }
    show(policy, policy_length, record, (size_t)answer.length);
    if (fflush(stdout) != 0 || ferror(stdout)) {
        perror("publish: standard output");
        return 2;
    }
    return 0;
}
