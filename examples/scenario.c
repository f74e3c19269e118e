/* Reads a scenario's text: a keyword and its words on each line. */
#include "scenario.h"

#include <stdio.h>
#include <stdlib.h>
#include <string.h>

#define MOST_WORDS 5 /* of a line */

struct choice {
    const char *word;
    uint64_t code;
};

static const struct choice yes_no[] = {{"yes", TWEEDSTORK_YES}, {"no", TWEEDSTORK_NO}, {NULL, 0}};

static const struct choice origins[] = {{"secure", TWEEDSTORK_SECURE_MX}, {"insecure", TWEEDSTORK_INSECURE_MX}, {"none", TWEEDSTORK_NO_MX}, {NULL, 0}};

static const struct choice fetches[] = {{"answered", SCENARIO_FETCH_ANSWERED}, {"failed", SCENARIO_FETCH_FAILED}, {NULL, 0}};

static const struct choice addresses[] = {
    {"secure", TWEEDSTORK_NO_ALIAS_SECURE}, {"insecure", TWEEDSTORK_NO_ALIAS_INSECURE}, {"failed", TWEEDSTORK_ADDRESS_LOOKUP_FAILED},
    {"none", TWEEDSTORK_ADDRESS_ABSENT}, {NULL, 0}};

static const struct choice aliases[] = {
    {"secure", TWEEDSTORK_ALIAS_SECURE}, {"first-step-secure", TWEEDSTORK_ALIAS_FIRST_STEP_SECURE},
    {"first-step-insecure", TWEEDSTORK_ALIAS_FIRST_STEP_INSECURE}, {NULL, 0}};

static const struct choice tlsa_results[] = {
    {"secure", TWEEDSTORK_TLSA_SECURE}, {"insecure", TWEEDSTORK_TLSA_INSECURE}, {"absent", TWEEDSTORK_TLSA_ABSENT},
    {"failed", TWEEDSTORK_TLSA_LOOKUP_FAILED}, {NULL, 0}};

static const struct choice starttls_offers[] = {{"offered", TWEEDSTORK_STARTTLS_OFFERED}, {"not-offered", TWEEDSTORK_STARTTLS_NOT_OFFERED}, {NULL, 0}};

static const struct choice tls_versions[] = {
    {"1.0", TWEEDSTORK_TLS_1_0}, {"1.1", TWEEDSTORK_TLS_1_1}, {"1.2", TWEEDSTORK_TLS_1_2}, {"1.3", TWEEDSTORK_TLS_1_3}, {NULL, 0}};

static int choose(const char *word, const struct choice *choices, uint64_t *code)
{
    for (; choices->word != NULL; choices++)
        if (strcmp(word, choices->word) == 0) {
            *code = choices->code;
            return 1;
        }
    return 0;
}

static int read_number(const char *word, uint64_t most, uint64_t *number)
{
    char *end;
    unsigned long long value;

    if (word[0] < '0' || word[0] > '9')
        return 0;
    value = strtoull(word, &end, 10);
    *number = value;
    return *end == '\0' && value <= most;
}

static int append(struct scenario_bytes *to, const void *bytes, size_t length)
{
    if (length > sizeof to->bytes - to->length)
        return 0;
    memcpy(to->bytes + to->length, bytes, length);
    to->length += length;
    return 1;
}

static int append_text(struct scenario_bytes *to, const char *text)
{
    return append(to, text, strlen(text));
}

static int append_number(struct scenario_bytes *list, uint32_t number)
{
    uint8_t bytes[4];

    tweedstork_put_number(bytes, 0, number);
    return append(list, bytes, sizeof bytes);
}

static int append_part(struct scenario_parts *to, const void *bytes, size_t length)
{
    return append(&to->joined, bytes, length) && append_number(&to->lengths, (uint32_t)length);
}

/* Bytes in hexadecimal; HEX*COUNT is the same bytes COUNT times. */
static int read_hex(const char *word, struct scenario_bytes *bytes)
{
    uint64_t count = 1;
    const char *star = strchr(word, '*');
    size_t digits = star == NULL ? strlen(word) : (size_t)(star - word);

    if (digits == 0 || digits % 2 != 0 || strspn(word, "0123456789abcdef") != digits || (star != NULL && !read_number(star + 1, sizeof bytes->bytes, &count)))
        return 0;
    for (; count > 0; count--)
        for (size_t i = 0; i < digits; i += 2) {
            char pair[3] = {word[i], word[i + 1], '\0'};
            uint8_t byte = (uint8_t)strtoul(pair, NULL, 16);
            if (!append(bytes, &byte, 1))
                return 0;
        }
    return 1;
}

/* record USAGE SELECTOR MATCHING-TYPE HEX: one more record of the TLSA answer last named. */
static int add_record(struct scenario_tlsa *answer, char **words)
{
    static struct scenario_bytes rdata;
    uint64_t number;

    if (answer == NULL)
        return 0;
    rdata.length = 0;
    for (int i = 1; i <= 3; i++) {
        uint8_t byte;
        if (!read_number(words[i], 255, &number))
            return 0;
        byte = (uint8_t)number;
        append(&rdata, &byte, 1);
    }
    return read_hex(words[4], &rdata) && append_part(&answer->records, rdata.bytes, rdata.length);
}

/* Puts bytes before those that are there. */
static int put_before(struct scenario_bytes *to, const void *bytes, size_t length)
{
    if (length > sizeof to->bytes - to->length)
        return 0;
    memmove(to->bytes + length, to->bytes, to->length);
    memcpy(to->bytes, bytes, length);
    to->length += length;
    return 1;
}

/* Makes of the bytes that are there one DER element: puts its tag and its length, in the shortest form, before them. */
static int wrap(struct scenario_bytes *contents, uint8_t tag)
{
    size_t length = contents->length;
    uint8_t header[4] = {tag, (uint8_t)length, 0, 0};

    if (length < 128)
        return put_before(contents, header, 2);
    header[1] = length < 256 ? 0x81 : 0x82;
    header[2] = (uint8_t)(length < 256 ? length : length >> 8);
    header[3] = (uint8_t)length;
    return put_before(contents, header, length < 256 ? 3 : 4);
}

/* The subject: the common name, where there is one (2.5.4.3). */
static int make_subject(struct scenario_bytes *subject)
{
    static const uint8_t is_common_name[] = {6, 3, 0x55, 4, 3};

    return (subject->length == 0 || (wrap(subject, 12) && put_before(subject, is_common_name, sizeof is_common_name) &&
                                     wrap(subject, 0x30) && wrap(subject, 0x31))) && wrap(subject, 0x30);
}

/* The extensions: subjectAltName, where there is a DNS-ID (2.5.29.17). */
static int make_extensions(struct scenario_bytes *names)
{
    static const uint8_t is_alternative_name[] = {6, 3, 0x55, 0x1d, 17};

    return names->length == 0 || (wrap(names, 0x30) && wrap(names, 4) && put_before(names, is_alternative_name, sizeof is_alternative_name) &&
                                  wrap(names, 0x30) && wrap(names, 0x30) && wrap(names, 0xa3));
}

/*
 * The leaf that the server shows: a certificate (RFC 5280, 4.1) with the names of the scenario. All else in it is as short as can be,
 * the public key info too: a relay has real ones, and their digests, from its TLS library.
 */
static int make_leaf(struct scenario_host *host)
{
    static const uint8_t before_subject[] = {2, 1, 1, 0x30, 0, 0x30, 0, 0x30, 0}, key_info[] = {0x30, 0};
    static const uint8_t signature[] = {0x30, 0, 3, 1, 0};
    struct scenario_bytes leaf = {{0}, 0};

    if (host->certificates.lengths.length == 0)
        return 1;
    if (!make_subject(&host->common_name) || !make_extensions(&host->dns_ids) || !append(&leaf, before_subject, sizeof before_subject) ||
        !append(&leaf, host->common_name.bytes, host->common_name.length) || !append(&leaf, key_info, sizeof key_info) ||
        !append(&leaf, host->dns_ids.bytes, host->dns_ids.length) || !wrap(&leaf, 0x30) || !append(&leaf, signature, sizeof signature) ||
        !wrap(&leaf, 0x30))
        return 0;
    leaf.length -= host->malformed ? 1 : 0;
    tweedstork_put_number(host->certificates.lengths.bytes, 0, (uint32_t)leaf.length);
    return put_before(&host->certificates.joined, leaf.bytes, leaf.length);
}

/* A digest of this size, in hexadecimal; zeros where the scenario doesn't say it (NULL). */
static int append_digest(struct scenario_bytes *digests, const char *hex, size_t size)
{
    static const uint8_t not_said[64];
    size_t before = digests->length;

    return hex == NULL ? append(digests, not_said, size) : read_hex(hex, digests) && digests->length == before + size;
}

/*
 * certificate PATH HEX [HEX]: one more certificate; does the path from the leaf to it verify, the SHA-256 of its public key info,
 * and perhaps its SHA-512. A relay has the certificate, its key info and all four digests from its TLS library; here a text stands
 * for a certificate after the leaf, and the digests that no record of ours asks for are zero. The leaf is made when all its names
 * are read.
 */
static int add_certificate(struct scenario_host *host, const char *path, const char *key_sha256, const char *key_sha512)
{
    static const char text[] = "a certificate with its key";
    uint64_t verifies;
    int is_leaf = host->certificates.lengths.length == 0;

    return choose(path, yes_no, &verifies) && append_number(&host->paths, (uint32_t)verifies) &&
           append_part(&host->certificates, text, is_leaf ? 0 : sizeof text - 1) &&
           (is_leaf || (append_number(&host->key_places, (uint32_t)(strstr(text, "key") - text)) && append_number(&host->key_places, 3))) &&
           append_digest(&host->digests, NULL, 32) && append_digest(&host->digests, NULL, 64) &&
           append_digest(&host->digests, key_sha256, 32) && append_digest(&host->digests, key_sha512, 64);
}

/* dns-id NAME: one more DNS-ID of the leaf, as an element of GeneralNames. */
static int add_dns_id(struct scenario_host *host, const char *name)
{
    struct scenario_bytes element = {{0}, 0};

    return append_text(&element, name) && wrap(&element, 0x82) && append(&host->dns_ids, element.bytes, element.length);
}

/* clock NUMBER: a message begins. */
static int begin_message(struct scenario *s, const char *clock)
{
    struct scenario_message *m = &s->messages[s->message_count];

    if (s->message_count == SCENARIO_MESSAGES)
        return 0;
    s->message_count++;
    m->expanded_next_hop_given = TWEEDSTORK_NO;
    m->policy_given = TWEEDSTORK_NO_POLICY;
    return read_number(clock, UINT64_MAX, &m->clock);
}

/* txt id=ID: the RDATA of the TXT record with this id, one character string; txt none: there is no record. */
static int add_txt(struct scenario_message *m, const char *field)
{
    char rdata[256];
    int length = snprintf(rdata, sizeof rdata, ".v=STSv1; %s;", field);

    m->looks_for_policy = 1;
    if (strcmp(field, "none") == 0)
        return 1;
    if ((size_t)length >= sizeof rdata)
        return 0;
    rdata[0] = (char)(length - 1);
    return append_part(&m->txt, rdata, (size_t)length);
}

static int begin_host(struct scenario_message *m, const char *preference, const char *name)
{
    uint64_t number;
    struct scenario_host *host = &m->hosts[m->host_count];

    if (m->host_count == SCENARIO_HOSTS || !read_number(preference, 65535, &number))
        return 0;
    m->host_count++;
    host->preference = (uint32_t)number;
    host->trusted_root = TWEEDSTORK_NO;
    return append_text(&host->name, name);
}

/* A line on the message last begun. */
static int read_message_line(struct scenario_message *m, char **words, size_t count)
{
    if (count == 3 && strcmp(words[0], "host") == 0)
        return begin_host(m, words[1], words[2]);
    if (count != 2)
        return 0;
    if (strcmp(words[0], "next-hop") == 0)
        return append_text(&m->next_hop, words[1]);
    if (strcmp(words[0], "expanded-next-hop") == 0) {
        m->expanded_next_hop_given = TWEEDSTORK_YES;
        return append_text(&m->expanded_next_hop, words[1]);
    }
    if (strcmp(words[0], "policy-fetched") == 0) {
        m->policy_given = TWEEDSTORK_POLICY;
        return read_number(words[1], UINT64_MAX, &m->fetched);
    }
    if (strcmp(words[0], "txt") == 0)
        return add_txt(m, words[1]);
    if (strcmp(words[0], "fetch") == 0)
        return choose(words[1], fetches, &m->fetch);
    if (strcmp(words[0], "mx") == 0) {
        m->mx_lookup = strcmp(words[1], "failed") == 0 ? TWEEDSTORK_MX_FAILED : TWEEDSTORK_MX_ANSWERED;
        return m->mx_lookup == TWEEDSTORK_MX_FAILED || choose(words[1], origins, &m->origin);
    }
    return 0;
}

/* handshake established TLS VERSION, or handshake failed: only an established one has a version. */
static int read_handshake(struct scenario_host *host, char **words, size_t count)
{
    if (count == 4 && strcmp(words[1], "established") == 0 && strcmp(words[2], "TLS") == 0) {
        host->handshake = TWEEDSTORK_ESTABLISHED;
        return choose(words[3], tls_versions, &host->tls_version);
    }
    host->handshake = TWEEDSTORK_NOT_ESTABLISHED;
    return count == 2 && strcmp(words[1], "failed") == 0;
}

/* A line on the host last named; `tlsa` is its TLSA answer last named. */
static int read_host_line(struct scenario_host *host, struct scenario_tlsa **tlsa, char **words, size_t count)
{
    const char *keyword = words[0];

    if (count == 3 && strcmp(keyword, "alias") == 0)
        return choose(words[1], aliases, &host->address) && append_text(&host->expanded, words[2]);
    if ((count == 3 || count == 4) && strcmp(keyword, "certificate") == 0)
        return add_certificate(host, words[1], words[2], count == 4 ? words[3] : NULL);
    if (count == 5 && strcmp(keyword, "record") == 0)
        return add_record(*tlsa, words);
    if (strcmp(keyword, "handshake") == 0)
        return read_handshake(host, words, count);
    if (count != 2)
        return 0;
    if (strcmp(keyword, "tlsa") == 0 || strcmp(keyword, "tlsa-expanded") == 0) {
        *tlsa = keyword[4] == '\0' ? &host->at_host : &host->at_expanded;
        return choose(words[1], tlsa_results, &(*tlsa)->result);
    }
    if (strcmp(keyword, "address") == 0)
        return choose(words[1], addresses, &host->address);
    if (strcmp(keyword, "connection") == 0) {
        host->lost = 1;
        return strcmp(words[1], "lost") == 0;
    }
    if (strcmp(keyword, "starttls") == 0)
        return choose(words[1], starttls_offers, &host->starttls);
    if (strcmp(keyword, "trusted-root") == 0)
        return choose(words[1], yes_no, &host->trusted_root);
    if (strcmp(keyword, "dns-id") == 0)
        return add_dns_id(host, words[1]);
    if (strcmp(keyword, "common-name") == 0)
        return append_text(&host->common_name, words[1]);
    if (strcmp(keyword, "leaf") == 0) {
        host->malformed = 1;
        return strcmp(words[1], "malformed") == 0;
    }
    return 0;
}

/* Cuts a line into words, up to a comment. Returns how many; one more than the most that a line has is too many. */
static size_t split(char *text, char **words)
{
    size_t count = 0;

    for (char *word = strtok(text, " \t\n"); word != NULL && word[0] != '#' && count <= MOST_WORDS; word = strtok(NULL, " \t\n"))
        words[count++] = word;
    return count;
}

static int read_line(struct scenario *s, struct scenario_tlsa **tlsa, char *text)
{
    char *words[MOST_WORDS + 1];
    char *at = text + strspn(text, " \t");
    struct scenario_message *m = s->message_count == 0 ? NULL : &s->messages[s->message_count - 1];
    size_t count, hosts = m == NULL ? 0 : m->host_count;

    if (at[0] == '|') /* a line of the policy, after "| " */
        return m != NULL && append_text(&m->policy, at[1] == ' ' ? at + 2 : at + 1);
    count = split(at, words);
    if (count == 0)
        return 1;
    if (count == 2 && strcmp(words[0], "clock") == 0)
        return begin_message(s, words[1]);
    if (m != NULL && read_message_line(m, words, count)) {
        if (m->host_count > hosts)
            *tlsa = NULL;
        return 1;
    }
    return hosts > 0 && read_host_line(&m->hosts[hosts - 1], tlsa, words, count);
}

/* Makes each host's leaf. Returns 0 where one has no room. */
static int make_leaves(struct scenario *s)
{
    int good = 1;

    for (size_t i = 0; i < s->message_count; i++)
        for (size_t k = 0; k < s->messages[i].host_count; k++)
            good = good && make_leaf(&s->messages[i].hosts[k]);
    return good;
}

int scenario_read(const char *path, struct scenario *scenario)
{
    char text[1024];
    struct scenario_tlsa *tlsa = NULL;
    unsigned number = 0;
    int good = 1;
    FILE *file = fopen(path, "r");

    if (file == NULL) {
        fprintf(stderr, "cannot open the scenario %s\n", path);
        return 0;
    }
    memset(scenario, 0, sizeof *scenario);
    while (good && fgets(text, sizeof text, file) != NULL) {
        number++;
        good = read_line(scenario, &tlsa, text);
    }
    fclose(file);
    if (!good)
        fprintf(stderr, "%s, line %u: not understood\n", path, number);
    else if (scenario->message_count == 0)
        fprintf(stderr, "%s: no message\n", path);
    else if (!make_leaves(scenario))
        fprintf(stderr, "%s: the names of a leaf are too long\n", path);
    else
        return 1;
    return 0;
}
