/*
 * The fuzz target of tweedstork_judge_host and tweedstork_judge_host_certificate. A line of an input is a letter, a colon and
 *   c   twelve codes, a character each: expanded_next_hop_given, origin, address, policy_given, tlsa_answers, tlsa1_result,
 *       tlsa2_result, starttls, handshake, certificates_given, trusted_root, common_name_given
 *   k   the clock
 *   f   fetched: a number, or c+N or c-N, counted from the clock
 *   v   tls_version, in hexadecimal digits
 *   n, a, h, x   next_hop, expanded_next_hop, host, expanded
 *   1, 2      the records of the two TLSA answers, each ended by a space: usage, selector, matching type (a digit is itself),
 *       then the data: a digit is what that certificate has for selector and type (after ^ for the other selector), ! changes
 *       the last bit, - drops the last byte, and any other text is as in decode.h
 *   s   the certificates shown, each ended by a space: path flag, key info's start and length, content. A digit is itself;
 *       start e is the end, E one more; length r is the rest, R one more, w the rest in 32 bits that wrap
 *   l   the leaf's path flag, and the leaf as der.h has it. It comes before the certificates of s, and where this line is given the
 *       call that reads the leaf is asked: without the leaf's key place, and without names
 *   d   the DNS-IDs, each ended by a space
 *   m   the common name
 *   e   changes to the slices (decode.h): a next_hop to q common_name, in the header's order
 *   p   the policy: all that is left of the input
 * A line of another form stands for nothing. Lines c, k, v, n, a, h and x have defaults (in decode).
 * The digests are no real ones: the rules only compare them.
 */
#include "der.h"
#include "target.h"

#include <string.h>

enum {
    NEXT_HOP, EXPANDED_NEXT_HOP, HOST, EXPANDED, POLICY, TLSA1_LENGTHS, TLSA1_RECORDS, TLSA2_LENGTHS, TLSA2_RECORDS,
    CERTIFICATES, CERTIFICATE_LENGTHS, KEY_PLACES, DIGESTS, PATHS, DNS_IDS, DNS_ID_LENGTHS, COMMON_NAME, SLICES
};
static const char *const slices[] = {
    "next_hop", "expanded_next_hop", "host", "expanded", "policy", "tlsa1_lengths", "tlsa1_records", "tlsa2_lengths",
    "tlsa2_records", "certificates", "certificate_lengths", "key_places", "digests", "paths", "dns_ids", "dns_id_lengths",
    "common_name", NULL};
enum {
    CLOCK, EXPANDED_NEXT_HOP_GIVEN, ORIGIN, ADDRESS, POLICY_GIVEN, FETCHED, TLSA_ANSWERS, TLSA1_RESULT, TLSA2_RESULT, STARTTLS,
    HANDSHAKE, TLS_VERSION, CERTIFICATES_GIVEN, TRUSTED_ROOT, COMMON_NAME_GIVEN, CALL
};
static const char *const numbers[] = {
    "clock", "expanded_next_hop_given", "origin", "address", "policy_given", "fetched", "tlsa_answers", "tlsa1_result",
    "tlsa2_result", "starttls", "handshake", "tls_version", "certificates_given", "trusted_root", "common_name_given",
    "call (1 plain, 2 with the leaf read)", NULL};
enum { PLAIN = 1, LEAF_READ };
static const char *const outputs[] = {NULL};
static const char *const fields[] = {"number", "tlsa_questions", NULL};
static const uint8_t answers[] = {1,  2,  3,  4,  5,  10, 11, 12, 13, 14, 20, 21, 22, 23, 24, 25, 26,
                                  27, 28, 50, 52, 53, 54, 55, 56, 57, 60, 61, 62, 64, 65, 66, 67, 90, 91, 0};

enum { PAIR = 8 }; /* bytes of a start and a length in a list */
enum { DIGEST_BYTES = 192 }; /* SHA-256 and SHA-512 of the certificate, then of its key info */

/* ---------------------------------------------------------------------------------------------------------- certificates */

/* Bytes that depend on all of the content, in the place of its digests. */
static void put_digest(struct bytes *to, const uint8_t *content, size_t length, size_t size)
{
    uint64_t state = 0xcbf29ce484222325u + size;
    for (size_t i = 0; i < length; i++)
        state = (state ^ content[i]) * 0x100000001b3u;
    for (size_t i = 0; i < size; i++) {
        state = state * 6364136223846793005u + 1442695040888963407u;
        put(to, (uint8_t)(state >> 56));
    }
}

static uint64_t place_of(uint8_t letter, uint8_t at_end, uint64_t end)
{
    if (letter >= '0' && letter <= '9')
        return (uint64_t)(letter - '0');
    if (letter == at_end)
        return end;
    return letter == at_end - ('a' - 'A') ? end + 1 : letter;
}

/* All that is told of the certificate that begins at `before`: its key info has this place. */
static void put_facts(struct call *call, size_t before, uint8_t path, uint64_t start, uint64_t length)
{
    struct bytes *digests = &call->slices[DIGESTS];
    const uint8_t *content = call->slices[CERTIFICATES].at + before;
    size_t size = call->slices[CERTIFICATES].length - before;
    int inside = start <= size && length <= size - start;

    put_number(&call->slices[CERTIFICATE_LENGTHS], size);
    put_number(&call->slices[PATHS], code_of(path));
    put_number(&call->slices[KEY_PLACES], start);
    put_number(&call->slices[KEY_PLACES], length);
    put_digest(digests, content, size, 32);
    put_digest(digests, content, size, 64);
    put_digest(digests, content + (inside ? start : 0), inside ? length : 0, 32);
    put_digest(digests, content + (inside ? start : 0), inside ? length : 0, 64);
}

static size_t put_certificate(struct text item, struct call *call)
{
    struct bytes *to = &call->slices[CERTIFICATES];
    size_t before = to->length;
    uint8_t path = take_byte(&item), start_letter = take_byte(&item), length_letter = take_byte(&item);
    size_t times = expand(item, to, before, call->slices), size = to->length - before;
    uint64_t start = place_of(start_letter, 'e', size), rest = start < size ? size - start : 0;
    put_facts(call, before, path, start, length_letter == 'w' ? size - start : place_of(length_letter, 'r', rest));
    return times;
}

/* Its key info is where the independent implementation reads it. */
static void put_leaf(struct text line, struct call *call)
{
    uint8_t path = take_byte(&line), places[TWEEDSTORK_PLACES_ROOM];
    put_der(line, &call->slices[CERTIFICATES], call->slices);
    struct tweedstork_certificate_answer read = independent_read_certificate(LENT(call, CERTIFICATES), places, sizeof places);
    put_facts(call, 0, path, read.key_start, read.key_length);
}

/* Once the records are made, the leaf's key place is not given. */
static void drop_leaf_place(struct bytes *places)
{
    places->length -= PAIR;
    memmove(places->at, places->at + PAIR, places->length);
}

/* --------------------------------------------------------------------------------------------------------------- records */

/* What a record of this selector and matching type is compared with, of the certificate with this number, where it exists. */
static void put_form(struct bytes *to, const struct call *call, size_t number, int key_info, uint8_t matching_type)
{
    const struct bytes *s = call->slices;
    if (number >= s[CERTIFICATE_LENGTHS].length / 4 || s[DIGESTS].length < (number + 1) * DIGEST_BYTES)
        return;
    const uint8_t *digests = s[DIGESTS].at + number * DIGEST_BYTES + (key_info ? 96 : 0), *content = s[CERTIFICATES].at;
    uint64_t size = number_at(&s[CERTIFICATE_LENGTHS], number);
    for (size_t i = 0; i < number; i++)
        content += number_at(&s[CERTIFICATE_LENGTHS], i);
    uint64_t start = key_info ? number_at(&s[KEY_PLACES], 2 * number) : 0;
    uint64_t length = key_info ? number_at(&s[KEY_PLACES], 2 * number + 1) : size;
    if (matching_type == 1)
        put_all(to, digests, 32);
    else if (matching_type == 2)
        put_all(to, digests + 32, 64);
    else if (start <= size && length <= size - start)
        put_all(to, content + start, length);
}

static size_t put_record(struct text item, struct bytes *to, const struct call *call)
{
    uint8_t head[3] = {0};
    size_t before = to->length;
    int other = 0;
    for (size_t i = 0; i < sizeof head && item.left > 0; i++) {
        uint8_t letter = take_byte(&item);
        head[i] = letter >= '0' && letter <= '9' ? letter - '0' : letter;
        put(to, head[i]);
    }
    for (; item.left > 0 && *item.at != '$'; take_byte(&item)) {
        uint8_t letter = *item.at;
        if (letter >= '0' && letter <= '9')
            put_form(to, call, letter - '0', (head[1] & 1) != other, head[2]);
        else if (letter == '!' && to->length > before)
            to->at[to->length - 1] ^= 1;
        else if (letter == '-')
            to->length -= to->length > before;
        else if (letter != '^' && letter != '!')
            put(to, letter);
        other = letter == '^';
    }
    return expand(item, to, before, call->slices);
}

/* ---------------------------------------------------------------------------------------------------------------- lines */

static void put_certificates(struct text line, struct call *call)
{
    while (line.left > 0) {
        struct text item = take(&line, ' ');
        size_t times = put_certificate(item, call);
        for (size_t i = 1; i < times; i++)
            put_certificate(item, call);
    }
}

/* Items with a list of their lengths: records, or names. */
static void put_items(struct text line, struct call *call, int items, int lengths, int are_records)
{
    struct bytes *to = &call->slices[items];
    while (line.left > 0) {
        struct text item = take(&line, ' ');
        size_t times = 1;
        for (size_t i = 0; i < times; i++) {
            size_t before = to->length;
            times = are_records ? put_record(item, to, call) : expand(item, to, before, call->slices);
            put_number(&call->slices[lengths], to->length - before);
        }
    }
}

static void take_codes(struct text line, struct call *call)
{
    static const int order[] = {EXPANDED_NEXT_HOP_GIVEN, ORIGIN, ADDRESS, POLICY_GIVEN, TLSA_ANSWERS, TLSA1_RESULT, TLSA2_RESULT,
                                STARTTLS, HANDSHAKE, CERTIFICATES_GIVEN, TRUSTED_ROOT, COMMON_NAME_GIVEN};
    for (size_t i = 0; i < sizeof order / sizeof order[0]; i++)
        call->numbers[order[i]] = line.left > 0 ? code_of(take_byte(&line)) : 0;
}

static uint64_t moment(struct text line, uint64_t clock)
{
    uint64_t from = 0;
    uint8_t sign = line.left > 0 ? *line.at : 0;
    if (sign == 'c') {
        from = clock;
        take_byte(&line);
        sign = take_byte(&line);
    }
    return sign == '-' ? from - take_number(&line) : from + take_number(&line);
}

static struct text text_of(const char *words)
{
    return (struct text){(const uint8_t *)words, strlen(words)};
}

/* The lines by their letters. */
static void take_lines(struct text input, struct text *lines)
{
    while (input.left > 0) {
        struct text whole = input, line = take(&input, '\n');
        uint8_t letter = take_byte(&line);
        if (take_byte(&line) != ':' || letter > 'z')
            continue;
        lines[letter] = line;
        if (letter == 'p') {
            lines[letter].left = whole.left - 2;
            return;
        }
    }
}

static void decode(struct text input, struct call *call)
{
    struct text lines['z' + 1] = {{NULL, 0}};
    lines['c'] = text_of("212200011122");
    lines['k'] = text_of("1700000000");
    lines['v'] = text_of("0303");
    lines['n'] = text_of("example.com");
    lines['a'] = text_of("shops.example.org");
    lines['h'] = text_of("mail.example.com");
    lines['x'] = text_of("mx.example.net");
    take_lines(input, lines);
    take_codes(lines['c'], call);
    call->numbers[CLOCK] = moment(lines['k'], 0);
    call->numbers[FETCHED] = moment(lines['f'], call->numbers[CLOCK]);
    call->numbers[TLS_VERSION] = take_hexadecimal(&lines['v']);
    expand(lines['n'], &call->slices[NEXT_HOP], 0, call->slices);
    expand(lines['a'], &call->slices[EXPANDED_NEXT_HOP], 0, call->slices);
    expand(lines['h'], &call->slices[HOST], 0, call->slices);
    expand(lines['x'], &call->slices[EXPANDED], 0, call->slices);
    call->numbers[CALL] = lines['l'].at == NULL ? PLAIN : LEAF_READ;
    if (call->numbers[CALL] == LEAF_READ)
        put_leaf(lines['l'], call);
    put_certificates(lines['s'], call);
    put_items(lines['1'], call, TLSA1_RECORDS, TLSA1_LENGTHS, 1);
    put_items(lines['2'], call, TLSA2_RECORDS, TLSA2_LENGTHS, 1);
    if (call->numbers[CALL] == LEAF_READ) {
        drop_leaf_place(&call->slices[KEY_PLACES]);
    } else {
        put_items(lines['d'], call, DNS_IDS, DNS_ID_LENGTHS, 0);
        expand(lines['m'], &call->slices[COMMON_NAME], 0, call->slices);
    }
    expand(lines['p'], &call->slices[POLICY], 0, call->slices);
    edit(lines['e'], call->slices, SLICES);
}

/* The arguments that both calls have, in their order. */
#define SHARED(call, n)                                                                                                 \
    (n)[CLOCK], LENT(call, NEXT_HOP), (n)[EXPANDED_NEXT_HOP_GIVEN], LENT(call, EXPANDED_NEXT_HOP), (n)[ORIGIN],         \
        LENT(call, HOST), (n)[ADDRESS], LENT(call, EXPANDED), (n)[POLICY_GIVEN], LENT(call, POLICY), (n)[FETCHED],      \
        (n)[TLSA_ANSWERS], (n)[TLSA1_RESULT], LENT(call, TLSA1_LENGTHS), LENT(call, TLSA1_RECORDS),                     \
        (n)[TLSA2_RESULT], LENT(call, TLSA2_LENGTHS), LENT(call, TLSA2_RECORDS),                                        \
        (n)[STARTTLS], (n)[HANDSHAKE], (n)[TLS_VERSION], (n)[CERTIFICATES_GIVEN], LENT(call, CERTIFICATES),             \
        LENT(call, CERTIFICATE_LENGTHS), LENT(call, KEY_PLACES), LENT(call, DIGESTS), LENT(call, PATHS), (n)[TRUSTED_ROOT]

static void ask(int independent, const struct call *call, uint64_t *answer)
{
    __typeof__(tweedstork_judge_host) *judge_host = independent ? independent_judge_host : tweedstork_judge_host;
    __typeof__(tweedstork_judge_host_certificate) *judge_host_certificate =
        independent ? independent_judge_host_certificate : tweedstork_judge_host_certificate;
    const uint64_t *n = call->numbers;
    struct tweedstork_host_answer a;
    if (n[CALL] == LEAF_READ)
        a = judge_host_certificate(SHARED(call, n));
    else
        a = judge_host(
            SHARED(call, n), LENT(call, DNS_IDS), LENT(call, DNS_ID_LENGTHS), n[COMMON_NAME_GIVEN], LENT(call, COMMON_NAME));
    answer[0] = a.number;
    answer[1] = a.tlsa_questions;
}

const struct target target = {"host", answers, numbers, slices, fields, outputs, NULL, decode, NULL, ask};
