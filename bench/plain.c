/*
 * The rules in plain C: what the benchmark compares the library with. It is what a careful C programmer would write who cares for speed:
 * the library's checks and answers on every input, no heap, every byte read once or twice, tables for the classes of
 * bytes, memcmp and memcpy where they fit, and no pointer that leaves its slice. Nothing of it is proved.
 */
#define _DEFAULT_SOURCE
#include <endian.h>
#include <string.h>

#include "plain.h"

/* ---- bytes and numbers ---- */

struct slice {
    const uint8_t *at;
    size_t length;
};

/* What is left to read. */
struct reader {
    const uint8_t *at, *end;
};

enum {
    ALPHANUMERIC = 1,  /* letter or digit */
    FIELD_NAME = 2,    /* of a field's name, after its first byte */
    LABEL = 4,         /* of a label of a name */
    TXT_VALUE = 8,     /* of a TXT field's value */
    POLICY_VALUE = 16  /* of a policy field's value, beside UTF-8: 21 to 7E hex, and the space inside it */
};

#define IS_DIGIT(c) ((c) >= '0' && (c) <= '9')
#define IS_UPPER(c) ((c) >= 'A' && (c) <= 'Z')
#define IS_ALPHANUMERIC(c) (IS_DIGIT(c) || IS_UPPER(c) || ((c) >= 'a' && (c) <= 'z'))
#define IS_PRINTED(c) ((c) >= 0x21 && (c) <= 0x7e)

#define CLASSES(c)                                                                              \
    ((IS_ALPHANUMERIC(c) ? ALPHANUMERIC | FIELD_NAME | LABEL : 0)                               \
     | ((c) == '_' || (c) == '-' || (c) == '.' ? FIELD_NAME : 0) | ((c) == '-' ? LABEL : 0)     \
     | (IS_PRINTED(c) && (c) != '=' && (c) != ';' ? TXT_VALUE : 0)                              \
     | (IS_PRINTED(c) || (c) == ' ' ? POLICY_VALUE : 0))
#define LOWER(c) ((c) | (IS_UPPER(c) ? 0x20 : 0))

#define FOUR(F, c) F(c), F((c) + 1), F((c) + 2), F((c) + 3)
#define SIXTEEN(F, c) FOUR(F, c), FOUR(F, (c) + 4), FOUR(F, (c) + 8), FOUR(F, (c) + 12)
#define SIXTY_FOUR(F, c) SIXTEEN(F, c), SIXTEEN(F, (c) + 16), SIXTEEN(F, (c) + 32), SIXTEEN(F, (c) + 48)
#define EVERY_BYTE(F) {SIXTY_FOUR(F, 0), SIXTY_FOUR(F, 64), SIXTY_FOUR(F, 128), SIXTY_FOUR(F, 192)}

static const uint8_t classes[256] = EVERY_BYTE(CLASSES);
static const uint8_t lower[256] = EVERY_BYTE(LOWER);

static uint32_t number_at(const uint8_t *p)
{
    return (uint32_t)p[0] << 24 | (uint32_t)p[1] << 16 | (uint32_t)p[2] << 8 | p[3];
}

static int is_text(struct slice s, const char *text, size_t length)
{
    return s.length == length && memcmp(s.at, text, length) == 0;
}
#define IS(s, text) is_text(s, text, sizeof text - 1)

static int is_between(uint64_t number, uint64_t least, uint64_t most)
{
    return number >= least && number <= most;
}

/* Is it a list of at most `most` lengths, each at most `longest`, that sum to total? */
static int are_lengths(struct slice lengths, size_t most, uint32_t longest, size_t total)
{
    size_t sum = 0;

    if (lengths.length % 4 != 0 || lengths.length / 4 > most)
        return 0;
    for (size_t i = 0; i < lengths.length; i += 4) {
        uint32_t length = number_at(lengths.at + i);
        if (length > longest)
            return 0;
        sum += length;
    }
    return sum == total;
}

/* ---- names and matching ---- */

static int is_name(struct slice s)
{
    size_t i = 0;

    if (s.length == 0 || s.length > 253)
        return 0;
    do {
        size_t start = i;
        while (i < s.length && classes[s.at[i]] & LABEL)
            i++;
        if (i == start || i - start > 63 || s.at[start] == '-' || s.at[i - 1] == '-')
            return 0;
        if (i == s.length)
            return 1;
    } while (s.at[i++] == '.');
    return 0;
}

static inline int is_pattern(struct slice s)
{
    if (s.length > 2 && s.at[0] == '*' && s.at[1] == '.')
        return is_name((struct slice){s.at + 2, s.length - 2});
    return is_name(s);
}

/* Lengths first, then byte pairs from the right: the library's order. */
static int is_same_name(struct slice a, struct slice b)
{
    if (a.length != b.length)
        return 0;
    for (size_t i = a.length; i-- > 0;)
        if (a.at[i] != b.at[i] && lower[a.at[i]] != lower[b.at[i]])
            return 0;
    return 1;
}

/* A name that patterns are held against, and its end from the first dot on (empty where it has none). */
struct reference {
    struct slice name, parent;
};

static struct reference reference_of(struct slice name)
{
    const uint8_t *dot = memchr(name.at, '.', name.length);
    size_t first = dot == NULL ? name.length : (size_t)(dot - name.at);

    return (struct reference){name, {name.at + first, name.length - first}};
}

/* A text that equals a name, or the end of a name behind a star, has one of the two forms: no need to test that apart. */
static int covers(struct slice pattern, const struct reference *reference)
{
    if (pattern.length > 1 && pattern.at[0] == '*')
        return is_same_name((struct slice){pattern.at + 1, pattern.length - 1}, reference->parent);
    return is_same_name(pattern, reference->name);
}

/* ---- fields, of TXT records and policies ---- */

static void skip_blanks(struct reader *r)
{
    while (r->at < r->end && (*r->at == ' ' || *r->at == '\t'))
        r->at++;
}

/* Reads a field's name and the mark that ends it. */
static int read_field_name(struct reader *r, uint8_t mark, struct slice *name)
{
    const uint8_t *start = r->at, *p = start, *limit = r->end - start > 32 ? start + 32 : r->end;

    if (p == limit || !(classes[*p] & ALPHANUMERIC))
        return 0;
    do
        p++;
    while (p < limit && classes[*p] & FIELD_NAME);
    if (p == r->end || *p != mark)
        return 0;
    *name = (struct slice){start, (size_t)(p - start)};
    r->at = p + 1;
    return 1;
}

/* ---- TXT records ---- */

static const char txt_start[] = "v=STSv1;";
enum { TXT_START = sizeof txt_start - 1, TXT_VERSION = TXT_START - 1 };

/* The length of the joined text, or -1 where a character string runs past the RDATA. */
static ptrdiff_t joined_length(struct slice rdata)
{
    size_t i = 0, joined = 0;

    while (i < rdata.length) {
        joined += rdata.at[i];
        i += 1 + (size_t)rdata.at[i];
    }
    return i == rdata.length ? (ptrdiff_t)joined : -1;
}

/* Writes the front of the joined text, up to room bytes. */
static void join(struct slice rdata, uint8_t *text, size_t room)
{
    for (size_t i = 0; i < rdata.length && room > 0; i += 1 + (size_t)rdata.at[i]) {
        size_t length = rdata.at[i] < room ? rdata.at[i] : room;
        memcpy(text, rdata.at + i + 1, length);
        text += length;
        room -= length;
    }
}

static int is_candidate(struct slice rdata, size_t joined)
{
    uint8_t front[TXT_START];

    if (rdata.at[0] >= TXT_START)
        return memcmp(rdata.at + 1, txt_start, TXT_START) == 0;
    if (joined < TXT_START)
        return 0;
    join(rdata, front, TXT_START);
    return memcmp(front, txt_start, TXT_START) == 0;
}

/* Finds the one candidate. Zero, or the refusal. */
static uint64_t find_candidate(struct slice rdatas, struct slice lengths, struct slice *found, size_t *found_joined)
{
    size_t candidates = 0;

    if (lengths.length % 4 != 0)
        return TWEEDSTORK_TXT_WIRE_FORM;
    for (size_t i = 0; i < lengths.length; i += 4) {
        struct slice rdata = {rdatas.at, number_at(lengths.at + i)};
        ptrdiff_t joined;
        if (rdata.length == 0 || rdata.length > rdatas.length || (joined = joined_length(rdata)) < 0)
            return TWEEDSTORK_TXT_WIRE_FORM;
        if (is_candidate(rdata, (size_t)joined)) {
            candidates++;
            *found = rdata;
            *found_joined = (size_t)joined;
        }
        rdatas.at += rdata.length;
        rdatas.length -= rdata.length;
    }
    if (rdatas.length != 0)
        return TWEEDSTORK_TXT_WIRE_FORM;
    return candidates == 0 ? TWEEDSTORK_TXT_NO_CANDIDATE : candidates == 1 ? 0 : TWEEDSTORK_TXT_SEVERAL;
}

static int is_id(struct slice value)
{
    if (value.length > 32)
        return 0;
    for (size_t i = 0; i < value.length; i++)
        if (!(classes[value.at[i]] & ALPHANUMERIC))
            return 0;
    return 1;
}

/* Reads a field; keeps the value of the first that is named id. */
static int read_txt_field(struct reader *r, struct slice *id)
{
    struct slice name, value;

    if (!read_field_name(r, '=', &name))
        return 0;
    value.at = r->at;
    while (r->at < r->end && classes[*r->at] & TXT_VALUE)
        r->at++;
    value.length = (size_t)(r->at - value.at);
    if (value.length == 0)
        return 0;
    if (id->length != 0 || !IS(name, "id"))
        return 1;
    *id = value;
    return is_id(value);
}

/* Reads the fields behind the version: its delimiter is there. At the end a delimiter may stand alone. */
static int read_txt_fields(struct reader *r, struct slice *id)
{
    do {
        skip_blanks(r);
        if (r->at == r->end || *r->at++ != ';')
            return 0;
        skip_blanks(r);
        if (r->at == r->end)
            break;
        if (!read_txt_field(r, id))
            return 0;
    } while (r->at < r->end);
    return id->length != 0;
}

struct tweedstork_txt_answer plain_read_txt(
    const uint8_t *rdatas, size_t rdatas_length,
    const uint8_t *lengths, size_t lengths_length,
    uint8_t *output, size_t output_length)
{
    struct slice rdata = {NULL, 0}, id = {NULL, 0};
    size_t joined = 0;
    uint64_t refusal = find_candidate((struct slice){rdatas, rdatas_length}, (struct slice){lengths, lengths_length}, &rdata, &joined);

    if (refusal != 0)
        return (struct tweedstork_txt_answer){refusal, 0, 0};
    if (joined > output_length)
        return (struct tweedstork_txt_answer){TWEEDSTORK_TXT_OUTPUT_SHORT, 0, 0};
    join(rdata, output, joined);
    struct reader r = {output + TXT_VERSION, output + joined};
    if (!read_txt_fields(&r, &id))
        return (struct tweedstork_txt_answer){TWEEDSTORK_TXT_MALFORMED, 0, 0};
    return (struct tweedstork_txt_answer){TWEEDSTORK_TXT_ACCEPTED, (uint64_t)(id.at - output), id.length};
}

/* ---- policies ---- */

enum { POLICY_LIMIT = 65536, LIFETIME_LIMIT = 31557600, PATTERNS_LIMIT = 16 /* of a policy that is written */ };

struct policy {
    uint64_t mode;          /* zero: not read yet */
    uint64_t lifetime;
    uint64_t mx_count;
    uint64_t line, offset;  /* of the line that offends; zero where none does */
    int has_version, has_max_age;
    int covers_host;        /* does one of its patterns match the host? */
};

/* The length of the well-formed UTF-8 sequence (RFC 3629) of 2 to 4 bytes at the front, or zero. */
static size_t utf8_length(const uint8_t *p, size_t left)
{
    size_t length = p[0] < 0xe0 ? 2 : p[0] < 0xf0 ? 3 : 4;
    uint8_t least = p[0] == 0xe0 ? 0xa0 : p[0] == 0xf0 ? 0x90 : 0x80;
    uint8_t most = p[0] == 0xed ? 0x9f : p[0] == 0xf4 ? 0x8f : 0xbf;

    if (p[0] < 0xc2 || p[0] > 0xf4 || length > left || p[1] < least || p[1] > most)
        return 0;
    for (size_t i = 2; i < length; i++)
        if ((p[i] & 0xc0) != 0x80)
            return 0;
    return length;
}

/* Reads blanks, a value and blanks. */
static int read_policy_value(struct reader *r, struct slice *value)
{
    skip_blanks(r);
    const uint8_t *p = r->at, *end = r->end, *stop;
    for (;;) {
        while (p < end && classes[*p] & POLICY_VALUE)
            p++;
        if (p == end || *p < 0x80)
            break;
        size_t length = utf8_length(p, (size_t)(end - p));
        if (length == 0)
            return 0;
        p += length;
    }
    stop = p;
    while (stop > r->at && stop[-1] == ' ')
        stop--;
    *value = (struct slice){r->at, (size_t)(stop - r->at)};
    r->at = p;
    skip_blanks(r);
    return value->length != 0;
}

/* Reads LF or CRLF; at the end of the body it may be absent. */
static int read_line_end(struct reader *r)
{
    if (r->at == r->end)
        return 1;
    if (*r->at == '\r')
        r->at++;
    return r->at < r->end && *r->at++ == '\n';
}

static uint64_t mode_of(struct slice value)
{
    return IS(value, "enforce") ? TWEEDSTORK_ENFORCE : IS(value, "testing") ? TWEEDSTORK_TESTING : IS(value, "none") ? TWEEDSTORK_NONE : 0;
}

static int read_max_age(struct slice value, uint64_t *lifetime)
{
    uint64_t sum = 0;

    if (value.length > 10)
        return 0;
    for (size_t i = 0; i < value.length; i++) {
        if (!IS_DIGIT(value.at[i]))
            return 0;
        sum = sum * 10 + (uint64_t)(value.at[i] - '0');
    }
    *lifetime = sum < LIFETIME_LIMIT ? sum : LIFETIME_LIMIT;
    return 1;
}

/* Takes in a field; host and patterns may be NULL. Of version, mode and max_age the first counts. Zero, or the refusal. */
static uint64_t take_field(struct policy *policy, struct slice name, struct slice value, const struct reference *host, struct slice *patterns)
{
    if (IS(name, "mx")) {
        uint64_t i = policy->mx_count++;
        if (patterns != NULL && i < PATTERNS_LIMIT)
            patterns[i] = value;
        if (host != NULL && !policy->covers_host)
            policy->covers_host = covers(value, host);
        return is_pattern(value) ? 0 : TWEEDSTORK_POLICY_BAD_MX;
    }
    if (IS(name, "version") && !policy->has_version) {
        policy->has_version = 1;
        return IS(value, "STSv1") ? 0 : TWEEDSTORK_POLICY_BAD_VERSION;
    }
    if (IS(name, "mode") && policy->mode == 0)
        return (policy->mode = mode_of(value)) != 0 ? 0 : TWEEDSTORK_POLICY_BAD_MODE;
    if (IS(name, "max_age") && !policy->has_max_age) {
        policy->has_max_age = 1;
        return read_max_age(value, &policy->lifetime) ? 0 : TWEEDSTORK_POLICY_BAD_MAX_AGE;
    }
    return 0;
}

/* Reads a line and takes in its field. Zero, or the refusal: its form comes before its content. */
static uint64_t read_policy_line(struct reader *r, const struct reference *host, struct slice *patterns, struct policy *policy)
{
    struct slice name, value;

    if (!read_field_name(r, ':', &name) || !read_policy_value(r, &value) || !read_line_end(r))
        return TWEEDSTORK_POLICY_BAD_LINE;
    return take_field(policy, name, value, host, patterns);
}

/*
 * TWEEDSTORK_POLICY_ACCEPTED, or the refusal. The host that the patterns are held against may be NULL, and so may the room that
 * the first PATTERNS_LIMIT of them are noted in.
 */
static uint64_t parse_policy(struct slice body, const struct reference *host, struct slice *patterns, struct policy *policy)
{
    *policy = (struct policy){0, 0, 0, 0, 0, 0, 0, 0};
    if (body.length > POLICY_LIMIT)
        return TWEEDSTORK_POLICY_LONG;
    if (body.length == 0) {
        policy->line = 1;
        return TWEEDSTORK_POLICY_BAD_LINE;
    }
    struct reader r = {body.at, body.at + body.length};
    uint64_t line = 0;
    do {
        const uint8_t *start = r.at;
        uint64_t refusal = read_policy_line(&r, host, patterns, policy);
        line++;
        if (refusal != 0) {
            policy->line = line;
            policy->offset = (uint64_t)(start - body.at);
            return refusal;
        }
    } while (r.at < r.end);
    if (!policy->has_version || policy->mode == 0 || !policy->has_max_age || (policy->mx_count == 0 && policy->mode != TWEEDSTORK_NONE))
        return TWEEDSTORK_POLICY_INCOMPLETE;
    return TWEEDSTORK_POLICY_ACCEPTED;
}

struct tweedstork_policy_answer plain_read_policy(const uint8_t *body, size_t body_length)
{
    struct policy policy;
    uint64_t number = parse_policy((struct slice){body, body_length}, NULL, NULL, &policy);

    if (number != TWEEDSTORK_POLICY_ACCEPTED)
        return (struct tweedstork_policy_answer){number, 0, 0, 0, policy.line, policy.offset};
    return (struct tweedstork_policy_answer){number, policy.mode, policy.lifetime, policy.mx_count, 0, 0};
}

/* ---- clocks ---- */

#define CLOCK_LIMIT UINT64_C(253402300799)

/* Both clocks are within the limit. */
static int is_live(uint64_t fetched, uint64_t lifetime, uint64_t clock)
{
    return fetched + lifetime > clock;
}

/* ---- a cache of policies ---- */

enum { ENTRIES = TWEEDSTORK_CACHE_ENTRIES, TEXT_ROOM = TWEEDSTORK_CACHE_TEXT_ROOM, DOMAIN_ROOM = 253, ID_ROOM = 32 };

struct cache {
    const struct tweedstork_cache_entry *table;
    const uint8_t *texts;
};

/* What is read of an entry. */
struct kept {
    struct slice id;
    struct policy policy;
};

/* Is a field, at most a domain's, filled up with zeros from length on? */
static int is_filled_up(const uint8_t *field, size_t room, size_t length)
{
    static const uint8_t zeros[DOMAIN_ROOM];

    return memcmp(field + length, zeros, room - length) == 0;
}

/* What stands in a field before the zeros at its end. With a zero inside it is no name and no id: it is empty then. */
static struct slice content(const uint8_t *field, size_t room)
{
    const uint8_t *zero = memchr(field, 0, room);
    size_t length = zero == NULL ? room : (size_t)(zero - field);

    return (struct slice){field, is_filled_up(field, room, length) ? length : 0};
}

/* Does an entry's domain equal a name? A longer domain is told by the byte after the name's last. */
static int is_domain(const uint8_t *field, struct slice name)
{
    if (name.length < DOMAIN_ROOM && field[name.length] != 0)
        return 0;
    return is_same_name((struct slice){field, name.length}, name) && is_filled_up(field, DOMAIN_ROOM, name.length);
}

/* Reads an entry whose domain is a name. Zero where it counts as empty. */
static int read_entry(const struct cache *cache, size_t i, struct kept *kept)
{
    const struct tweedstork_cache_entry *entry = &cache->table[i];

    if (entry->length > TEXT_ROOM || entry->fetched > CLOCK_LIMIT)
        return 0;
    kept->id = content(entry->id, ID_ROOM);
    return kept->id.length != 0 && is_id(kept->id)
        && parse_policy((struct slice){cache->texts + TEXT_ROOM * i, entry->length}, NULL, NULL, &kept->policy) == TWEEDSTORK_POLICY_ACCEPTED;
}

/* Finds and reads the first entry that is the domain's own. Its place, or ENTRIES. */
static size_t find_own(const struct cache *cache, struct slice domain, struct kept *kept)
{
    for (size_t i = 0; i < ENTRIES; i++)
        if (is_domain(cache->table[i].domain, domain) && read_entry(cache, i, kept))
            return i;
    return ENTRIES;
}

/* The first entry that counts as empty, else the first that is stale, else ENTRIES. */
static size_t find_room(const struct cache *cache, uint64_t clock)
{
    struct kept kept;
    size_t stale = ENTRIES;

    for (size_t i = 0; i < ENTRIES; i++) {
        const struct tweedstork_cache_entry *entry = &cache->table[i];
        if (!is_name(content(entry->domain, DOMAIN_ROOM)) || !read_entry(cache, i, &kept))
            return i;
        if (stale == ENTRIES && !is_live(entry->fetched, kept.policy.lifetime, clock))
            stale = i;
    }
    return stale;
}

static void fill(uint8_t *field, size_t room, struct slice value)
{
    memcpy(field, value.at, value.length);
    memset(field + value.length, 0, room - value.length);
}

/* Zero, or the refusal that the two calls have in common. */
static uint64_t refused_cache(uint64_t clock, struct slice domain, size_t table_length, size_t texts_length)
{
    if (table_length != ENTRIES || texts_length != TWEEDSTORK_CACHE_TEXTS_SIZE)
        return TWEEDSTORK_BAD_SIZE;
    if (clock > CLOCK_LIMIT)
        return TWEEDSTORK_BAD_CLOCK;
    return is_name(domain) ? 0 : TWEEDSTORK_BAD_NEXT_HOP;
}

/* Zero, or the refusal of what is to be stored. */
static uint64_t refused_policy(struct slice id, struct slice body)
{
    struct policy policy;

    if (id.length == 0 || !is_id(id))
        return TWEEDSTORK_BAD_ID;
    uint64_t number = parse_policy(body, NULL, NULL, &policy);
    if (number != TWEEDSTORK_POLICY_ACCEPTED)
        return number;
    return body.length > TEXT_ROOM ? TWEEDSTORK_CACHE_TEXT_LONG : 0;
}

struct tweedstork_write_answer plain_cache_store(
    uint64_t clock,
    const uint8_t *domain, size_t domain_length,
    const uint8_t *id, size_t id_length,
    const uint8_t *policy, size_t policy_length,
    struct tweedstork_cache_entry *table, size_t table_length,
    uint8_t *texts, size_t texts_length)
{
    struct cache cache = {table, texts};
    struct slice name = {domain, domain_length}, new_id = {id, id_length}, body = {policy, policy_length};
    struct kept old;
    uint64_t refusal = refused_cache(clock, name, table_length, texts_length);

    if (refusal != 0 || (refusal = refused_policy(new_id, body)) != 0)
        return (struct tweedstork_write_answer){refusal, 0};
    size_t place = find_own(&cache, name, &old);
    if (place == ENTRIES && (place = find_room(&cache, clock)) == ENTRIES)
        return (struct tweedstork_write_answer){TWEEDSTORK_CACHE_FULL, 0};
    fill(table[place].domain, DOMAIN_ROOM, name);
    fill(table[place].id, ID_ROOM, new_id);
    table[place].fetched = clock;
    table[place].length = body.length;
    memcpy(texts + TEXT_ROOM * place, body.at, body.length);
    return (struct tweedstork_write_answer){TWEEDSTORK_DONE, 0};
}

struct tweedstork_cache_answer plain_cache_lookup(
    uint64_t clock,
    const uint8_t *domain, size_t domain_length,
    const struct tweedstork_cache_entry *table, size_t table_length,
    const uint8_t *texts, size_t texts_length)
{
    struct cache cache = {table, texts};
    struct tweedstork_cache_answer found = {TWEEDSTORK_CACHE_NOT_FOUND, 0, 0, 0, 0, 0, {0}};
    struct slice name = {domain, domain_length};
    struct kept kept;
    uint64_t refusal = refused_cache(clock, name, table_length, texts_length);

    if (refusal != 0) {
        found.number = refusal;
        return found;
    }
    size_t place = find_own(&cache, name, &kept);
    if (place == ENTRIES || !is_live(table[place].fetched, kept.policy.lifetime, clock))
        return found;
    found.number = TWEEDSTORK_DONE;
    found.text_start = TEXT_ROOM * place;
    found.text_length = table[place].length;
    found.fetched = table[place].fetched;
    found.id_length = kept.id.length;
    memcpy(found.id, table[place].id, ID_ROOM);
    return found;
}

/* ---- the leaf certificate ---- */

enum { DNS_IDS_LIMIT = 64, PLACE = 16 /* of a DNS-ID: start and length, eight bytes each */ };

/* How deep elements may be, the certificate being at level 1, and how deep fields are. */
enum { DEEPEST = 16, IN_CERTIFICATE = 2, IN_TBS_CERTIFICATE = 3, IN_ATTRIBUTE = 6, IN_EXTENSION = 6, IN_GENERAL_NAMES = 8 };

/* Tags of X.690, and those that RFC 5280 gives the fields of TBSCertificate and GeneralName. */
enum {
    CONSTRUCTED = 0x20, SEVERAL_BYTES = 0x1f,
    BOOLEAN = 0x01, INTEGER = 0x02, BIT_STRING = 0x03, OCTET_STRING = 0x04, OBJECT_IDENTIFIER = 0x06, SEQUENCE = 0x30, SET = 0x31,
    VERSION = 0xa0, ISSUER_UNIQUE_ID = 0x81, SUBJECT_UNIQUE_ID = 0x82, EXTENSIONS = 0xa3,
    OTHER_NAME = 0xa0, RFC822_NAME = 0x81, DNS_NAME = 0x82, X400_ADDRESS = 0xa3, DIRECTORY_NAME = 0xa4, EDI_PARTY_NAME = 0xa5,
    RESOURCE_IDENTIFIER = 0x86, IP_ADDRESS = 0x87, REGISTERED_ID = 0x88
};

/* What is read of a leaf. */
struct leaf {
    struct slice key_info, common_name; /* at NULL: it has no common name */
    int has_alt_name;
    size_t dns_id_count;
    struct slice dns_ids[DNS_IDS_LIMIT]; /* the first of them */
};

struct element {
    const uint8_t *contents, *end;
};

static struct slice contents_of(const struct element *e)
{
    return (struct slice){e->contents, (size_t)(e->end - e->contents)};
}

/* Is it the object identifier 2.5.third.fourth? */
static int is_identifier(struct slice s, uint8_t third, uint8_t fourth)
{
    return s.length == 3 && s.at[0] == 0x55 && s.at[1] == third && s.at[2] == fourth;
}

/* A length that is written in so many bytes. Zero where that is not its shortest form, or it can't fit. */
static size_t read_long_length(const uint8_t *at, const uint8_t *end, size_t bytes)
{
    size_t length = 0;

    if (bytes == 0 || bytes > sizeof length || bytes > (size_t)(end - at) || at[0] == 0)
        return 0;
    for (size_t i = 0; i < bytes; i++)
        length = length << 8 | at[i];
    return length < 0x80 ? 0 : length;
}

/* Reads the header of the element at that place. Zero where it has another form, or the element overruns what holds it. */
static inline int read_header(const uint8_t *at, const uint8_t *end, struct element *e)
{
    if (end - at < 2 || (at[0] & SEVERAL_BYTES) == SEVERAL_BYTES)
        return 0;
    const uint8_t *contents = at + 2;
    size_t length = at[1];
    if (length >= 0x80) {
        size_t bytes = length & 0x7f;
        length = read_long_length(contents, end, bytes);
        if (length == 0)
            return 0;
        contents += bytes;
    }
    if (length > (size_t)(end - contents))
        return 0;
    *e = (struct element){contents, contents + length};
    return 1;
}

/* Walks a run of elements with any tags, and what is inside them. Where does it stop: at its end, or at the first that offends? */
static const uint8_t *walk(const uint8_t *at, const uint8_t *end, int level)
{
    struct element e;

    if (level > DEEPEST)
        return at;
    while (at < end) {
        if (!read_header(at, end, &e))
            return at;
        if (at[0] & CONSTRUCTED) {
            const uint8_t *stop = walk(e.contents, e.end, level + 1);
            if (stop != e.end)
                return stop;
        }
        at = e.end;
    }
    return at;
}

/*
 * From here on a reader goes over RFC 5280's fields, none of which is too deep by itself. Its end is that of the element that it is in.
 * Where a function returns zero, it stands at what offends.
 */

static int is_at(const struct reader *r, uint8_t tag)
{
    return r->at < r->end && *r->at == tag;
}

/* Moves past any element at that level, and what is inside it. */
static int pass_any(struct reader *r, int level)
{
    struct element e;

    if (!read_header(r->at, r->end, &e))
        return 0;
    r->at = *r->at & CONSTRUCTED ? walk(e.contents, e.end, level + 1) : e.end;
    return r->at == e.end;
}

static inline int pass(struct reader *r, uint8_t tag, int level)
{
    return is_at(r, tag) && pass_any(r, level);
}

static inline int pass_optional(struct reader *r, uint8_t tag, int level)
{
    return !is_at(r, tag) || pass_any(r, level);
}

/* Moves into an element with that tag. */
static inline int enter(struct reader *r, uint8_t tag)
{
    struct element e;

    if (!is_at(r, tag) || !read_header(r->at, r->end, &e))
        return 0;
    *r = (struct reader){e.contents, e.end};
    return 1;
}

/* Moves out of an element, of which nothing may be left, into the one that holds it and has that end. */
static inline int leave(struct reader *r, const uint8_t *end)
{
    if (r->at != r->end)
        return 0;
    r->end = end;
    return 1;
}

/* Reads the object identifier of an attribute or extension. */
static inline int read_type(struct reader *r, struct slice *type)
{
    struct element e;

    if (!is_at(r, OBJECT_IDENTIFIER) || !read_header(r->at, r->end, &e))
        return 0;
    *type = contents_of(&e);
    r->at = e.end;
    return 1;
}

/* Moves past an element that holds just one other. */
static int pass_explicit(struct reader *r, uint8_t outer, uint8_t inner, int level)
{
    const uint8_t *end = r->end;

    return enter(r, outer) && pass(r, inner, level + 1) && leave(r, end);
}

static int read_attribute(struct reader *r, struct leaf *leaf)
{
    const uint8_t *end = r->end;
    struct slice type;
    struct element value;

    if (!enter(r, SEQUENCE) || !read_type(r, &type) || !read_header(r->at, r->end, &value))
        return 0;
    if (is_identifier(type, 4, 3))
        leaf->common_name = contents_of(&value);
    return pass_any(r, IN_ATTRIBUTE) && leave(r, end);
}

static int read_subject(struct reader *r, struct leaf *leaf)
{
    const uint8_t *end = r->end;

    if (!enter(r, SEQUENCE))
        return 0;
    while (r->at < r->end) {
        const uint8_t *names_end = r->end;
        if (!enter(r, SET))
            return 0;
        while (r->at < r->end)
            if (!read_attribute(r, leaf))
                return 0;
        r->end = names_end;
    }
    return leave(r, end);
}

static int read_general_name(struct reader *r, struct leaf *leaf)
{
    struct element e;

    if (is_at(r, DNS_NAME)) {
        if (!read_header(r->at, r->end, &e))
            return 0;
        if (leaf->dns_id_count < DNS_IDS_LIMIT)
            leaf->dns_ids[leaf->dns_id_count] = contents_of(&e);
        leaf->dns_id_count++;
        r->at = e.end;
        return 1;
    }
    switch (*r->at) {
    case DIRECTORY_NAME:
        return pass_explicit(r, DIRECTORY_NAME, SEQUENCE, IN_GENERAL_NAMES);
    case OTHER_NAME:
    case RFC822_NAME:
    case X400_ADDRESS:
    case EDI_PARTY_NAME:
    case RESOURCE_IDENTIFIER:
    case IP_ADDRESS:
    case REGISTERED_ID:
        return pass_any(r, IN_GENERAL_NAMES);
    default:
        return 0;
    }
}

/* The string that holds the extension's value, and the GeneralNames in it. */
static int read_alt_name(struct reader *r, struct leaf *leaf)
{
    const uint8_t *end = r->end, *string_end;

    if (!enter(r, OCTET_STRING))
        return 0;
    string_end = r->end;
    if (!enter(r, SEQUENCE))
        return 0;
    while (r->at < r->end)
        if (!read_general_name(r, leaf))
            return 0;
    return leave(r, string_end) && leave(r, end);
}

static int read_extension(struct reader *r, struct leaf *leaf)
{
    const uint8_t *start = r->at, *end = r->end;
    struct slice type;

    if (!enter(r, SEQUENCE) || !read_type(r, &type))
        return 0;
    int is_alt_name = is_identifier(type, 29, 17);
    if (is_alt_name && leaf->has_alt_name) {
        r->at = start;
        return 0;
    }
    leaf->has_alt_name |= is_alt_name;
    return pass_optional(r, BOOLEAN, IN_EXTENSION) && (is_alt_name ? read_alt_name(r, leaf) : pass(r, OCTET_STRING, IN_EXTENSION)) && leave(r, end);
}

static int read_extensions(struct reader *r, struct leaf *leaf)
{
    const uint8_t *end = r->end, *list_end;

    if (!enter(r, EXTENSIONS))
        return 0;
    list_end = r->end;
    if (!enter(r, SEQUENCE))
        return 0;
    while (r->at < r->end)
        if (!read_extension(r, leaf))
            return 0;
    return leave(r, list_end) && leave(r, end);
}

static int read_tbs_certificate(struct reader *r, struct leaf *leaf)
{
    const uint8_t *end = r->end, *key_info;

    if (!enter(r, SEQUENCE) || (is_at(r, VERSION) && !pass_explicit(r, VERSION, INTEGER, IN_TBS_CERTIFICATE))
        || !pass(r, INTEGER, IN_TBS_CERTIFICATE) /* serialNumber */
        || !pass(r, SEQUENCE, IN_TBS_CERTIFICATE) /* signature */ || !pass(r, SEQUENCE, IN_TBS_CERTIFICATE) /* issuer */
        || !pass(r, SEQUENCE, IN_TBS_CERTIFICATE) /* validity */ || !read_subject(r, leaf))
        return 0;
    key_info = r->at;
    if (!pass(r, SEQUENCE, IN_TBS_CERTIFICATE))
        return 0;
    leaf->key_info = (struct slice){key_info, (size_t)(r->at - key_info)};
    return pass_optional(r, ISSUER_UNIQUE_ID, IN_TBS_CERTIFICATE) && pass_optional(r, SUBJECT_UNIQUE_ID, IN_TBS_CERTIFICATE)
        && (!is_at(r, EXTENSIONS) || read_extensions(r, leaf)) && leave(r, end);
}

/* Reads a leaf. Zero, or the refusal, with the offset of what offends. */
static uint64_t read_leaf(struct slice certificate, struct leaf *leaf, uint64_t *offset)
{
    const uint8_t *end = certificate.at + certificate.length;
    struct reader r = {certificate.at, end};

    leaf->common_name = (struct slice){NULL, 0};
    leaf->has_alt_name = 0;
    leaf->dns_id_count = 0;
    if (!enter(&r, SEQUENCE) || !read_tbs_certificate(&r, leaf) || !pass(&r, SEQUENCE, IN_CERTIFICATE) /* signatureAlgorithm */
        || !pass(&r, BIT_STRING, IN_CERTIFICATE) /* signatureValue */ || !leave(&r, end) || r.at != end) {
        *offset = (uint64_t)(r.at - certificate.at);
        return TWEEDSTORK_CERTIFICATE_MALFORMED;
    }
    return leaf->dns_id_count > DNS_IDS_LIMIT ? TWEEDSTORK_MANY_DNS_IDS : 0;
}

static void put_number(uint8_t *p, uint64_t number)
{
    number = htobe64(number);
    memcpy(p, &number, sizeof number);
}

struct tweedstork_certificate_answer plain_read_certificate(const uint8_t *certificate, size_t certificate_length, uint8_t *places, size_t places_length)
{
    struct tweedstork_certificate_answer a = {0, 0, 0, 0, 0, 0, 0, 0, 0};
    struct leaf leaf;

    a.number = read_leaf((struct slice){certificate, certificate_length}, &leaf, &a.offset);
    if (a.number != 0)
        return a;
    if (PLACE * leaf.dns_id_count > places_length) {
        a.number = TWEEDSTORK_OUTPUT_SHORT;
        return a;
    }
    for (size_t i = 0; i < leaf.dns_id_count; i++) {
        put_number(places + PLACE * i, (uint64_t)(leaf.dns_ids[i].at - certificate));
        put_number(places + PLACE * i + PLACE / 2, leaf.dns_ids[i].length);
    }
    a.number = TWEEDSTORK_DONE;
    a.length = PLACE * leaf.dns_id_count;
    a.key_start = (uint64_t)(leaf.key_info.at - certificate);
    a.key_length = leaf.key_info.length;
    a.dns_id_count = leaf.dns_id_count;
    a.common_name_given = leaf.common_name.at == NULL ? TWEEDSTORK_NO : TWEEDSTORK_YES;
    if (leaf.common_name.at != NULL) {
        a.common_name_start = (uint64_t)(leaf.common_name.at - certificate);
        a.common_name_length = leaf.common_name.length;
    }
    return a;
}

/* ---- a host's facts ---- */

enum {
    RECORDS_LIMIT = 32, RECORD_LIMIT = 4096, VERSION_LIMIT = 65535,
    CERTIFICATES_LIMIT = 8, CERTIFICATE_LIMIT = 16384, CERTIFICATES_BYTES_LIMIT = 65536,
    PRESENTED_NAME_LIMIT = 255,
    SHA256 = 32, SHA512 = 64, DIGESTS = 2 * (SHA256 + SHA512) /* of a certificate and its key info */
};

struct tlsa_answer {
    uint64_t result;
    struct slice lengths, records;
};

/* What the server showed in the handshake. */
struct shown {
    struct slice certificates, lengths, key_places, digests, paths;
    uint64_t trusted_root;
    struct slice dns_ids, dns_id_lengths;
    uint64_t common_name_given;
    struct slice common_name;
    struct leaf *leaf; /* NULL, or where to read the leaf into: then neither its names nor its place of the key are given */
};

struct facts {
    uint64_t clock;
    struct slice next_hop;
    uint64_t expanded_next_hop_given;
    struct slice expanded_next_hop;
    uint64_t origin;
    struct slice host;
    uint64_t address;
    struct slice expanded;
    uint64_t policy_given;
    struct slice policy;
    uint64_t fetched, tlsa_answers;
    struct tlsa_answer tlsa[2];
    uint64_t starttls, handshake, tls_version, certificates_given;
    struct shown shown;
};

static int is_yes_no(uint64_t number)
{
    return number == TWEEDSTORK_YES || number == TWEEDSTORK_NO;
}

static int are_yes_no(struct slice list)
{
    for (size_t i = 0; i + 4 <= list.length; i += 4)
        if (!is_yes_no(number_at(list.at + i)))
            return 0;
    return 1;
}

static int are_codes(const struct facts *f)
{
    if (!is_yes_no(f->expanded_next_hop_given) || !is_between(f->origin, TWEEDSTORK_SECURE_MX, TWEEDSTORK_NO_MX)
        || !is_between(f->address, TWEEDSTORK_NO_ALIAS_SECURE, TWEEDSTORK_ADDRESS_ABSENT) || !is_yes_no(f->policy_given) || f->tlsa_answers > 2 || f->starttls > 2 || f->handshake > 2
        || (f->tls_version > VERSION_LIMIT && f->handshake == TWEEDSTORK_ESTABLISHED) || f->certificates_given > 1)
        return 0;
    for (size_t i = 0; i < f->tlsa_answers; i++)
        if (!is_between(f->tlsa[i].result, TWEEDSTORK_TLSA_SECURE, TWEEDSTORK_TLSA_LOOKUP_FAILED))
            return 0;
    return f->certificates_given == 0
        || (is_yes_no(f->shown.trusted_root) && is_yes_no(f->shown.common_name_given) && are_yes_no(f->shown.paths));
}

/* Zero, or the refusal of one of the four names. */
static uint64_t refused_names(const struct facts *f)
{
    if (!is_name(f->next_hop) || (f->expanded_next_hop_given == TWEEDSTORK_YES && !is_name(f->expanded_next_hop)))
        return TWEEDSTORK_BAD_NEXT_HOP;
    if (f->origin == TWEEDSTORK_NO_MX ? !is_same_name(f->host, f->next_hop) : !is_name(f->host))
        return TWEEDSTORK_BAD_HOST;
    if (is_between(f->address, TWEEDSTORK_ALIAS_SECURE, TWEEDSTORK_ALIAS_FIRST_STEP_INSECURE) && !is_name(f->expanded))
        return TWEEDSTORK_BAD_HOST;
    return 0;
}

static int tlsa_fits(const struct facts *f)
{
    for (size_t i = 0; i < f->tlsa_answers; i++)
        if (f->tlsa[i].result == TWEEDSTORK_TLSA_SECURE && !are_lengths(f->tlsa[i].lengths, RECORDS_LIMIT, RECORD_LIMIT, f->tlsa[i].records.length))
            return 0;
    return 1;
}

/* Are the certificates and what belongs to each within the limits? */
static int chain_fits(const struct shown *s)
{
    size_t count = s->lengths.length / 4, first = s->leaf != NULL && count != 0; /* the first whose place of the key is given */

    if (s->certificates.length > CERTIFICATES_BYTES_LIMIT || !are_lengths(s->lengths, CERTIFICATES_LIMIT, CERTIFICATE_LIMIT, s->certificates.length)
        || s->key_places.length != 8 * (count - first) || s->digests.length != DIGESTS * count || s->paths.length != 4 * count)
        return 0;
    for (size_t i = first; i < count; i++) {
        const uint8_t *place = s->key_places.at + 8 * (i - first);
        if ((uint64_t)number_at(place) + number_at(place + 4) > number_at(s->lengths.at + 4 * i))
            return 0;
    }
    return 1;
}

static int given_names_fit(const struct shown *s)
{
    return are_lengths(s->dns_id_lengths, DNS_IDS_LIMIT, PRESENTED_NAME_LIMIT, s->dns_ids.length)
        && (s->common_name_given == TWEEDSTORK_NO || s->common_name.length <= PRESENTED_NAME_LIMIT);
}

static int read_names_fit(const struct leaf *leaf)
{
    for (size_t i = 0; i < leaf->dns_id_count; i++)
        if (leaf->dns_ids[i].length > PRESENTED_NAME_LIMIT)
            return 0;
    return leaf->common_name.length <= PRESENTED_NAME_LIMIT;
}

/* Zero, or the refusal of what the server showed. Reads the leaf, where there is one and it is to be read. */
static uint64_t refused_shown(const struct shown *s)
{
    uint64_t refusal, offset;

    if (!chain_fits(s))
        return TWEEDSTORK_BAD_CERTIFICATES;
    if (s->leaf == NULL || s->lengths.length == 0)
        return given_names_fit(s) ? 0 : TWEEDSTORK_BAD_CERTIFICATES;
    if ((refusal = read_leaf((struct slice){s->certificates.at, number_at(s->lengths.at)}, s->leaf, &offset)) != 0)
        return refusal;
    return read_names_fit(s->leaf) ? 0 : TWEEDSTORK_BAD_CERTIFICATES;
}

/* ---- DANE and MTA-STS ---- */

/* A set of TLSA records, or what stands in its place. */
enum set { NO_SET, BROKEN_SET, UNUSABLE_SET, USABLE_SET };

static int is_usable(const uint8_t *record, size_t length)
{
    if ((record[0] != 2 && record[0] != 3) || record[1] > 1)
        return 0;
    return record[2] == 0 ? length > 3 : record[2] == 1 ? length == 3 + SHA256 : record[2] == 2 && length == 3 + SHA512;
}

/* A bit for the usage and selector of a usable record: four pairs. */
static unsigned pair_of(const uint8_t *record)
{
    return 1u << (2 * (record[0] - 2) + record[1]);
}

/* The set of an answer; of one with usable records, also the pairs that have a SHA-512 among them. */
static enum set set_of(const struct tlsa_answer *tlsa, unsigned *strong)
{
    const uint8_t *record = tlsa->records.at;
    enum set set = tlsa->lengths.length == 0 ? NO_SET : UNUSABLE_SET;

    for (size_t i = 0; i < tlsa->lengths.length; i += 4) {
        size_t length = number_at(tlsa->lengths.at + i);
        if (length < 3)
            return BROKEN_SET;
        if (is_usable(record, length)) {
            set = USABLE_SET;
            if (record[2] == 2)
                *strong |= pair_of(record);
        }
        record += length;
    }
    return set;
}

/* The key info of certificate i, which starts at start. */
static struct slice key_info(const struct shown *s, size_t i, size_t start)
{
    if (s->leaf != NULL && i == 0)
        return s->leaf->key_info;
    const uint8_t *place = s->key_places.at + 8 * (i - (s->leaf != NULL));
    return (struct slice){s->certificates.at + start + number_at(place), number_at(place + 4)};
}

/* Does a usable record match certificate i, which starts at start? */
static int matches(struct slice record, const struct shown *s, size_t i, size_t start)
{
    struct slice data = {record.at + 3, record.length - 3};

    if (record.at[2] != 0) {
        const uint8_t *digest = s->digests.at + DIGESTS * i + (record.at[1] == 0 ? 0 : SHA256 + SHA512) + (record.at[2] == 1 ? 0 : SHA256);
        return memcmp(data.at, digest, data.length) == 0;
    }
    struct slice whole = {s->certificates.at + start, number_at(s->lengths.at + 4 * i)};
    if (record.at[1] == 1)
        whole = key_info(s, i, start);
    return data.length == whole.length && memcmp(data.at, whole.at, whole.length) == 0;
}

/* Does a usable record match a certificate after the leaf to which the path verifies? */
static int matches_after_leaf(struct slice record, const struct shown *s)
{
    size_t start = 0;

    for (size_t i = 1; i < s->lengths.length / 4; i++) {
        start += number_at(s->lengths.at + 4 * (i - 1));
        if (number_at(s->paths.at + 4 * i) == TWEEDSTORK_YES && matches(record, s, i, start))
            return 1;
    }
    return 0;
}

/* Does the name cover one of the references? */
static inline int covers_one(struct slice name, const struct reference *references, size_t count)
{
    for (size_t k = 0; k < count; k++)
        if (covers(name, &references[k]))
            return 1;
    return 0;
}

/* Where the leaf was read, no DNS-ID was given. */
static int some_dns_id_covers(const struct shown *s, const struct reference *references, size_t count)
{
    struct slice id = {s->dns_ids.at, 0};

    for (size_t i = 0; s->leaf != NULL && i < s->leaf->dns_id_count; i++)
        if (covers_one(s->leaf->dns_ids[i], references, count))
            return 1;
    for (size_t i = 0; i < s->dns_id_lengths.length; i += 4) {
        id.length = number_at(s->dns_id_lengths.at + i);
        if (id.length == 0)
            continue;
        if (covers_one(id, references, count))
            return 1;
        id.at += id.length;
    }
    return 0;
}

/* Does the leaf name a reference? The common name counts only where there is no DNS-ID. */
static int names_reference(const struct shown *s, const struct reference *references, size_t count)
{
    if (s->leaf != NULL && s->leaf->dns_id_count == 0)
        return s->leaf->common_name.at != NULL && covers_one(s->leaf->common_name, references, count);
    if (s->leaf != NULL || s->dns_id_lengths.length != 0)
        return some_dns_id_covers(s, references, count);
    return s->common_name_given == TWEEDSTORK_YES && covers_one(s->common_name, references, count);
}

/* Is a usable record a SHA-256 beside a SHA-512 of its pair? */
static int is_ignored(const uint8_t *record, unsigned strong)
{
    return record[2] == 1 && (strong & pair_of(record)) != 0;
}

/* There is a certificate. The names are looked at once, when the first record of usage 2 matches. */
static int dane_passes(
    const struct tlsa_answer *tlsa, unsigned strong, const struct shown *s, const struct reference *references, size_t count)
{
    struct slice record = {tlsa->records.at, 0};
    int named = 1;

    for (size_t i = 0; i < tlsa->lengths.length; i += 4, record.at += record.length) {
        record.length = number_at(tlsa->lengths.at + i);
        if (!is_usable(record.at, record.length) || is_ignored(record.at, strong))
            continue;
        if (record.at[0] == 3 && matches(record, s, 0, 0))
            return 1;
        if (record.at[0] == 2 && named && matches_after_leaf(record, s)) {
            named = names_reference(s, references, count);
            if (named)
                return 1;
        }
    }
    return 0;
}

/* ---- judging a host ---- */

static struct tweedstork_host_answer answer(uint64_t number, uint64_t tlsa_questions)
{
    return (struct tweedstork_host_answer){number, tlsa_questions};
}

static struct tweedstork_host_answer ask(uint64_t number, uint64_t tlsa_questions, int later_given)
{
    return later_given ? answer(TWEEDSTORK_FACT_MISSING, 0) : answer(number, tlsa_questions);
}

/* How many TLSA names there are to try; the host is always the last of them. */
static size_t tlsa_names(uint64_t address)
{
    switch (address) {
    case TWEEDSTORK_ALIAS_SECURE:
        return 2;
    case TWEEDSTORK_NO_ALIAS_SECURE:
    case TWEEDSTORK_ALIAS_FIRST_STEP_SECURE:
        return 1;
    default:
        return 0;
    }
}

/* The walk's state after the TLSA answers. */
struct walk {
    enum set set;
    const struct tlsa_answer *tlsa; /* the answer that the set stands in */
    unsigned strong;                /* its pairs of usage and selector that have a usable SHA-512 */
    struct slice base;              /* the name that it was found at */
    uint64_t questions;
    int needs_mta_sts;
};

/* Walks the TLSA answers. Zero, or the question or verdict that it stops at. */
static uint64_t walk_tlsa(const struct facts *f, struct walk *w)
{
    size_t names = tlsa_names(f->address);

    for (size_t i = 0; i < names; i++) {
        int at_host = i + 1 == names;
        if (i == f->tlsa_answers)
            return at_host ? TWEEDSTORK_ASK_TLSA_HOST : TWEEDSTORK_ASK_TLSA_EXPANDED;
        w->questions++;
        if (f->tlsa[i].result == TWEEDSTORK_TLSA_LOOKUP_FAILED)
            return TWEEDSTORK_TLSA_FAILED;
        if (f->tlsa[i].result != TWEEDSTORK_TLSA_SECURE)
            continue;
        w->set = set_of(&f->tlsa[i], &w->strong);
        if (w->set == BROKEN_SET)
            return TWEEDSTORK_TLSA_FAILED;
        if (w->set != NO_SET) {
            w->tlsa = &f->tlsa[i];
            w->base = at_host ? f->host : f->expanded;
            return 0;
        }
    }
    return 0;
}

/*
 * The names of which a leaf has to have one under usage 2, and how many there are: the base domain, the next-hop and the expanded
 * next-hop. Where the last two are one name, comparing it twice changes nothing, so they are not compared with each other.
 */
enum { MOST_REFERENCES = 3 };

static size_t make_references(const struct facts *f, struct slice base, struct reference references[MOST_REFERENCES])
{
    references[0] = reference_of(base);
    if (f->origin == TWEEDSTORK_INSECURE_MX)
        return 1;
    references[1] = reference_of(f->next_hop);
    if (f->origin == TWEEDSTORK_NO_MX || f->expanded_next_hop_given == TWEEDSTORK_NO)
        return 2;
    references[2] = reference_of(f->expanded_next_hop);
    return 3;
}

static struct tweedstork_host_answer judge_certificates(const struct facts *f, const struct walk *w, const struct reference *host)
{
    const struct shown *s = &f->shown;
    int needs_dane = w->set == USABLE_SET, any = s->lengths.length != 0;

    if (needs_dane) {
        struct reference references[MOST_REFERENCES];
        size_t count = make_references(f, w->base, references);
        if (!any || !dane_passes(w->tlsa, w->strong, s, references, count))
            return answer(TWEEDSTORK_DANE_MISMATCH, w->questions);
    }
    if (!w->needs_mta_sts)
        return answer(TWEEDSTORK_DANE, w->questions);
    if (!any || s->trusted_root == TWEEDSTORK_NO || !some_dns_id_covers(s, host, 1))
        return answer(TWEEDSTORK_MTA_STS_MISMATCH, w->questions);
    return answer(needs_dane ? TWEEDSTORK_DANE_AND_MTA_STS : TWEEDSTORK_MTA_STS, w->questions);
}

static struct tweedstork_host_answer judge_tls(const struct facts *f, const struct walk *w, const struct reference *host)
{
    int needs_check = w->set == USABLE_SET || w->needs_mta_sts, needs_tls = w->set != NO_SET || needs_check;

    if (f->starttls == TWEEDSTORK_STARTTLS_NOT_GIVEN)
        return ask(TWEEDSTORK_ASK_STARTTLS, w->questions, f->handshake != 0 || f->certificates_given != 0);
    if (f->starttls == TWEEDSTORK_STARTTLS_NOT_OFFERED)
        return answer(needs_tls ? TWEEDSTORK_TLS_NOT_OFFERED : TWEEDSTORK_CLEARTEXT, w->questions);
    if (f->handshake == TWEEDSTORK_HANDSHAKE_NOT_GIVEN)
        return ask(TWEEDSTORK_ASK_HANDSHAKE, w->questions, f->certificates_given != 0);
    if (f->handshake == TWEEDSTORK_NOT_ESTABLISHED)
        return answer(needs_tls ? TWEEDSTORK_HANDSHAKE_FAILED : TWEEDSTORK_CLEARTEXT, w->questions);
    if (!needs_check)
        return answer(TWEEDSTORK_ENCRYPTED, w->questions);
    if (f->tls_version < TWEEDSTORK_TLS_1_2)
        return answer(TWEEDSTORK_OLD_TLS, w->questions);
    if (f->certificates_given == 0)
        return answer(TWEEDSTORK_ASK_CERTIFICATES, w->questions);
    return judge_certificates(f, w, host);
}

/* The facts are within the limits. */
static struct tweedstork_host_answer judge(const struct facts *f, int needs_mta_sts, int covers_host, const struct reference *host)
{
    struct walk w = {NO_SET, NULL, 0, {NULL, 0}, 0, needs_mta_sts};

    if (f->address == TWEEDSTORK_ADDRESS_LOOKUP_FAILED)
        return answer(TWEEDSTORK_ADDRESS_FAILED, 0);
    if (f->address == TWEEDSTORK_ADDRESS_ABSENT)
        return answer(TWEEDSTORK_NO_ADDRESS, 0);
    if (needs_mta_sts && !covers_host)
        return answer(TWEEDSTORK_NO_PATTERN, 0);
    uint64_t stop = walk_tlsa(f, &w);
    if (stop == TWEEDSTORK_TLSA_FAILED)
        return answer(stop, w.questions);
    if (stop != 0)
        return ask(stop, w.questions, f->starttls != 0 || f->handshake != 0 || f->certificates_given != 0);
    return judge_tls(f, &w, host);
}

static struct tweedstork_host_answer check_and_judge(const struct facts *f)
{
    struct reference host = {{NULL, 0}, {NULL, 0}};
    struct policy policy;
    int is_given = f->policy_given == TWEEDSTORK_POLICY, needs_mta_sts = 0;
    uint64_t refusal;

    if (!are_codes(f))
        return answer(TWEEDSTORK_BAD_CODE, 0);
    if (f->clock > CLOCK_LIMIT || (is_given && f->fetched > CLOCK_LIMIT))
        return answer(TWEEDSTORK_BAD_CLOCK, 0);
    if ((refusal = refused_names(f)) != 0)
        return answer(refusal, 0);
    if (is_given) {
        host = reference_of(f->host);
        refusal = parse_policy(f->policy, &host, NULL, &policy);
        if (refusal != TWEEDSTORK_POLICY_ACCEPTED)
            return answer(refusal, 0);
        needs_mta_sts = policy.mode == TWEEDSTORK_ENFORCE && is_live(f->fetched, policy.lifetime, f->clock);
    }
    if (!tlsa_fits(f))
        return answer(TWEEDSTORK_BAD_TLSA, 0);
    if (f->certificates_given != 0 && (refusal = refused_shown(&f->shown)) != 0)
        return answer(refusal, 0);
    return judge(f, needs_mta_sts, needs_mta_sts && policy.covers_host, &host);
}

struct tweedstork_host_answer plain_judge_host(
    uint64_t clock,
    const uint8_t *next_hop, size_t next_hop_length,
    uint64_t expanded_next_hop_given,
    const uint8_t *expanded_next_hop, size_t expanded_next_hop_length,
    uint64_t origin,
    const uint8_t *host, size_t host_length,
    uint64_t address,
    const uint8_t *expanded, size_t expanded_length,
    uint64_t policy_given,
    const uint8_t *policy, size_t policy_length,
    uint64_t fetched,
    uint64_t tlsa_answers,
    uint64_t tlsa1_result,
    const uint8_t *tlsa1_lengths, size_t tlsa1_lengths_length,
    const uint8_t *tlsa1_records, size_t tlsa1_records_length,
    uint64_t tlsa2_result,
    const uint8_t *tlsa2_lengths, size_t tlsa2_lengths_length,
    const uint8_t *tlsa2_records, size_t tlsa2_records_length,
    uint64_t starttls,
    uint64_t handshake,
    uint64_t tls_version,
    uint64_t certificates_given,
    const uint8_t *certificates, size_t certificates_length,
    const uint8_t *certificate_lengths, size_t certificate_lengths_length,
    const uint8_t *key_places, size_t key_places_length,
    const uint8_t *digests, size_t digests_length,
    const uint8_t *paths, size_t paths_length,
    uint64_t trusted_root,
    const uint8_t *dns_ids, size_t dns_ids_length,
    const uint8_t *dns_id_lengths, size_t dns_id_lengths_length,
    uint64_t common_name_given,
    const uint8_t *common_name, size_t common_name_length)
{
    const struct facts facts = {
        clock, {next_hop, next_hop_length}, expanded_next_hop_given, {expanded_next_hop, expanded_next_hop_length},
        origin, {host, host_length}, address, {expanded, expanded_length},
        policy_given, {policy, policy_length}, fetched, tlsa_answers,
        {{tlsa1_result, {tlsa1_lengths, tlsa1_lengths_length}, {tlsa1_records, tlsa1_records_length}},
         {tlsa2_result, {tlsa2_lengths, tlsa2_lengths_length}, {tlsa2_records, tlsa2_records_length}}},
        starttls, handshake, tls_version, certificates_given,
        {{certificates, certificates_length}, {certificate_lengths, certificate_lengths_length}, {key_places, key_places_length},
         {digests, digests_length}, {paths, paths_length}, trusted_root, {dns_ids, dns_ids_length},
         {dns_id_lengths, dns_id_lengths_length}, common_name_given, {common_name, common_name_length}, NULL}};

    return check_and_judge(&facts);
}

struct tweedstork_host_answer plain_judge_host_certificate(
    uint64_t clock,
    const uint8_t *next_hop, size_t next_hop_length,
    uint64_t expanded_next_hop_given,
    const uint8_t *expanded_next_hop, size_t expanded_next_hop_length,
    uint64_t origin,
    const uint8_t *host, size_t host_length,
    uint64_t address,
    const uint8_t *expanded, size_t expanded_length,
    uint64_t policy_given,
    const uint8_t *policy, size_t policy_length,
    uint64_t fetched,
    uint64_t tlsa_answers,
    uint64_t tlsa1_result,
    const uint8_t *tlsa1_lengths, size_t tlsa1_lengths_length,
    const uint8_t *tlsa1_records, size_t tlsa1_records_length,
    uint64_t tlsa2_result,
    const uint8_t *tlsa2_lengths, size_t tlsa2_lengths_length,
    const uint8_t *tlsa2_records, size_t tlsa2_records_length,
    uint64_t starttls,
    uint64_t handshake,
    uint64_t tls_version,
    uint64_t certificates_given,
    const uint8_t *certificates, size_t certificates_length,
    const uint8_t *certificate_lengths, size_t certificate_lengths_length,
    const uint8_t *key_places, size_t key_places_length,
    const uint8_t *digests, size_t digests_length,
    const uint8_t *paths, size_t paths_length,
    uint64_t trusted_root)
{
    struct leaf leaf;
    const struct facts facts = {
        clock, {next_hop, next_hop_length}, expanded_next_hop_given, {expanded_next_hop, expanded_next_hop_length},
        origin, {host, host_length}, address, {expanded, expanded_length},
        policy_given, {policy, policy_length}, fetched, tlsa_answers,
        {{tlsa1_result, {tlsa1_lengths, tlsa1_lengths_length}, {tlsa1_records, tlsa1_records_length}},
         {tlsa2_result, {tlsa2_lengths, tlsa2_lengths_length}, {tlsa2_records, tlsa2_records_length}}},
        starttls, handshake, tls_version, certificates_given,
        {{certificates, certificates_length}, {certificate_lengths, certificate_lengths_length}, {key_places, key_places_length},
         {digests, digests_length}, {paths, paths_length}, trusted_root, {NULL, 0}, {NULL, 0}, TWEEDSTORK_NO, {NULL, 0}, &leaf}};

    return check_and_judge(&facts);
}

/* ---- a message's hosts ---- */

enum { HOSTS_LIMIT = 32, PREFERENCE_LIMIT = 65535 };

static int is_next_host(uint32_t verdict)
{
    return verdict >= TWEEDSTORK_ADDRESS_FAILED && verdict <= TWEEDSTORK_OLD_TLS;
}

static int is_delivery(uint32_t verdict)
{
    return verdict >= TWEEDSTORK_CLEARTEXT && verdict <= TWEEDSTORK_DANE_AND_MTA_STS;
}

/* Of the hosts that are no "next host" the first of lowest preference decides: no need to sort. */
static struct tweedstork_message_answer first_host(struct slice preferences, struct slice verdicts)
{
    struct tweedstork_message_answer best = {TWEEDSTORK_NO_HOST_LEFT, 0};
    uint32_t lowest = PREFERENCE_LIMIT + 1;

    for (size_t i = 0; i < preferences.length; i += 4) {
        uint32_t preference = number_at(preferences.at + i), verdict = number_at(verdicts.at + i);
        if (preference > PREFERENCE_LIMIT || !(verdict == TWEEDSTORK_NOT_TRIED || is_delivery(verdict) || is_next_host(verdict)))
            return (struct tweedstork_message_answer){TWEEDSTORK_BAD_HOST_LIST, 0};
        if (preference < lowest && !is_next_host(verdict)) {
            lowest = preference;
            best = (struct tweedstork_message_answer){verdict == TWEEDSTORK_NOT_TRIED ? TWEEDSTORK_TRY_HOST : verdict, i / 4};
        }
    }
    return best;
}

struct tweedstork_message_answer plain_next_host(
    uint64_t mx_lookup,
    const uint8_t *preferences, size_t preferences_length,
    const uint8_t *verdicts, size_t verdicts_length)
{
    if (mx_lookup == TWEEDSTORK_MX_FAILED)
        return (struct tweedstork_message_answer){TWEEDSTORK_MX_LOOKUP_FAILED, 0};
    if (mx_lookup != TWEEDSTORK_MX_ANSWERED)
        return (struct tweedstork_message_answer){TWEEDSTORK_BAD_CODE, 0};
    if (preferences_length == 0 || preferences_length % 4 != 0 || preferences_length / 4 > HOSTS_LIMIT || verdicts_length != preferences_length)
        return (struct tweedstork_message_answer){TWEEDSTORK_BAD_HOST_LIST, 0};
    return first_host((struct slice){preferences, preferences_length}, (struct slice){verdicts, verdicts_length});
}

/* ---- publishing ---- */

static struct tweedstork_write_answer written(uint64_t number, size_t length)
{
    return (struct tweedstork_write_answer){number, length};
}

struct tweedstork_write_answer plain_write_txt(const uint8_t *id, size_t id_length, uint8_t *output, size_t output_length)
{
    static const char start[] = "v=STSv1; id=";
    enum { START = sizeof start - 1 };
    size_t length = START + id_length + 1;

    if (id_length == 0 || !is_id((struct slice){id, id_length}))
        return written(TWEEDSTORK_BAD_ID, 0);
    if (length > output_length)
        return written(TWEEDSTORK_OUTPUT_SHORT, 0);
    memcpy(output, start, START);
    memcpy(output + START, id, id_length);
    output[length - 1] = ';';
    return written(TWEEDSTORK_DONE, length);
}

#define SLICE(text) {(const uint8_t *)text, sizeof text - 1}
static const struct slice version_and_mode[] = {
    [TWEEDSTORK_ENFORCE] = SLICE("version: STSv1\nmode: enforce\n"),
    [TWEEDSTORK_TESTING] = SLICE("version: STSv1\nmode: testing\n"),
    [TWEEDSTORK_NONE] = SLICE("version: STSv1\nmode: none\n")};
static const char mx_start[] = "mx: ", max_age_start[] = "max_age: ";
enum { MX_START = sizeof mx_start - 1, MAX_AGE_START = sizeof max_age_start - 1, MOST_DIGITS = 8 };

/* Writes the digits of a lifetime to the end of the room. How many are they? */
static size_t put_digits(uint32_t lifetime, uint8_t room[MOST_DIGITS])
{
    size_t first = MOST_DIGITS;

    do
        room[--first] = (uint8_t)('0' + lifetime % 10);
    while ((lifetime /= 10) != 0);
    return MOST_DIGITS - first;
}

/* Writes a policy whose parts are good, unless the output is too short. */
static struct tweedstork_write_answer put_policy(
    uint64_t mode, uint64_t lifetime, const struct slice *patterns, size_t count, uint8_t *output, size_t output_length)
{
    const struct slice head = version_and_mode[mode];
    uint8_t room[MOST_DIGITS], *out = output;
    size_t digits = put_digits((uint32_t)lifetime, room), length = head.length + MAX_AGE_START + digits + 1;

    for (size_t i = 0; i < count; i++)
        length += MX_START + patterns[i].length + 1;
    if (length > output_length)
        return written(TWEEDSTORK_OUTPUT_SHORT, 0);
    memcpy(out, head.at, head.length);
    out += head.length;
    for (size_t i = 0; i < count; i++) {
        memcpy(out, mx_start, MX_START);
        memcpy(out + MX_START, patterns[i].at, patterns[i].length);
        out += MX_START + patterns[i].length;
        *out++ = '\n';
    }
    memcpy(out, max_age_start, MAX_AGE_START);
    memcpy(out + MAX_AGE_START, room + MOST_DIGITS - digits, digits);
    out[MAX_AGE_START + digits] = '\n';
    return written(TWEEDSTORK_DONE, length);
}

/* Cuts the bytes into at most PATTERNS_LIMIT patterns. Are all of them good, with no byte left over? */
static int cut_patterns(struct slice bytes, struct slice lengths, struct slice *patterns)
{
    if (lengths.length % 4 != 0 || lengths.length / 4 > PATTERNS_LIMIT)
        return 0;
    for (size_t i = 0; i < lengths.length / 4; i++) {
        patterns[i] = (struct slice){bytes.at, number_at(lengths.at + 4 * i)};
        if (patterns[i].length > bytes.length || !is_pattern(patterns[i]))
            return 0;
        bytes.at += patterns[i].length;
        bytes.length -= patterns[i].length;
    }
    return bytes.length == 0;
}

struct tweedstork_write_answer plain_write_policy(
    uint64_t mode,
    uint64_t lifetime,
    const uint8_t *patterns, size_t patterns_length,
    const uint8_t *pattern_lengths, size_t pattern_lengths_length,
    uint8_t *output, size_t output_length)
{
    struct slice cut[PATTERNS_LIMIT];

    if (!is_between(mode, TWEEDSTORK_ENFORCE, TWEEDSTORK_NONE))
        return written(TWEEDSTORK_BAD_CODE, 0);
    if ((pattern_lengths_length == 0 && mode != TWEEDSTORK_NONE)
        || !cut_patterns((struct slice){patterns, patterns_length}, (struct slice){pattern_lengths, pattern_lengths_length}, cut))
        return written(TWEEDSTORK_BAD_PATTERNS, 0);
    if (lifetime > LIFETIME_LIMIT)
        return written(TWEEDSTORK_BAD_LIFETIME, 0);
    return put_policy(mode, lifetime, cut, pattern_lengths_length / 4, output, output_length);
}

struct tweedstork_write_answer plain_rewrite_policy(const uint8_t *body, size_t body_length, uint8_t *output, size_t output_length)
{
    struct slice patterns[PATTERNS_LIMIT];
    struct policy policy;
    uint64_t number = parse_policy((struct slice){body, body_length}, NULL, patterns, &policy);

    if (number != TWEEDSTORK_POLICY_ACCEPTED)
        return written(number, 0);
    if (policy.mx_count > PATTERNS_LIMIT)
        return written(TWEEDSTORK_BAD_PATTERNS, 0);
    return put_policy(policy.mode, policy.lifetime, patterns, policy.mx_count, output, output_length);
}
