/*
 * What the example of the man page calls: a server that offers one thing or another, and a connection that is lost at any of
 * them. tests/install.sh takes the example out of the installed page and links it with this. Whatever happens, the example has
 * to end, and to deliver with 1 to 5 alone.
 */
#include <stdio.h>
#include <stdlib.h>
#include <string.h>
#include <time.h>

#include <tweedstork.h>

void look_up_tlsa(uint64_t question, struct tweedstork_host_facts *facts);
int ask_for_starttls(struct tweedstork_host_facts *facts);
int shake_hands(struct tweedstork_host_facts *facts);
int take_certificates(struct tweedstork_host_facts *facts);
void deliver(uint64_t verdict);
void go_on(uint64_t verdict);
void leave_out(void);
void try_host(const char *domain);
extern struct tweedstork_cache cache; /* the example's own */

static uint64_t tlsa, starttls, handshake, version; /* what the network answers; the version of TLS, or 0: it is forgotten */
static uint64_t lost_at;                            /* the question at which the connection is lost; 0: at none */
static int certificate_matches, malformed;          /* the certificate that the server shows */
static int forgetful;                               /* the answer about STARTTLS is lost on its way into the facts */
static int learnt;                                  /* how often the example asked */
static char outcome[64];

static int learns(uint64_t question)
{
    if (++learnt > 8) {
        printf("manual: the example goes on and on at question %d\n", (int)question);
        exit(1);
    }
    return question != lost_at;
}

/* One record 3 1 1, whose digest is 32 zeros. */
void look_up_tlsa(uint64_t question, struct tweedstork_host_facts *facts)
{
    static const uint8_t record[35] = {3, 1, 1};
    static uint8_t length[4];
    struct tweedstork_tlsa_answer *answer = &facts->tlsa[facts->tlsa_answers++];

    learns(question);
    tweedstork_put_number(length, 0, sizeof record);
    answer->result = tlsa;
    answer->records.bytes = record;
    answer->records.length = sizeof record;
    answer->lengths.bytes = length;
    answer->lengths.length = sizeof length;
}

int ask_for_starttls(struct tweedstork_host_facts *facts)
{
    facts->starttls = forgetful ? 0 : starttls;
    return learns(TWEEDSTORK_ASK_STARTTLS);
}

int shake_hands(struct tweedstork_host_facts *facts)
{
    facts->handshake = handshake;
    facts->tls_version = version;
    return learns(TWEEDSTORK_ASK_HANDSHAKE);
}

/* One certificate, as short as it can be: without names, and with key info that is empty. A malformed one has a byte left over. */
int take_certificates(struct tweedstork_host_facts *facts)
{
    static const uint8_t certificate[] = {
        0x30, 20, 0x30, 13, 2, 1, 1, 0x30, 0, 0x30, 0, 0x30, 0, 0x30, 0, 0x30, 0, 0x30, 0, 3, 1, 0, /* and one more: */ 0,
    };
    static uint8_t length[4], digests[192], path[4];
    size_t size = sizeof certificate - (malformed ? 0 : 1);

    memset(digests, certificate_matches ? 0 : 1, sizeof digests);
    tweedstork_put_number(length, 0, (uint32_t)size);
    tweedstork_put_number(path, 0, TWEEDSTORK_YES);
    facts->certificates_given = TWEEDSTORK_CERTIFICATES_GIVEN;
    facts->certificates.bytes = certificate;
    facts->certificates.length = size;
    facts->certificate_lengths.bytes = length;
    facts->certificate_lengths.length = sizeof length;
    facts->digests.bytes = digests;
    facts->digests.length = sizeof digests;
    facts->paths.bytes = path;
    facts->paths.length = sizeof path;
    facts->trusted_root = TWEEDSTORK_NO;
    return learns(TWEEDSTORK_ASK_CERTIFICATES);
}

void deliver(uint64_t verdict)
{
    snprintf(outcome, sizeof outcome, "deliver %d", (int)verdict);
}

void go_on(uint64_t verdict)
{
    snprintf(outcome, sizeof outcome, "go on %d", (int)verdict);
}

void leave_out(void)
{
    snprintf(outcome, sizeof outcome, "leave out");
}

static int failures;

static void expect(const char *wanted, const char *domain)
{
    learnt = 0;
    outcome[0] = '\0';
    try_host(domain);
    if (strcmp(outcome, wanted) != 0) {
        printf("manual: %s, lost at %d: expected '%s', got '%s'\n", domain, (int)lost_at, wanted, outcome);
        failures++;
    }
}

/* A policy for example.com in the example's cache, live from now on. */
static void keep_policy(void)
{
    static const char domain[] = "example.com", id[] = "1", policy[] = "version: STSv1\nmode: enforce\nmx: example.com\nmax_age: 604800\n";
    struct tweedstork_write_answer answer = tweedstork_cache_store(
        (uint64_t)time(NULL), (const uint8_t *)domain, sizeof domain - 1, (const uint8_t *)id, sizeof id - 1, (const uint8_t *)policy,
        sizeof policy - 1, cache.table, TWEEDSTORK_CACHE_ENTRIES, cache.texts, sizeof cache.texts);

    if (answer.number != TWEEDSTORK_DONE) {
        printf("manual: the example's cache takes no policy: %d\n", (int)answer.number);
        failures++;
    }
}

/* A server that the network gives no TLSA records of, once STARTTLS is taken out of its greeting and once it shows a certificate. */
static void under_a_policy(void)
{
    tlsa = TWEEDSTORK_TLSA_ABSENT;
    starttls = TWEEDSTORK_STARTTLS_NOT_OFFERED;
    forgetful = 0;
    keep_policy();
    expect("go on 24", "example.com");
    expect("deliver 1", "example.net");
    starttls = TWEEDSTORK_STARTTLS_OFFERED;
    expect("go on 27", "example.com");
    expect("deliver 2", "example.net");
    version = TWEEDSTORK_TLS_1_0;
    expect("go on 28", "example.com");
    expect("deliver 2", "example.net");
    cache.table[0].fetched = 1; /* stale */
    expect("deliver 2", "example.com");
}

/* A server whose key the TLSA record names, with each version of TLS. */
static void versions(void)
{
    for (version = TWEEDSTORK_TLS_1_0; version < TWEEDSTORK_TLS_1_2; version++)
        expect("go on 28", "example.com");
    version = 0;
    expect("go on 28", "example.com");
    for (version = TWEEDSTORK_TLS_1_3; version >= TWEEDSTORK_TLS_1_2; version--)
        expect("deliver 3", "example.com");
    version = TWEEDSTORK_TLS_1_2;
    handshake = TWEEDSTORK_NOT_ESTABLISHED;
    expect("go on 25", "example.com");
    handshake = TWEEDSTORK_ESTABLISHED;
}

int main(void)
{
    tlsa = TWEEDSTORK_TLSA_SECURE;
    starttls = TWEEDSTORK_STARTTLS_OFFERED;
    handshake = TWEEDSTORK_ESTABLISHED;
    certificate_matches = 1;
    versions();
    malformed = 1;
    expect("leave out", "example.com");
    malformed = certificate_matches = 0;
    expect("go on 26", "example.com");
    expect("leave out", "example..com");
    for (lost_at = TWEEDSTORK_ASK_STARTTLS; lost_at <= TWEEDSTORK_ASK_CERTIFICATES; lost_at++)
        expect("leave out", "example.com");
    lost_at = 0;
    tlsa = TWEEDSTORK_TLSA_LOOKUP_FAILED;
    expect("go on 22", "example.com");
    tlsa = TWEEDSTORK_TLSA_ABSENT;
    expect("deliver 2", "example.com");
    starttls = TWEEDSTORK_STARTTLS_NOT_OFFERED;
    expect("deliver 1", "example.com");
    forgetful = 1;
    expect("leave out", "example.com");
    under_a_policy();
    return failures > 0;
}
