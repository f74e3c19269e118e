/*
 * A relay's whole way with a message. It looks for the domain's policy, in its cache or by a fetch. It asks which host to try,
 * then what to do with that host; what the library asks for it learns from the network, and asks again, until the library has a
 * verdict. Instead of a network there is a scenario, a text file of what the network would answer (examples/scenarios). A host
 * has one address here; docs/RELAY.md says what to do with several, and with failures of the relay's own.
 *
 * Usage: relay SCENARIO ...
 */
#include <inttypes.h>
#include <stdio.h>
#include <stdlib.h>
#include <string.h>

#include "scenario.h"
#include "tweedstork.h"

static struct tweedstork_slice slice(const struct scenario_bytes *bytes)
{
    struct tweedstork_slice slice = {bytes->bytes, bytes->length};
    return slice;
}

/* Prints an answer of the library and hands it on. */
static uint64_t answered(uint64_t number)
{
    printf("library %" PRIu64 ": %s\n", number, tweedstork_answer_words(number));
    return number;
}

/* The scenario has no answer to what the relay needs. */
static void not_said(const struct scenario_bytes *name)
{
    fflush(stdout);
    fprintf(stderr, "relay: the scenario doesn't say it of %.*s\n", (int)name->length, (const char *)name->bytes);
    exit(2);
}

/*
 * The policies that the relay has fetched. All zeros is an empty cache, so it needs no set-up. A relay with threads has a lock for
 * it, and copies what it found before another thread may store.
 */
static struct tweedstork_cache cache;

/* The policy that a message's hosts are judged by, with the clock of its fetch. */
struct policy {
    uint64_t given; /* enum tweedstork_policy_given */
    struct tweedstork_slice body;
    uint64_t fetched;
};

/* The id in the TXT record of the domain, in `output`; empty where there is no such record. */
static struct tweedstork_slice published_id(const struct scenario_message *m, uint8_t *output, size_t room)
{
    struct tweedstork_slice rdatas = slice(&m->txt.joined), lengths = slice(&m->txt.lengths), id = {NULL, 0};
    struct tweedstork_txt_answer answer =
        tweedstork_read_txt(rdatas.bytes, rdatas.length, lengths.bytes, lengths.length, output, room);

    printf("network: TXT records: %zu\n", lengths.length / 4);
    if (answered(answer.number) == TWEEDSTORK_TXT_ACCEPTED) {
        id.bytes = output + answer.id_start;
        id.length = (size_t)answer.id_length;
    }
    return id;
}

/* Fetches the policy. Returns 0, and leaves the one at hand, where that fails or brings no policy. */
static int fetch_policy(const struct scenario_message *m, struct policy *policy)
{
    struct tweedstork_slice body = slice(&m->policy);

    if (m->fetch == SCENARIO_FETCH_NOT_SAID)
        not_said(&m->next_hop);
    printf("network: policy %s\n", m->fetch == SCENARIO_FETCH_ANSWERED ? "fetched" : "not fetched");
    if (m->fetch == SCENARIO_FETCH_FAILED
        || answered(tweedstork_read_policy(body.bytes, body.length).number) != TWEEDSTORK_POLICY_ACCEPTED)
        return 0;
    policy->given = TWEEDSTORK_POLICY;
    policy->body = body;
    policy->fetched = m->clock;
    return 1;
}

/*
 * Keeps a policy that was just fetched. Where the cache cannot (70, 71), the message still has it; a relay then keeps it by other
 * means, since otherwise stopping the next fetch would switch it off.
 */
static void keep_policy(const struct scenario_message *m, struct tweedstork_slice id, const struct policy *policy)
{
    printf("relay: keeps the policy in the cache, id %.*s\n", (int)id.length, (const char *)id.bytes);
    answered(tweedstork_cache_store(policy->fetched, m->next_hop.bytes, m->next_hop.length, id.bytes, id.length,
                                    policy->body.bytes, policy->body.length, cache.table, TWEEDSTORK_CACHE_ENTRIES,
                                    cache.texts, sizeof cache.texts).number);
}

/* Looks in the cache. The policy at hand is then the one that is there, if it is live. */
static struct tweedstork_cache_answer look_in_cache(const struct scenario_message *m, struct policy *policy)
{
    struct tweedstork_cache_answer found =
        tweedstork_cache_lookup(m->clock, m->next_hop.bytes, m->next_hop.length, cache.table, TWEEDSTORK_CACHE_ENTRIES,
                                cache.texts, sizeof cache.texts);

    printf("relay: looks in the cache\n");
    if (answered(found.number) == TWEEDSTORK_DONE) {
        policy->given = TWEEDSTORK_POLICY;
        policy->body.bytes = cache.texts + found.text_start;
        policy->body.length = (size_t)found.text_length;
        policy->fetched = found.fetched;
    }
    return found;
}

/* Does the TXT record announce another policy than the one found, or one where none was found? */
static int is_new(struct tweedstork_slice id, const struct tweedstork_cache_answer *found)
{
    return id.length > 0 && (id.length != found->id_length || memcmp(id.bytes, found->id, id.length) != 0);
}

/*
 * The policy from the cache where its id is still the TXT record's; else a new one. Where no new one can be had, the one from the
 * cache goes on counting while it is live (RFC 8461, 5.1). docs/RELAY.md says when to fetch besides, and how often at most.
 */
static struct policy find_policy(const struct scenario_message *m)
{
    uint8_t txt[sizeof m->txt.joined.bytes];
    struct policy policy = {TWEEDSTORK_NO_POLICY, {NULL, 0}, 0};
    struct tweedstork_cache_answer found = look_in_cache(m, &policy);
    struct tweedstork_slice id;

    if (found.number != TWEEDSTORK_DONE && found.number != TWEEDSTORK_CACHE_NOT_FOUND) {
        /* A bad next-hop is refused for the host too. What else is the relay's mistake: zero is no choice, and refused. */
        policy.given = found.number == TWEEDSTORK_BAD_NEXT_HOP ? TWEEDSTORK_NO_POLICY : 0;
        return policy;
    }
    id = published_id(m, txt, sizeof txt);
    if (is_new(id, &found) && fetch_policy(m, &policy))
        keep_policy(m, id, &policy);
    else if (found.number == TWEEDSTORK_DONE)
        printf("relay: policy from the cache, fetched at %" PRIu64 ", id %.*s\n", found.fetched, (int)found.id_length,
               (const char *)found.id);
    else
        printf("relay: no policy\n");
    return policy;
}

/* What the relay knows of a host before it asks. Everything else is zero: not learnt yet. */
static struct tweedstork_host_facts first_facts(const struct scenario_message *m, const struct policy *policy,
                                                const struct scenario_host *host)
{
    struct tweedstork_host_facts facts = {0};

    facts.clock = m->clock;
    facts.next_hop = slice(&m->next_hop);
    facts.expanded_next_hop_given = m->expanded_next_hop_given;
    facts.expanded_next_hop = slice(&m->expanded_next_hop);
    facts.origin = m->origin;
    facts.host = slice(&host->name);
    facts.address = host->address;
    facts.expanded = slice(&host->expanded);
    facts.policy_given = policy->given;
    facts.policy = policy->body;
    facts.fetched = policy->fetched;
    return facts;
}

/* TLSA lookup: one more answer, in the order asked for. */
static void learn_tlsa(const struct scenario_tlsa *answer, struct tweedstork_host_facts *facts)
{
    static const char *const results[] = {"nothing in the scenario", "secure", "insecure", "absent", "lookup failed"};
    size_t at = (size_t)facts->tlsa_answers++;

    facts->tlsa[at].result = answer->result;
    facts->tlsa[at].lengths = slice(&answer->records.lengths);
    facts->tlsa[at].records = slice(&answer->records.joined);
    printf("  network: %s, records: %zu\n", results[answer->result], answer->records.lengths.length / 4);
}

/* The handshake: the server name to send, and whether ciphers without certificates may be offered. */
static void say_handshake(const struct tweedstork_host_facts *facts)
{
    struct tweedstork_slice name = tweedstork_server_name(facts);

    printf("  relay: server name %.*s, anonymous ciphers: %s\n", (int)name.length, (const char *)name.bytes,
           tweedstork_certificates_matter(facts) ? "no" : "yes");
}

/*
 * The handshake's outcome, and of an established one the version of TLS that was agreed on. It is asked of the TLS library after the
 * handshake: the highest version that the relay offers, in its place, would let old TLS pass.
 */
static void learn_handshake(const struct scenario_host *host, struct tweedstork_host_facts *facts)
{
    facts->handshake = host->handshake;
    if (host->handshake != TWEEDSTORK_ESTABLISHED) {
        printf("  network: failed\n");
        return;
    }
    facts->tls_version = host->tls_version;
    printf("  network: established, TLS 1.%" PRIu64 "\n", host->tls_version - TWEEDSTORK_TLS_1_0);
}

/* TLS: what the server showed, and what the relay's TLS library says of it. The names in the leaf are the library's to read. */
static void learn_certificates(const struct scenario_host *host, struct tweedstork_host_facts *facts)
{
    facts->certificates_given = TWEEDSTORK_CERTIFICATES_GIVEN;
    facts->certificates = slice(&host->certificates.joined);
    facts->certificate_lengths = slice(&host->certificates.lengths);
    facts->key_places = slice(&host->key_places);
    facts->digests = slice(&host->digests);
    facts->paths = slice(&host->paths);
    facts->trusted_root = host->trusted_root;
    printf("  network: certificates: %zu, trusted root: %s\n", host->certificates.lengths.length / 4,
           host->trusted_root == TWEEDSTORK_YES ? "yes" : "no");
}

/* Learns the fact that the library asks for. Returns 0 where it asks for none. */
static int learn(uint64_t question, const struct scenario_host *host, struct tweedstork_host_facts *facts)
{
    switch (question) {
    case TWEEDSTORK_ASK_TLSA_EXPANDED:
        learn_tlsa(&host->at_expanded, facts);
        return 1;
    case TWEEDSTORK_ASK_TLSA_HOST:
        learn_tlsa(&host->at_host, facts);
        return 1;
    case TWEEDSTORK_ASK_STARTTLS:
        facts->starttls = host->starttls;
        printf("  network: %s\n", host->starttls == TWEEDSTORK_STARTTLS_OFFERED ? "offered" : "not offered");
        return 1;
    case TWEEDSTORK_ASK_HANDSHAKE:
        say_handshake(facts);
        learn_handshake(host, facts);
        return 1;
    case TWEEDSTORK_ASK_CERTIFICATES:
        learn_certificates(host, facts);
        return 1;
    default:
        return 0;
    }
}

/* Has the scenario an answer to the question? */
static int says(const struct scenario_host *host, uint64_t question)
{
    switch (question) {
    case TWEEDSTORK_ASK_TLSA_EXPANDED:
        return host->at_expanded.result != 0;
    case TWEEDSTORK_ASK_TLSA_HOST:
        return host->at_host.result != 0;
    case TWEEDSTORK_ASK_STARTTLS:
        return host->lost || host->starttls != 0;
    case TWEEDSTORK_ASK_HANDSHAKE:
        return host->handshake != 0;
    default:
        return 1;
    }
}

/* Asks once. Where the expanded next-hop is no name, asks without it: no certificate can have such a name. */
static uint64_t ask(struct tweedstork_host_facts *facts)
{
    uint64_t answer = tweedstork_judge_facts_certificate(facts).number;

    printf("  library %" PRIu64 ": %s\n", answer, tweedstork_answer_words(answer));
    if (answer != TWEEDSTORK_BAD_NEXT_HOP || facts->expanded_next_hop_given == TWEEDSTORK_NO)
        return answer;
    facts->expanded_next_hop_given = TWEEDSTORK_NO;
    printf("  relay: asks without the expanded next-hop\n");
    return ask(facts);
}

/*
 * A host's verdict or refusal: ask, learn, ask again. The library asks for no fact that it has, so this ends; a question that came
 * twice would mean that the relay left its fact zero. Zero, that nobody answered, where the connection is lost: that is no fact
 * about STARTTLS, and a host without a verdict is left out.
 */
static uint64_t judge(const struct scenario_message *m, const struct policy *policy, const struct scenario_host *host)
{
    struct tweedstork_host_facts facts = first_facts(m, policy, host);
    uint64_t answer = 0, before;

    do {
        before = answer;
        answer = ask(&facts);
        if (answer == before || !says(host, answer))
            not_said(&host->name);
        if (answer == TWEEDSTORK_ASK_STARTTLS && host->lost) {
            printf("  network: the connection is lost\n");
            return 0;
        }
    } while (learn(answer, host, &facts));
    return answer;
}

/* How the relay delivers. Only 1 to 5 let a message go; for every other number there is no way. */
static const char *way(uint64_t verdict)
{
    switch (verdict) {
    case TWEEDSTORK_CLEARTEXT:
        return "in cleartext";
    case TWEEDSTORK_ENCRYPTED:
        return "over TLS, whoever the server is";
    case TWEEDSTORK_DANE:
    case TWEEDSTORK_MTA_STS:
    case TWEEDSTORK_DANE_AND_MTA_STS:
        return "over the TLS connection whose certificate passed";
    default:
        return NULL;
    }
}

/* A message's hosts: those that are left, with their preferences and verdicts as lists. */
struct hosts {
    const struct scenario_host *at[SCENARIO_HOSTS];
    uint8_t preferences[4 * SCENARIO_HOSTS], verdicts[4 * SCENARIO_HOSTS];
    size_t count;
};

/* Leaves a host out, so that the others go on. */
static void leave_out(struct hosts *hosts, size_t position)
{
    size_t after = --hosts->count - position;

    memmove(&hosts->at[position], &hosts->at[position + 1], after * sizeof hosts->at[0]);
    memmove(&hosts->preferences[4 * position], &hosts->preferences[4 * position + 4], 4 * after);
    memmove(&hosts->verdicts[4 * position], &hosts->verdicts[4 * position + 4], 4 * after);
}

/* May the refusal come of what the domain or the server sent? Then the relay leaves this host out. */
static int is_theirs(uint64_t refusal)
{
    return refusal == TWEEDSTORK_BAD_HOST || refusal == TWEEDSTORK_BAD_TLSA || refusal == TWEEDSTORK_BAD_CERTIFICATES
           || refusal == TWEEDSTORK_CERTIFICATE_MALFORMED || refusal == TWEEDSTORK_MANY_DNS_IDS;
}

/* Tries a host and notes what came of it. Returns the verdict or refusal, or zero where there is neither. */
static uint64_t try_host(const struct scenario_message *m, const struct policy *policy, struct hosts *hosts, size_t position)
{
    const struct scenario_host *host = hosts->at[position];
    uint64_t answer;

    printf(": %.*s\n", (int)host->name.length, (const char *)host->name.bytes);
    answer = judge(m, policy, host);
    if (answer == 0 || is_theirs(answer))
        leave_out(hosts, position);
    else
        tweedstork_put_number(hosts->verdicts, position, (uint32_t)answer);
    return answer;
}

/* A message: host after host, until the library names one to deliver to or says to wait. Returns 0 where the relay itself made a mistake. */
static int deliver(const struct scenario_message *m, const struct policy *policy)
{
    struct hosts hosts = {{NULL}, {0}, {0}, m->host_count};
    struct tweedstork_message_answer answer;
    uint64_t tried = TWEEDSTORK_NOT_TRIED;

    for (size_t i = 0; i < hosts.count; i++) {
        hosts.at[i] = &m->hosts[i];
        tweedstork_put_number(hosts.preferences, i, m->hosts[i].preference);
        tweedstork_put_number(hosts.verdicts, i, TWEEDSTORK_NOT_TRIED);
    }
    do {
        answer = tweedstork_next_host(m->mx_lookup, hosts.preferences, 4 * hosts.count, hosts.verdicts, 4 * hosts.count);
        printf("library %" PRIu64 ": %s", answer.number, tweedstork_answer_words(answer.number));
        if (answer.number == TWEEDSTORK_TRY_HOST)
            tried = try_host(m, policy, &hosts, (size_t)answer.position);
        if (tried == TWEEDSTORK_BAD_NEXT_HOP) { /* of the recipient's address, and so the same for every host */
            printf("relay: returns the message, since its next-hop is no name\n");
            return 1;
        }
        if (tried > TWEEDSTORK_OLD_TLS && !is_theirs(tried)) { /* above the last of a host's verdicts */
            printf("relay: keeps the message, since it made a mistake of its own\n");
            return 0;
        }
    } while (answer.number == TWEEDSTORK_TRY_HOST && hosts.count > 0);
    if (answer.number != TWEEDSTORK_TRY_HOST)
        printf("\n");
    if (answer.number > TWEEDSTORK_NO_HOST_LEFT) {
        printf("relay: keeps the message, since it made a mistake of its own\n");
        return 0;
    }
    if (way(answer.number) != NULL) /* on the connection that was judged, still open; after a failed handshake on a new one */
        printf("relay: sends the message to %.*s, %s\n", (int)hosts.at[answer.position]->name.length,
               (const char *)hosts.at[answer.position]->name.bytes, way(answer.number));
    else
        printf("relay: keeps the message and tries again later\n");
    return 1;
}

/* A scenario's messages one after another, with a cache that is empty at first. Returns 0 where the relay itself made a mistake. */
static int run(const char *path, const struct scenario *s)
{
    memset(&cache, 0, sizeof cache);
    for (size_t i = 0; i < s->message_count; i++) {
        const struct scenario_message *m = &s->messages[i];
        struct policy policy = {m->policy_given, slice(&m->policy), m->fetched};

        printf("%s: a message to %.*s, clock %" PRIu64 "\n", path, (int)m->next_hop.length, (const char *)m->next_hop.bytes, m->clock);
        if (m->looks_for_policy)
            policy = find_policy(m);
        if (!deliver(m, &policy))
            return 0;
    }
    return 1;
}

int main(int argc, char **argv)
{
    static struct scenario s;

    if (argc < 2) {
        fprintf(stderr, "usage: relay SCENARIO ...\n");
        return 2;
    }
    if (tweedstork_version() != TWEEDSTORK_VERSION_NUMBER) {
        fprintf(stderr, "relay: the archive has version %" PRIu64 ", the header %d\n", tweedstork_version(), TWEEDSTORK_VERSION_NUMBER);
        return 2;
    }
    for (int i = 1; i < argc; i++) {
        if (!scenario_read(argv[i], &s))
            return 2;
        if (i > 1)
            printf("\n");
        if (!run(argv[i], &s))
            return 1;
    }
    return 0;
}
