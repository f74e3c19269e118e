/* The inputs of the benchmark. The program builds them; no bytes come from a file. */
#ifndef INPUTS_H
#define INPUTS_H

#include <stddef.h>
#include <stdint.h>

#include "tweedstork.h"

struct bytes {
    uint8_t *at;
    size_t length;
};

struct tlsa {
    uint64_t result;
    struct bytes lengths, records;
};

/* The arguments of tweedstork_judge_host; of these tweedstork_judge_host_certificate takes neither the leaf's place of the key nor its names. */
struct facts {
    uint64_t clock;
    struct bytes next_hop;
    uint64_t expanded_next_hop_given;
    struct bytes expanded_next_hop;
    uint64_t origin;
    struct bytes host;
    uint64_t address;
    struct bytes expanded;
    uint64_t policy_given;
    struct bytes policy;
    uint64_t fetched, tlsa_answers;
    struct tlsa tlsa[2];
    uint64_t starttls, handshake, tls_version, certificates_given;
    struct bytes certificates, certificate_lengths, key_places, digests, paths;
    uint64_t trusted_root;
    struct bytes dns_ids, dns_id_lengths;
    uint64_t common_name_given;
    struct bytes common_name;
};

/* The arguments of tweedstork_cache_store; of these tweedstork_cache_lookup takes neither id nor policy. */
struct cache_call {
    uint64_t clock;
    struct bytes domain, id, policy;
    struct tweedstork_cache *lent;
    const struct tweedstork_cache *before, *after; /* what must stand in it before the call and afterwards */
    size_t place;                                  /* of a store: the entry that it writes */
};

enum { ANSWER_FIELDS = 6 };

/* An answer of any call: its number, then its other fields, then zeros. The other fields of a lookup and of a certificate's reading stand in the input's output. */
struct answer {
    uint64_t fields[ANSWER_FIELDS];
};

enum call {
    READ_TXT, READ_POLICY, CACHE_STORE, CACHE_LOOKUP, JUDGE_HOST, READ_CERTIFICATE, JUDGE_HOST_CERTIFICATE, NEXT_HOST, WRITE_TXT, WRITE_POLICY, REWRITE_POLICY
};

/* The tables that the results are shown in. From LAST_RECORD_MATCHES on each is a series that shows growth. */
enum table {
    CALLS, CACHE, PUBLISHING, READING, LEAF_READ, NAMES_GIVEN, DECISIONS,
    LAST_RECORD_MATCHES, NO_RECORD_MATCHES, CERTIFICATES, POLICY_BYTES, TXT_BYTES, DNS_IDS, OTHER_DNS_IDS, LEAF_DNS_IDS, LEAF_BYTES, HOSTS, TABLES
};

enum { MAX_STEPS = 5, MAX_INPUTS = 144 };

/* One call, or the calls of a decision on a host, with what must be answered. */
struct input {
    enum table table;
    char name[96];
    enum call call;
    struct bytes first, second; /* rdatas and lengths; body; preferences and verdicts; id; patterns and their lengths; certificate */
    uint64_t mode, lifetime;    /* of write_policy */
    struct bytes output, text;  /* lent memory, and behind it where the whole answer of cache_lookup or read_certificate goes; what must stand there afterwards */
    struct cache_call cache;
    size_t steps;
    struct facts facts[MAX_STEPS];
    struct answer expected[MAX_STEPS];
};

struct inputs {
    size_t count;
    struct input at[MAX_INPUTS];
};

/* New inputs, in memory that no other inputs share. */
struct inputs *build_inputs(void);

/* The names of inputs with a promise of their own. */
extern const char many_dns_ids_by_leaf[], refused_at_the_first_byte[], refused_at_the_last_element[], lookup_of_none[], measured_rewriting[], one_usage_3_record[], one_usage_2_record[], one_usage_2_record_expanded[], both_digests[], ignored_records[], certificates_beside_old_tls[], whole_certificate_decision[],
    dane_decision_by_leaf[], mta_sts_decision_by_leaf[];

/* The first input of a table. */
const struct input *first_input(const struct inputs *inputs, enum table table);

#endif
