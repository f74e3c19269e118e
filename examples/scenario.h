/*
 * A scenario: what the network would answer to a relay that delivers a message, or several one after another, read from a small
 * text file. The files stand in examples/scenarios; dane.txt there explains each line, and cached-policy.txt those by which the
 * relay looks for a policy.
 */
#ifndef SCENARIO_H
#define SCENARIO_H

#include "tweedstork.h"

#define SCENARIO_HOSTS 32
#define SCENARIO_MESSAGES 4

/* Bytes that grow as lines are read. */
struct scenario_bytes {
    uint8_t bytes[4096];
    size_t length;
};

/* Several byte strings one after another, and the list of their lengths. */
struct scenario_parts {
    struct scenario_bytes joined, lengths;
};

struct scenario_tlsa {
    uint64_t result; /* zero where the file says nothing */
    struct scenario_parts records;
};

struct scenario_host {
    uint32_t preference;
    struct scenario_bytes name, expanded;
    uint64_t address, starttls, handshake, tls_version;
    int lost; /* the connection is lost before EHLO is answered */
    struct scenario_tlsa at_expanded, at_host;
    struct scenario_parts certificates;
    struct scenario_bytes key_places, digests, paths; /* key places: of the certificates after the leaf */
    struct scenario_bytes dns_ids, common_name;       /* as the leaf has them */
    uint64_t trusted_root;
    int malformed;                                    /* the leaf lacks its last byte */
};

/* What comes of fetching a policy. */
enum scenario_fetch { SCENARIO_FETCH_NOT_SAID, SCENARIO_FETCH_ANSWERED, SCENARIO_FETCH_FAILED };

struct scenario_message {
    uint64_t clock, mx_lookup, origin;
    struct scenario_bytes next_hop, expanded_next_hop;
    uint64_t expanded_next_hop_given;
    uint64_t policy_given, fetched; /* the policy that the relay has from the start */
    int looks_for_policy;           /* the file says what the TXT lookup gives: the relay looks for the policy itself */
    struct scenario_parts txt;      /* the RDATAs */
    uint64_t fetch;                 /* enum scenario_fetch */
    struct scenario_bytes policy;   /* had from the start, or fetched */
    struct scenario_host hosts[SCENARIO_HOSTS];
    size_t host_count;
};

struct scenario {
    struct scenario_message messages[SCENARIO_MESSAGES];
    size_t message_count;
};

/* Reads a file. Says on standard error what is wrong with it and returns 0, where something is. */
int scenario_read(const char *path, struct scenario *scenario);

#endif
