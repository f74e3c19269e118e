/*
 * tweedstork.h: may a mail relay hand this message to that mail server, and how?
 *
 * The relay asks before it delivers, learns what the library asks for, and asks again. The rules are those of
 * MTA-STS (RFC 8461) and SMTP-DANE (RFC 7672). Every call of the archive is proved to answer as its definition says, for
 * every input. At the end stand three calls for domains that publish a policy of their own.
 *
 * docs/RELAY.md says what the relay has to do: where each fact comes from, what it means, and what no call does for it.
 * docs/RULES.md has the rules in plain words.
 *
 * What the library does not do:
 * - it has no resolver, no HTTPS, no TLS, no path checking and no hashing: the relay brings their results, and the answers are
 *   as good as these;
 * - it keeps a policy only where the relay lends it a table for that (tweedstork_cache_store), and asks for no parent domain's
 *   policy;
 * - it does not read the MX answer: null MX and a domain that does not exist are the relay's (see tweedstork_next_host);
 * - of certificates it reads the leaf's names and the place of its key info, where it is asked to
 *   (tweedstork_judge_host_certificate, tweedstork_read_certificate): whether a signature verifies or a certificate is expired,
 *   the relay says.
 *
 * Where it departs from the RFCs, or from what other mail servers do:
 * - where DANE and MTA-STS are both needed, both must pass: a good record 3 1 1 beside an enforce policy and a self-signed
 *   certificate is 27 (RFC 8461, 2 only forbids that a policy rescues a failing DANE check; Postfix lets DANE decide alone);
 * - insecure MX records don't switch DANE off (RFC 7672, 2.2.1 leaves the choice); 3 then proves the host, not that it is the
 *   domain's;
 * - where authentication is needed, TLS below version 1.2 is not enough (28), whatever certificate is shown (RFC 7672 sets no
 *   lowest version; RFC 8461, 7.2 asks that TLS 1.2 or higher is supported, and doesn't forbid older ones);
 * - a policy is stale at exactly max_age (RFC 8461, 5.1 keeps it while its age "has not exceeded" max_age);
 * - a TLSA record under 3 bytes counts as a failed lookup (22), and not as an unusable record;
 * - usage 2 never matches the leaf, self-signed or not (as long as the relay gives no path to a copy of it);
 * - an underscore is no part of a name (60, 61), also in an expanded name that no rule reads;
 * - SHA-512 is taken as stronger than SHA-256, and no other order can be set (RFC 7671, 9 says that it should be configurable);
 * - where the library reads the leaf itself, one that is malformed or has over 64 DNS-IDs is refused (90, 91), also where a record
 *   of usage 3 would match it; TLS libraries let some of that pass;
 * - a policy with an empty last line is refused (53), as the RFC's grammar has it; some readers let it pass.
 *
 * Conventions
 * - A number is a uint64_t. A byte slice is a pointer and a length; NULL with length 0 is an empty slice. Every length is in
 *   bytes, also that of a list: four times its count. Only table_length of a cache counts entries: it is
 *   TWEEDSTORK_CACHE_ENTRIES and never a sizeof; any other count is refused (74) before an entry is read.
 * - A list of numbers is a byte slice, four bytes each, big-endian (the highest first; tweedstork_put_number writes one).
 *   Left-over bytes get the list's refusal.
 * - A name is ASCII text of 1 to 253 bytes: labels of 1 to 63 letters, digits and hyphens with single dots between, no hyphen at
 *   either end of a label, no dot at the end (cut off the one that resolvers print). Case doesn't matter; an international
 *   name is given as A-labels (xn--).
 * - An answer is a struct; its first field is the answer number, one of enum tweedstork_number. It is never zero.
 * - A refusal (40 to 91) has zero in every other field, but for the line and offset of 53 to 57 (see tweedstork_read_policy) and
 *   the offset of 90 (see tweedstork_read_certificate), and leaves the memory that you passed as it was, but for 42 (see
 *   tweedstork_read_txt).
 * - No call keeps a pointer, allocates or has state. Calls may run on any number of threads at once, but for a store into a
 *   cache: it is alone with its table and texts.
 */
#ifndef TWEEDSTORK_H
#define TWEEDSTORK_H

#include <stddef.h>
#include <stdint.h>

#ifdef __cplusplus
extern "C" {
#endif

/* The version of this header. A number that another version gave a meaning to is never given a second one. */
#define TWEEDSTORK_VERSION "1.8.0"
#define TWEEDSTORK_VERSION_NUMBER 10800 /* major * 10000 + minor * 100 + patch */

/* The version of the archive. It equals TWEEDSTORK_VERSION_NUMBER where header and archive belong together. */
uint64_t tweedstork_version(void);

/* The answer numbers. Zero is none of them: it means that nobody answered. */
enum tweedstork_number {
    /* verdicts on a host: deliver */
    TWEEDSTORK_CLEARTEXT = 1,               /* deliver in cleartext (over a new connection where a handshake failed) */
    TWEEDSTORK_ENCRYPTED = 2,               /* deliver encrypted, unauthenticated */
    TWEEDSTORK_DANE = 3,                    /* deliver authenticated by DANE */
    TWEEDSTORK_MTA_STS = 4,                 /* deliver authenticated by MTA-STS */
    TWEEDSTORK_DANE_AND_MTA_STS = 5,        /* deliver authenticated by DANE and MTA-STS */
    /* readers */
    TWEEDSTORK_TXT_ACCEPTED = 6,            /* TXT record accepted */
    TWEEDSTORK_POLICY_ACCEPTED = 7,         /* policy accepted */
    /* a message's hosts */
    TWEEDSTORK_TRY_HOST = 8,                /* try this host */
    TWEEDSTORK_NOT_TRIED = 9,               /* host not tried yet (input only) */
    /* a host: what to learn next */
    TWEEDSTORK_ASK_STARTTLS = 10,           /* ask: is STARTTLS offered? */
    TWEEDSTORK_ASK_HANDSHAKE = 11,          /* ask: was the handshake established, and with which version of TLS? */
    TWEEDSTORK_ASK_CERTIFICATES = 12,       /* ask: which certificates were shown? */
    TWEEDSTORK_ASK_TLSA_EXPANDED = 13,      /* ask: which TLSA records are there at the expanded name (for port 25 at
                                               _25._tcp.NAME)? */
    TWEEDSTORK_ASK_TLSA_HOST = 14,          /* ask: which TLSA records are there at the host name (for port 25 at
                                               _25._tcp.NAME)? */
    /* every other call that succeeds */
    TWEEDSTORK_DONE = 15,                   /* done */
    /* verdicts on a host: go on to the next host */
    TWEEDSTORK_ADDRESS_FAILED = 20,         /* next host: address lookup failed */
    TWEEDSTORK_NO_ADDRESS = 21,             /* next host: no address */
    TWEEDSTORK_TLSA_FAILED = 22,            /* next host: TLSA lookup failed, or a record has under 3 bytes */
    TWEEDSTORK_NO_PATTERN = 23,             /* next host: no policy pattern matches */
    TWEEDSTORK_TLS_NOT_OFFERED = 24,        /* next host: TLS needed, not offered */
    TWEEDSTORK_HANDSHAKE_FAILED = 25,       /* next host: TLS needed, handshake failed */
    TWEEDSTORK_DANE_MISMATCH = 26,          /* next host: DANE did not match */
    TWEEDSTORK_MTA_STS_MISMATCH = 27,       /* next host: MTA-STS certificate check did not pass */
    TWEEDSTORK_OLD_TLS = 28,                /* next host: authentication needed, TLS below version 1.2 */
    /* a message's hosts: delay */
    TWEEDSTORK_MX_LOOKUP_FAILED = 30,       /* delay: MX lookup failed */
    TWEEDSTORK_NO_HOST_LEFT = 31,           /* delay: every host is a 'next host' */
    /* refusals */
    TWEEDSTORK_TXT_NO_CANDIDATE = 40,       /* refused: no TXT record begins with 'v=STSv1;' */
    TWEEDSTORK_TXT_SEVERAL = 41,            /* refused: several TXT records begin with 'v=STSv1;' */
    TWEEDSTORK_TXT_MALFORMED = 42,          /* refused: the TXT record that begins with 'v=STSv1;' is malformed */
    TWEEDSTORK_TXT_WIRE_FORM = 43,          /* refused: TXT records whose lengths (four bytes each, big-endian) do not sum, an
                                               empty one, or a character string that runs past its record */
    TWEEDSTORK_TXT_OUTPUT_SHORT = 44,       /* refused: the output is too short for the TXT record */
    TWEEDSTORK_POLICY_LONG = 50,            /* refused: the policy has over 65,536 bytes */
    /* 51 said until version 1.1.0 that a policy is malformed. No call answers it any more, and it gets no other meaning: 53 to 57
       say what is wrong. */
    TWEEDSTORK_POLICY_INCOMPLETE = 52,      /* refused: the policy lacks version, mode, max_age or mx */
    TWEEDSTORK_POLICY_BAD_LINE = 53,        /* refused: a line of the policy is not of the form 'name: value' (perhaps the policy
                                               is empty, or has an empty line, a lone CR or a zero byte) */
    TWEEDSTORK_POLICY_BAD_VERSION = 54,     /* refused: the policy's version is not 'STSv1' */
    TWEEDSTORK_POLICY_BAD_MODE = 55,        /* refused: the policy's mode is none of 'enforce', 'testing' and 'none' */
    TWEEDSTORK_POLICY_BAD_MAX_AGE = 56,     /* refused: the policy's max_age is not 1 to 10 digits */
    TWEEDSTORK_POLICY_BAD_MX = 57,          /* refused: an mx of the policy is neither a name nor '*.' and a name */
    TWEEDSTORK_BAD_NEXT_HOP = 60,           /* refused: the next-hop, the expanded next-hop or a cache's domain is no name
                                               (perhaps it is empty, or has a final dot, a zero byte or an underscore) */
    TWEEDSTORK_BAD_HOST = 61,               /* refused: the host or the expanded name of an alias is no name (perhaps it is
                                               empty, or has a final dot, a zero byte or an underscore), or with no MX the host
                                               is not the next-hop */
    TWEEDSTORK_BAD_CLOCK = 62,              /* refused: a clock above 253,402,300,799 */
    TWEEDSTORK_BAD_HOST_LIST = 63,          /* refused: host list empty or over 32, lists of unequal length or with left-over
                                               bytes, a preference over 65,535, or a number (four bytes, big-endian) that is no
                                               host verdict */
    TWEEDSTORK_BAD_TLSA = 64,               /* refused: TLSA answer with over 32 records, one of over 4,096 bytes, or lengths
                                               (four bytes each, big-endian) that do not sum */
    TWEEDSTORK_BAD_CERTIFICATES = 65,       /* refused: certificate facts with over 8 certificates or 64 DNS-IDs, one too long,
                                               a list that is missing or of the wrong length, lengths (four bytes each,
                                               big-endian) that do not sum, or a key place outside its certificate */
    TWEEDSTORK_FACT_MISSING = 66,           /* refused: a later fact is given while an earlier needed one is missing */
    TWEEDSTORK_BAD_CODE = 67,               /* refused: a code, a mode or a yes/no number (each of the paths too) outside its
                                               choices, perhaps left zero, over two TLSA answers, or a TLS version over
                                               65,535 */
    TWEEDSTORK_CACHE_FULL = 70,             /* refused: no entry of the cache is the domain's own, empty or stale */
    TWEEDSTORK_CACHE_TEXT_LONG = 71,        /* refused: the policy has over 1,024 bytes, which is the room of a cache's entry */
    TWEEDSTORK_CACHE_NOT_FOUND = 72,        /* refused: the cache holds no live policy for the domain */
    TWEEDSTORK_BAD_SIZE = 74,               /* refused: a cache whose table has not 64 entries, or whose texts have not 65,536
                                               bytes */
    TWEEDSTORK_BAD_ID = 80,                 /* refused: the id is not 1 to 32 letters or digits */
    TWEEDSTORK_BAD_PATTERNS = 81,           /* refused: over 16 patterns, none where the mode is not 'none', one that is neither
                                               a name nor '*.' and a name, or lengths (four bytes each, big-endian) that do not
                                               sum */
    TWEEDSTORK_BAD_LIFETIME = 82,           /* refused: a lifetime above 31,557,600 */
    TWEEDSTORK_OUTPUT_SHORT = 83,           /* refused: the output is too short for what would be written */
    TWEEDSTORK_CERTIFICATE_MALFORMED = 90,  /* refused: the certificate has an element whose header is not DER's, that runs past
                                               what holds it, that is over 16 deep, or that is misplaced or missing */
    TWEEDSTORK_MANY_DNS_IDS = 91            /* refused: the certificate has over 64 DNS-IDs */
};

/* An answer number in words: its sentence in enum tweedstork_number; for any other number, that it is none. Never NULL. */
static inline const char *tweedstork_answer_words(uint64_t number)
{
    switch (number) {
    case TWEEDSTORK_CLEARTEXT: return "deliver in cleartext (over a new connection where a handshake failed)";
    case TWEEDSTORK_ENCRYPTED: return "deliver encrypted, unauthenticated";
    case TWEEDSTORK_DANE: return "deliver authenticated by DANE";
    case TWEEDSTORK_MTA_STS: return "deliver authenticated by MTA-STS";
    case TWEEDSTORK_DANE_AND_MTA_STS: return "deliver authenticated by DANE and MTA-STS";
    case TWEEDSTORK_TXT_ACCEPTED: return "TXT record accepted";
    case TWEEDSTORK_POLICY_ACCEPTED: return "policy accepted";
    case TWEEDSTORK_TRY_HOST: return "try this host";
    case TWEEDSTORK_NOT_TRIED: return "host not tried yet (input only)";
    case TWEEDSTORK_ASK_STARTTLS: return "ask: is STARTTLS offered?";
    case TWEEDSTORK_ASK_HANDSHAKE: return "ask: was the handshake established, and with which version of TLS?";
    case TWEEDSTORK_ASK_CERTIFICATES: return "ask: which certificates were shown?";
    case TWEEDSTORK_ASK_TLSA_EXPANDED:
        return "ask: which TLSA records are there at the expanded name (for port 25 at _25._tcp.NAME)?";
    case TWEEDSTORK_ASK_TLSA_HOST: return "ask: which TLSA records are there at the host name (for port 25 at _25._tcp.NAME)?";
    case TWEEDSTORK_DONE: return "done";
    case TWEEDSTORK_ADDRESS_FAILED: return "next host: address lookup failed";
    case TWEEDSTORK_NO_ADDRESS: return "next host: no address";
    case TWEEDSTORK_TLSA_FAILED: return "next host: TLSA lookup failed, or a record has under 3 bytes";
    case TWEEDSTORK_NO_PATTERN: return "next host: no policy pattern matches";
    case TWEEDSTORK_TLS_NOT_OFFERED: return "next host: TLS needed, not offered";
    case TWEEDSTORK_HANDSHAKE_FAILED: return "next host: TLS needed, handshake failed";
    case TWEEDSTORK_DANE_MISMATCH: return "next host: DANE did not match";
    case TWEEDSTORK_MTA_STS_MISMATCH: return "next host: MTA-STS certificate check did not pass";
    case TWEEDSTORK_OLD_TLS: return "next host: authentication needed, TLS below version 1.2";
    case TWEEDSTORK_MX_LOOKUP_FAILED: return "delay: MX lookup failed";
    case TWEEDSTORK_NO_HOST_LEFT: return "delay: every host is a 'next host'";
    case TWEEDSTORK_TXT_NO_CANDIDATE: return "refused: no TXT record begins with 'v=STSv1;'";
    case TWEEDSTORK_TXT_SEVERAL: return "refused: several TXT records begin with 'v=STSv1;'";
    case TWEEDSTORK_TXT_MALFORMED: return "refused: the TXT record that begins with 'v=STSv1;' is malformed";
    case TWEEDSTORK_TXT_WIRE_FORM:
        return "refused: TXT records whose lengths (four bytes each, big-endian) do not sum, an empty one, or a character "
               "string that runs past its record";
    case TWEEDSTORK_TXT_OUTPUT_SHORT: return "refused: the output is too short for the TXT record";
    case TWEEDSTORK_POLICY_LONG: return "refused: the policy has over 65,536 bytes";
    case TWEEDSTORK_POLICY_INCOMPLETE: return "refused: the policy lacks version, mode, max_age or mx";
    case TWEEDSTORK_POLICY_BAD_LINE:
        return "refused: a line of the policy is not of the form 'name: value' (perhaps the policy is empty, or has an empty "
               "line, a lone CR or a zero byte)";
    case TWEEDSTORK_POLICY_BAD_VERSION: return "refused: the policy's version is not 'STSv1'";
    case TWEEDSTORK_POLICY_BAD_MODE: return "refused: the policy's mode is none of 'enforce', 'testing' and 'none'";
    case TWEEDSTORK_POLICY_BAD_MAX_AGE: return "refused: the policy's max_age is not 1 to 10 digits";
    case TWEEDSTORK_POLICY_BAD_MX: return "refused: an mx of the policy is neither a name nor '*.' and a name";
    case TWEEDSTORK_BAD_NEXT_HOP:
        return "refused: the next-hop, the expanded next-hop or a cache's domain is no name (perhaps it is empty, or has a "
               "final dot, a zero byte or an underscore)";
    case TWEEDSTORK_BAD_HOST:
        return "refused: the host or the expanded name of an alias is no name (perhaps it is empty, or has a final dot, a "
               "zero byte or an underscore), or with no MX the host is not the next-hop";
    case TWEEDSTORK_BAD_CLOCK: return "refused: a clock above 253,402,300,799";
    case TWEEDSTORK_BAD_HOST_LIST:
        return "refused: host list empty or over 32, lists of unequal length or with left-over bytes, a preference over "
               "65,535, or a number (four bytes, big-endian) that is no host verdict";
    case TWEEDSTORK_BAD_TLSA:
        return "refused: TLSA answer with over 32 records, one of over 4,096 bytes, or lengths (four bytes each, "
               "big-endian) that do not sum";
    case TWEEDSTORK_BAD_CERTIFICATES:
        return "refused: certificate facts with over 8 certificates or 64 DNS-IDs, one too long, a list that is missing "
               "or of the wrong length, lengths (four bytes each, big-endian) that do not sum, or a key place outside its "
               "certificate";
    case TWEEDSTORK_FACT_MISSING: return "refused: a later fact is given while an earlier needed one is missing";
    case TWEEDSTORK_BAD_CODE:
        return "refused: a code, a mode or a yes/no number (each of the paths too) outside its choices, perhaps left zero, "
               "over two TLSA answers, or a TLS version over 65,535";
    case TWEEDSTORK_CACHE_FULL: return "refused: no entry of the cache is the domain's own, empty or stale";
    case TWEEDSTORK_CACHE_TEXT_LONG:
        return "refused: the policy has over 1,024 bytes, which is the room of a cache's entry";
    case TWEEDSTORK_CACHE_NOT_FOUND: return "refused: the cache holds no live policy for the domain";
    case TWEEDSTORK_BAD_SIZE:
        return "refused: a cache whose table has not 64 entries, or whose texts have not 65,536 bytes";
    case TWEEDSTORK_BAD_ID: return "refused: the id is not 1 to 32 letters or digits";
    case TWEEDSTORK_BAD_PATTERNS:
        return "refused: over 16 patterns, none where the mode is not 'none', one that is neither a name nor '*.' and a name, "
               "or lengths (four bytes each, big-endian) that do not sum";
    case TWEEDSTORK_BAD_LIFETIME: return "refused: a lifetime above 31,557,600";
    case TWEEDSTORK_OUTPUT_SHORT: return "refused: the output is too short for what would be written";
    case TWEEDSTORK_CERTIFICATE_MALFORMED:
        return "refused: the certificate has an element whose header is not DER's, that runs past what holds it, that is over "
               "16 deep, or that is misplaced or missing";
    case TWEEDSTORK_MANY_DNS_IDS: return "refused: the certificate has over 64 DNS-IDs";
    default: return "no answer number; zero is none, and means that nobody answered";
    }
}

/* Input codes. Zero is a choice only where it says "not given". docs/RELAY.md says how a resolver's answers map to them. */

enum { TWEEDSTORK_YES = 1, TWEEDSTORK_NO = 2 };

enum tweedstork_origin {
    TWEEDSTORK_SECURE_MX = 1,
    TWEEDSTORK_INSECURE_MX = 2,
    TWEEDSTORK_NO_MX = 3                    /* the domain exists and has no MX record, or a configured host needs no MX
                                               lookup: the host is the next-hop itself */
};

/* The result of the host's address lookup. The three alias codes all want the expanded name. */
enum tweedstork_address {
    TWEEDSTORK_NO_ALIAS_SECURE = 1,
    TWEEDSTORK_NO_ALIAS_INSECURE = 2,
    TWEEDSTORK_ALIAS_SECURE = 3,            /* every step (CNAME) and the address are secure */
    TWEEDSTORK_ALIAS_FIRST_STEP_SECURE = 4, /* the host's own CNAME is secure, the address at the end is not */
    TWEEDSTORK_ALIAS_FIRST_STEP_INSECURE = 5, /* the host's own CNAME is insecure */
    TWEEDSTORK_ADDRESS_LOOKUP_FAILED = 6,   /* bogus, SERVFAIL, a time-out: never "absent" */
    TWEEDSTORK_ADDRESS_ABSENT = 7
};

enum tweedstork_policy_given { TWEEDSTORK_POLICY = 1, TWEEDSTORK_NO_POLICY = 2 };

enum tweedstork_tlsa_result {
    TWEEDSTORK_TLSA_SECURE = 1,             /* with all its records listed; with none it is the same as absent */
    TWEEDSTORK_TLSA_INSECURE = 2,
    TWEEDSTORK_TLSA_ABSENT = 3,
    TWEEDSTORK_TLSA_LOOKUP_FAILED = 4       /* bogus, SERVFAIL, a time-out: never "absent" */
};

/*
 * STARTTLS and handshake are of one connection. One that is lost before EHLO is answered has neither offered nor not offered it,
 * and a failure of the relay's own (memory, its TLS set-up) is no failed handshake: the relay tries another address or leaves the
 * host out. Otherwise it might be told to deliver in cleartext.
 */
enum tweedstork_starttls {
    TWEEDSTORK_STARTTLS_NOT_GIVEN = 0,
    TWEEDSTORK_STARTTLS_OFFERED = 1,
    TWEEDSTORK_STARTTLS_NOT_OFFERED = 2
};

enum tweedstork_handshake { TWEEDSTORK_HANDSHAKE_NOT_GIVEN = 0, TWEEDSTORK_ESTABLISHED = 1, TWEEDSTORK_NOT_ESTABLISHED = 2 };

/*
 * The version of TLS that the handshake agreed on: its two wire bytes as one number, the high byte first. Any other number up to
 * 65,535 may be given too; SSL 3.0 is 0x0300. Give what was agreed on, not the highest version that the relay offered, by which old
 * TLS would pass; nor what the records carry, which is 0x0303 with TLS 1.3 too.
 *
 * OpenSSL's SSL_version returns these numbers, but only once SSL_connect has returned 1: before that it is a higher version, that
 * nobody agreed on. GnuTLS's gnutls_protocol_get_version has numbers of its own (GNUTLS_TLS1_2 is 4), which the relay has to
 * translate.
 */
enum tweedstork_tls_version {
    TWEEDSTORK_TLS_1_0 = 0x0301,
    TWEEDSTORK_TLS_1_1 = 0x0302,
    TWEEDSTORK_TLS_1_2 = 0x0303,            /* the lowest that will do where authentication is needed */
    TWEEDSTORK_TLS_1_3 = 0x0304
};

enum tweedstork_certificates_given { TWEEDSTORK_CERTIFICATES_NOT_GIVEN = 0, TWEEDSTORK_CERTIFICATES_GIVEN = 1 };

/* Was the MX lookup answered? */
enum tweedstork_mx_lookup {
    TWEEDSTORK_MX_ANSWERED = 1,
    TWEEDSTORK_MX_FAILED = 2
};

struct tweedstork_txt_answer {
    uint64_t number;
    uint64_t id_start;
    uint64_t id_length;
};

/*
 * Which MTA-STS record do the TXT RDATAs of _mta-sts.DOMAIN hold (RFC 8461, 3.1)?
 *
 * Takes:   rdatas: the RDATAs in wire form, one after another. lengths: list of numbers, the length of each.
 *          output: memory that the record's text is written into; it must not overlap the other two. rdatas_length bytes are
 *          always enough.
 * Answers: TWEEDSTORK_TXT_ACCEPTED with the id as a part of the output: id_length bytes (1 to 32) from id_start on.
 *
 *          Refusals, in this order: TWEEDSTORK_TXT_WIRE_FORM (the lengths don't sum to the bytes, an RDATA is empty, or a
 *          character string runs past its RDATA), TWEEDSTORK_TXT_NO_CANDIDATE, TWEEDSTORK_TXT_SEVERAL,
 *          TWEEDSTORK_TXT_OUTPUT_SHORT, TWEEDSTORK_TXT_MALFORMED.
 * Leaves:  with TWEEDSTORK_TXT_ACCEPTED and TWEEDSTORK_TXT_MALFORMED the record's text at the front of the output and the
 *          rest of it as it was; with every other answer the output as it was.
 */
struct tweedstork_txt_answer tweedstork_read_txt(
    const uint8_t *rdatas, size_t rdatas_length,
    const uint8_t *lengths, size_t lengths_length,
    uint8_t *output, size_t output_length);

enum tweedstork_mode {
    TWEEDSTORK_ENFORCE = 1,
    TWEEDSTORK_TESTING = 2,
    TWEEDSTORK_NONE = 3
};

struct tweedstork_policy_answer {
    uint64_t number;
    uint64_t mode;
    uint64_t lifetime;
    uint64_t mx_count;
    uint64_t line;                          /* the first line that offends, counted from 1 */
    uint64_t offset;                        /* where that line begins in the body, in bytes from 0 */
};

/*
 * What does the body of an MTA-STS policy say (RFC 8461, 3.2), or what is wrong with it?
 *
 * Takes:   body: the policy as fetched.
 * Answers: TWEEDSTORK_POLICY_ACCEPTED with its mode (enum tweedstork_mode), its lifetime in seconds (max_age, at most
 *          31,557,600) and how many mx lines it has.
 *
 *          Refusals, in this order:
 *          - TWEEDSTORK_POLICY_LONG;
 *          - TWEEDSTORK_POLICY_BAD_LINE, TWEEDSTORK_POLICY_BAD_VERSION, TWEEDSTORK_POLICY_BAD_MODE,
 *            TWEEDSTORK_POLICY_BAD_MAX_AGE, TWEEDSTORK_POLICY_BAD_MX: what is wrong with the first line that offends, and with
 *            the number that line and its offset. Within a line, form comes before content. A body of zero bytes is
 *            TWEEDSTORK_POLICY_BAD_LINE at line 1, offset 0. The line goes up to its LF or CRLF, or the body's end; a CR
 *            elsewhere ends none. Show it to people with what does not print made visible (examples/discover.c);
 *          - TWEEDSTORK_POLICY_INCOMPLETE: every line is good, and one is missing.
 *
 *          line and offset are zero but for those five.
 * Leaves:  all memory as it was.
 */
struct tweedstork_policy_answer tweedstork_read_policy(const uint8_t *body, size_t body_length);

/*
 * A cache of policies, in memory that the relay lends: a table of 64 entries and, in a second buffer, 1,024 bytes of policy text
 * for each. All zeros is an empty cache. tweedstork_cache_store and tweedstork_cache_lookup are all that the relay needs. It may
 * also write table and texts to a file and read them back on the same kind of machine, since whatever stands in them is checked
 * at every call. That is a check of their form: whoever can write the file decides which policies the relay has.
 */
enum { TWEEDSTORK_CACHE_ENTRIES = 64, TWEEDSTORK_CACHE_TEXT_ROOM = 1024, TWEEDSTORK_CACHE_TEXTS_SIZE = 65536 };

/*
 * An entry. It counts as empty where its length is over 1,024; where its domain is no name or its id not 1 to 32 letters or
 * digits, each without the zeros at its end; where fetched is no clock; or where its text is no policy that
 * tweedstork_read_policy accepts.
 */
struct tweedstork_cache_entry {
    uint8_t domain[253];                    /* filled up with zeros */
    uint8_t id[32];                         /* filled up with zeros */
    uint64_t fetched;                       /* the clock of the store */
    uint64_t length;                        /* of the policy's text; that of the entry at place i begins at texts[1024 * i] */
};

/* The archive is built for entries of 304 bytes: elsewhere this does not compile. */
enum { TWEEDSTORK_CACHE_ENTRY_HAS_304_BYTES = 1 / (sizeof(struct tweedstork_cache_entry) == 304) };

/* The memory of one cache, of about 85 KB. A static one is all zeros from the start, and so empty. */
struct tweedstork_cache {
    struct tweedstork_cache_entry table[TWEEDSTORK_CACHE_ENTRIES];
    uint8_t texts[TWEEDSTORK_CACHE_TEXTS_SIZE];
};

struct tweedstork_write_answer {
    uint64_t number;
    uint64_t length;                        /* how many bytes were written to the call's output: 0 where it has none */
};

/*
 * Keeps a domain's policy in the cache, with its id and the clock of its fetch.
 *
 * Takes:   clock: of the fetch, which is now. domain: the name that the policy was fetched for. id: of its TXT record. policy:
 *          its body as fetched; tweedstork_read_policy need not have read it. table, table_length, texts, texts_length: the
 *          memory that the relay lends. With a struct tweedstork_cache that is called cache they are
 *
 *              cache.table, TWEEDSTORK_CACHE_ENTRIES,
 *              cache.texts, sizeof cache.texts
 *
 *          No other argument may overlap table or texts: to store again a text that tweedstork_cache_lookup found, copy it
 *          first.
 * Answers: TWEEDSTORK_DONE; length is 0. The policy takes the place of the domain's own entry, also of a stale one (domains
 *          compare ignoring ASCII case; of several own entries the first); else of the first entry that counts as empty; else
 *          of the first that is stale by now.
 *
 *          Refusals, in this order: TWEEDSTORK_BAD_SIZE, TWEEDSTORK_BAD_CLOCK, TWEEDSTORK_BAD_NEXT_HOP (the domain is no
 *          name), TWEEDSTORK_BAD_ID, those of tweedstork_read_policy, TWEEDSTORK_CACHE_TEXT_LONG, TWEEDSTORK_CACHE_FULL.
 *          - 70 and 71: the policy is good, and the relay judges this message's hosts by it. But it is not kept, so whoever
 *            can stop the next fetch switches it off, unless the relay keeps it by other means. After 71 an earlier entry of
 *            the domain stays, and is found as long as it is live.
 *          - 50 and 52 to 57 are as a fetch that failed: what the cache has for the domain stays, and counts as long as it is
 *            live. Only tweedstork_read_policy says which line it is.
 *          - 62, 74 and 80 are mistakes of the relay's own; so is 60, unless it comes of the recipient's address. None of them
 *            means that there is no policy: until the mistake is mended, the relay delays.
 * Leaves:  the one entry and the bytes of its text written, in texts from 1024 * its place on; all else as it was. The
 *          domain stands in the entry as it was spelled. A refusal leaves everything as it was.
 */
struct tweedstork_write_answer tweedstork_cache_store(
    uint64_t clock,
    const uint8_t *domain, size_t domain_length,
    const uint8_t *id, size_t id_length,
    const uint8_t *policy, size_t policy_length,
    struct tweedstork_cache_entry *table, size_t table_length,
    uint8_t *texts, size_t texts_length);

struct tweedstork_cache_answer {
    uint64_t number;
    uint64_t length;                        /* 0: this call writes nothing */
    uint64_t text_start;
    uint64_t text_length;
    uint64_t fetched;
    uint64_t id_length;
    uint8_t id[32];                         /* filled up with zeros */
};

/*
 * Finds the live policy that tweedstork_cache_store kept for a domain.
 *
 * Takes:   clock: now. domain: the name that the policy is for. table, table_length, texts, texts_length: the memory that the
 *          relay lends, given as to tweedstork_cache_store.
 * Answers: TWEEDSTORK_DONE with the policy as a part of texts, text_length bytes from text_start on; fetched, the clock of
 *          its fetch, for tweedstork_judge_host; and its id, id_length bytes, to hold against the TXT record's. length is 0.
 *          TWEEDSTORK_CACHE_NOT_FOUND where the domain has no entry, or its entry is stale: of several the first counts, so a
 *          stale one hides a live one behind it. Then the relay looks for the policy and fetches it.
 *
 *          Refusals, in this order: TWEEDSTORK_BAD_SIZE, TWEEDSTORK_BAD_CLOCK, TWEEDSTORK_BAD_NEXT_HOP (the domain is no
 *          name), TWEEDSTORK_CACHE_NOT_FOUND. The first three are mistakes of the relay's own (60 may also come of the
 *          recipient's address) and never mean that there is no policy.
 * Leaves:  all memory as it was. The next store, for whatever domain, may overwrite the text that was found: to use it after
 *          that, copy it first.
 */
struct tweedstork_cache_answer tweedstork_cache_lookup(
    uint64_t clock,
    const uint8_t *domain, size_t domain_length,
    const struct tweedstork_cache_entry *table, size_t table_length,
    const uint8_t *texts, size_t texts_length);

struct tweedstork_host_answer {
    uint64_t number;
    uint64_t tlsa_questions;
};

/*
 * May the relay deliver to this host, and how? Or what must it learn next?
 *
 * The relay calls with what it knows, learns the fact that the answer asks for, and calls again, until the answer is a verdict.
 * tweedstork_judge_facts takes the same by name. Here the relay, or its TLS library, reads the names of the leaf and where its key
 * info stands; tweedstork_judge_host_certificate reads both itself, and is the one to take unless the relay has to deliver to
 * servers whose leaf that call refuses.
 *
 * Takes:   in every call: clock (seconds since 1970), next_hop (the name that the MX lookup was made for, or the configured
 *          host where none was), expanded_next_hop_given (yes/no: TWEEDSTORK_YES where the next-hop is an alias) and
 *          expanded_next_hop (the fully expanded next-hop, the name at which the MX records stand), origin of the host list
 *          (enum tweedstork_origin), host (the name of the host to judge), address (result of its address lookup, enum
 *          tweedstork_address), expanded (the fully expanded host name, wanted with each of the three alias results, 3, 4 and
 *          5), policy_given (enum tweedstork_policy_given), policy (a body that tweedstork_read_policy accepted) and fetched
 *          (the clock of its fetch; with a policy never left zero: that is a policy of 1970, stale, so that a stripped STARTTLS
 *          is delivered in cleartext).
 *
 *          The expanded next-hop is one more name that a certificate may have under usage 2 (RFC 7672, 3.2.2), with
 *          TWEEDSTORK_SECURE_MX only: take it from the MX answer that is secure, and from no other lookup. With the other
 *          origins it is checked and not used, so TWEEDSTORK_NO will do. One that is the next-hop itself changes nothing.
 *
 *          A TXT record that is missing or refused, a fetch that fails, or a body that tweedstork_read_policy refuses never
 *          replaces an earlier policy that is still live: the relay goes on giving that one, with the clock of its own fetch,
 *          until it is stale (RFC 8461, 3.1, 3.3 and 5.1). TWEEDSTORK_NO_POLICY only where no live one is held (a stale one may
 *          be given or not).
 *
 *          Then, as far as learnt, in this order:
 *          - tlsa_answers: how many TLSA answers are given, 0 to 2, in the order asked for (insecure, absent and failed are
 *            answers too, and count); of each its result (tlsa1_result, tlsa2_result: enum tweedstork_tlsa_result) and, where
 *            that is TWEEDSTORK_TLSA_SECURE, all its records, since which of them count depends on the others: their RDATAs one
 *            after another, and a list of their lengths (up to 32 records of up to 4,096 bytes);
 *          - starttls (enum tweedstork_starttls);
 *          - handshake (enum tweedstork_handshake), and where it is TWEEDSTORK_ESTABLISHED tls_version, the version of TLS
 *            that it agreed on (enum tweedstork_tls_version, or any other number up to 65,535). Left zero it is an old
 *            version: 28 wherever authentication is needed. With any other handshake it is not looked at;
 *          - certificates_given (enum tweedstork_certificates_given), and with it the following. Where the server showed no
 *            certificate they are given all the same, with empty lists, and TWEEDSTORK_NO as trusted_root and
 *            common_name_given;
 *          - certificates: as the server sent them, one after another, leaf first; certificate_lengths: list of their
 *            lengths (up to 8 of up to 16,384 bytes, 65,536 in all);
 *          - key_places: list of numbers, two for each certificate, start and length of its SubjectPublicKeyInfo, with its
 *            header, inside it;
 *          - digests: for each certificate 192 bytes, SHA-256 and SHA-512 of the certificate, then of that key info;
 *          - paths: list of numbers, for each certificate TWEEDSTORK_YES or TWEEDSTORK_NO: does the path from the leaf to
 *            it verify? The leaf's own is read by no rule; a copy of the leaf further on gets no;
 *          - trusted_root (yes/no): does the path end in a trusted root, unexpired?
 *          - dns_ids: one after another; dns_id_lengths: list of their lengths (up to 64 of up to 255 bytes);
 *          - common_name_given (yes/no); common_name (up to 255 bytes).
 *
 *          What isn't supplied is not looked at, whatever bytes stand there.
 * Answers: a verdict (1 to 5: deliver; 20 to 28: next host), exactly when every way in which the missing facts could turn
 *          out leads to it; otherwise the question (10 to 14) of the first fact that the rules reach and that is not given.
 *          tlsa_questions is how many of the given TLSA answers the rules read, 0 to 2 (for logs: no decision needs it).
 *
 *          28 where authentication is needed (the TLSA records have a usable one, or an enforce policy is live) and the
 *          handshake agreed on a version below TLS 1.2. No certificate can change that, so none is asked for: 26 and 27 come
 *          from TLS 1.2 on. Where no authentication is needed every version gives 2, also where there are TLSA records and
 *          none of them is usable.
 *
 *          26 where the TLSA records have a usable one, and no usable one matches that is not ignored. A SHA-256 record (matching
 *          type 1) is ignored where a usable SHA-512 record (2) of the same usage and selector stands in the same answer, whether
 *          or not that one matches (RFC 7672, 5; RFC 7671, 9). Matching type 0 is never ignored.
 *
 *          Refusals, in this order: TWEEDSTORK_BAD_CODE, TWEEDSTORK_BAD_CLOCK, TWEEDSTORK_BAD_NEXT_HOP, TWEEDSTORK_BAD_HOST,
 *          those of tweedstork_read_policy, TWEEDSTORK_BAD_TLSA, TWEEDSTORK_BAD_CERTIFICATES, and last TWEEDSTORK_FACT_MISSING.
 *          Everything supplied is checked, also what wasn't asked for. A refusal is never a permission to deliver.
 *          - 61, 64 and 65 may come of what the domain or the server sent: the relay leaves this host out and goes on with the
 *            others. They may also come of the relay's own mistake. It is the relay's where a name ends in a dot or isn't given
 *            as A-labels, expanded is empty under an alias result, the host of a domain with no MX isn't the next-hop, lengths
 *            don't sum to the bytes beside them, a list doesn't have its four (key_places eight, digests 192) bytes for each
 *            record or certificate, or a key place lies outside its certificate.
 *          - A server that shows over 8 certificates or over 64 DNS-IDs is refused (65), even where a TLSA record would match.
 *            Safely left out are certificates after the leaf whose path doesn't verify, with their key place, digests and
 *            path; and DNS-IDs that can match none of host, expanded name, next-hop and expanded next-hop, as long as one
 *            DNS-ID stays.
 *          - 60 may come of the recipient's address (user@my_shop.example): it holds for every host, and by these rules nobody
 *            may be given the message: the relay returns or delays it. Where the next-hop is a name it comes of the expanded
 *            next-hop. No certificate can have what is no name, so the relay may ask with TWEEDSTORK_NO instead.
 *          - 50 and 52 to 57 cannot come where the relay gives only bodies that tweedstork_read_policy accepted.
 *          - 62, 66 and 67 are mistakes of the relay's own.
 * Leaves:  all memory as it was.
 */
struct tweedstork_host_answer tweedstork_judge_host(
    uint64_t clock,
    const uint8_t *next_hop, size_t next_hop_length,
    uint64_t expanded_next_hop_given,
    const uint8_t *expanded_next_hop, size_t expanded_next_hop_length,
    uint64_t origin,
    const uint8_t *host, size_t host_length,
    uint64_t address,
    const uint8_t *expanded, size_t expanded_length,
    uint64_t policy_given,
    const uint8_t *policy, size_t policy_length,
    uint64_t fetched,
    uint64_t tlsa_answers,
    uint64_t tlsa1_result,
    const uint8_t *tlsa1_lengths, size_t tlsa1_lengths_length,
    const uint8_t *tlsa1_records, size_t tlsa1_records_length,
    uint64_t tlsa2_result,
    const uint8_t *tlsa2_lengths, size_t tlsa2_lengths_length,
    const uint8_t *tlsa2_records, size_t tlsa2_records_length,
    uint64_t starttls,
    uint64_t handshake,
    uint64_t tls_version,
    uint64_t certificates_given,
    const uint8_t *certificates, size_t certificates_length,
    const uint8_t *certificate_lengths, size_t certificate_lengths_length,
    const uint8_t *key_places, size_t key_places_length,
    const uint8_t *digests, size_t digests_length,
    const uint8_t *paths, size_t paths_length,
    uint64_t trusted_root,
    const uint8_t *dns_ids, size_t dns_ids_length,
    const uint8_t *dns_id_lengths, size_t dns_id_lengths_length,
    uint64_t common_name_given,
    const uint8_t *common_name, size_t common_name_length);

/* How many bytes of places are always enough: 16 for each of 64 DNS-IDs. */
enum { TWEEDSTORK_PLACES_ROOM = 1024 };

struct tweedstork_certificate_answer {
    uint64_t number;
    uint64_t length;                        /* how many bytes were written to places: 16 for each DNS-ID */
    uint64_t offset;                        /* under 90: where the first element that offends begins, in bytes from 0 */
    uint64_t key_start;
    uint64_t key_length;
    uint64_t dns_id_count;
    uint64_t common_name_given;             /* TWEEDSTORK_YES or TWEEDSTORK_NO */
    uint64_t common_name_start;
    uint64_t common_name_length;
};

/*
 * What does a certificate say: its DNS-IDs in order, its common name, and where its public key info stands?
 *
 * Takes:   certificate: its DER (X.690), of any length; this call has no limit of size. places: memory that the places of the
 *          DNS-IDs are written into; it must not overlap the certificate. TWEEDSTORK_PLACES_ROOM bytes are always enough.
 * Answers: TWEEDSTORK_DONE. Names and key info come back as parts of the certificate, each by its start and its length:
 *          - the DNS-IDs: the dNSName entries of subjectAltName, dns_id_count of them, in their order. One may be empty. The start
 *            and the length of each stand in places, eight bytes each, big-endian (lists of numbers have four bytes for each);
 *            tweedstork_dns_id reads them. length is 16 for each DNS-ID;
 *          - the common name: common_name_given (yes/no), and with TWEEDSTORK_YES the contents of its value, whatever its type,
 *            common_name_length bytes from common_name_start on; of several in the subject the last. It may be empty. With
 *            TWEEDSTORK_NO start and length are 0;
 *          - the SubjectPublicKeyInfo with its header: key_length bytes from key_start on.
 *
 *          Nothing is told of signatures, of dates or of what else stands in it. A name may have any bytes, zeros too: show it to
 *          people with what does not print made visible (examples/certificate.c).
 *
 *          Refusals, in this order: TWEEDSTORK_CERTIFICATE_MALFORMED with its offset, TWEEDSTORK_MANY_DNS_IDS,
 *          TWEEDSTORK_OUTPUT_SHORT (places has under 16 bytes for each DNS-ID).
 *
 *          90 comes with the offset of the first element that offends, the one at the lowest offset:
 *          - its header is of another form: a tag of several bytes, or a length that is indefinite, not in its shortest form, or
 *            cut off;
 *          - it runs past the end of what holds it;
 *          - it is nested over 16 deep, the certificate being 1. All constructed elements are walked, also those that no answer
 *            reads; and the value of subjectAltName, one level below the octet string that holds it, but no other string;
 *          - it is misplaced: a field of Certificate, TBSCertificate, subject, Extension or GeneralNames has not the tag or the
 *            order that RFC 5280 gives it (4.1, 4.2 and 4.2.1.6), or an explicit tag holds not just one element. Lists may be
 *            empty. One that is missing is misplaced where it should begin, bytes left over where they begin, and a second
 *            subjectAltName at its Extension. Elsewhere any element may stand.
 * Leaves:  with TWEEDSTORK_DONE the places at the front of places and the rest of it as it was. A refusal leaves everything as it
 *          was.
 */
struct tweedstork_certificate_answer tweedstork_read_certificate(
    const uint8_t *certificate, size_t certificate_length,
    uint8_t *places, size_t places_length);

/*
 * May the relay deliver to this host, and how, where the library reads the leaf itself? Or what must it learn next?
 *
 * This is tweedstork_judge_host with the names and the place of the key info that tweedstork_read_certificate reads in the first
 * certificate, the leaf: no other library has to be trusted with them. tweedstork_judge_facts_certificate takes the same by name.
 *
 * Takes:   the arguments of tweedstork_judge_host in its order, without dns_ids, dns_id_lengths, common_name_given and common_name.
 *          And key_places has no pair for the leaf: list of numbers, two for each certificate after the leaf. All other lists
 *          begin with the leaf. The digests of its key info, too, are the relay's: of the bytes that tweedstork_read_certificate
 *          names.
 *
 *          With OpenSSL 3, on the client's side and after the handshake, the certificate at place i is added so (examples/openssl.c
 *          has all of it, with the limits and the paths):
 *
 *              X509 *one = sk_X509_value(SSL_get_peer_cert_chain(ssl), i);
 *              uint8_t *start = bytes + length, *end = start, *to;
 *              uint8_t places[TWEEDSTORK_PLACES_ROOM];
 *              size_t size = i2d_X509(one, &end); // there is room
 *              struct tweedstork_certificate_answer read;
 *
 *              read = tweedstork_read_certificate(start, size,
 *                                                 places, sizeof places);
 *              tweedstork_put_number(lengths, i, size);
 *              if (i > 0) { // the leaf has no pair
 *                  to = key_places + 8 * (i - 1);
 *                  tweedstork_put_number(to, 0, read.key_start);
 *                  tweedstork_put_number(to, 1, read.key_length);
 *              }
 *              to = digests + 192 * i; // SHA-256, SHA-512
 *              digest(to, start, size);
 *              digest(to + 96, start + read.key_start, read.key_length);
 *              tweedstork_put_number(paths, i, path_leads_to(i));
 *              length += size;
 *
 *          SSL_get_peer_cert_chain has what the server sent, leaf first; SSL_get1_peer_certificate has the leaf alone. Where
 *          read.number is not TWEEDSTORK_DONE, a certificate after the leaf is left out, by which a match can be lost and none
 *          made; the leaf stays, with any digests, since this call then refuses it.
 * Answers: what tweedstork_judge_host answers on what is read. (That a question comes only while its fact can still change the
 *          verdict is claimed of that call alone.)
 *
 *          Refusals, in this order: those of tweedstork_judge_host up to TWEEDSTORK_BAD_CERTIFICATES, as far as that speaks of
 *          the certificates, their lengths, key places, digests and paths; TWEEDSTORK_CERTIFICATE_MALFORMED and
 *          TWEEDSTORK_MANY_DNS_IDS of the leaf; TWEEDSTORK_BAD_CERTIFICATES where a DNS-ID or the common name of the leaf has over
 *          255 bytes; and last TWEEDSTORK_FACT_MISSING.
 *          - The leaf is read wherever certificates are given, also where no rule comes to it: 90 comes before a verdict such as
 *            20 or 2. So give them only when they are asked for (12). Without certificates given, or with an empty list, nothing
 *            is read, and there are no names.
 *          - 90 and 91 come of what the server sent: the relay leaves this host out and goes on with the others. To see what is
 *            wrong with the leaf, ask tweedstork_read_certificate for the offset.
 *          - For all others see tweedstork_judge_host. A refusal is never a permission to deliver.
 * Leaves:  all memory as it was.
 */
struct tweedstork_host_answer tweedstork_judge_host_certificate(
    uint64_t clock,
    const uint8_t *next_hop, size_t next_hop_length,
    uint64_t expanded_next_hop_given,
    const uint8_t *expanded_next_hop, size_t expanded_next_hop_length,
    uint64_t origin,
    const uint8_t *host, size_t host_length,
    uint64_t address,
    const uint8_t *expanded, size_t expanded_length,
    uint64_t policy_given,
    const uint8_t *policy, size_t policy_length,
    uint64_t fetched,
    uint64_t tlsa_answers,
    uint64_t tlsa1_result,
    const uint8_t *tlsa1_lengths, size_t tlsa1_lengths_length,
    const uint8_t *tlsa1_records, size_t tlsa1_records_length,
    uint64_t tlsa2_result,
    const uint8_t *tlsa2_lengths, size_t tlsa2_lengths_length,
    const uint8_t *tlsa2_records, size_t tlsa2_records_length,
    uint64_t starttls,
    uint64_t handshake,
    uint64_t tls_version,
    uint64_t certificates_given,
    const uint8_t *certificates, size_t certificates_length,
    const uint8_t *certificate_lengths, size_t certificate_lengths_length,
    const uint8_t *key_places, size_t key_places_length,
    const uint8_t *digests, size_t digests_length,
    const uint8_t *paths, size_t paths_length,
    uint64_t trusted_root);

struct tweedstork_message_answer {
    uint64_t number;
    uint64_t position;
};

/*
 * Which of a message's hosts decides?
 *
 * Before:  the relay reads the answer of the MX lookup. It returns the message, with no call of this or of
 *          tweedstork_judge_host, where the domain does not exist (NXDOMAIN; RFC 5321, 5.1), and where it takes no mail (null
 *          MX: one MX record, with the root as its host; RFC 7505, 3). A domain that exists and has no MX record has one host,
 *          the next-hop itself, with preference 0 (TWEEDSTORK_NO_MX). It makes no call for an address literal
 *          (user@[192.0.2.1]): neither MTA-STS nor DANE speaks of it (RFC 8461, 3.4; RFC 7672, 2.2), and without its brackets
 *          it would pass as a name.
 * Takes:   mx_lookup: TWEEDSTORK_MX_ANSWERED or TWEEDSTORK_MX_FAILED.
 *          preferences: list of numbers, 1 to 32 of them, each 0 to 65,535, a host each. Of more hosts the relay gives the 32
 *          that come first by preference.
 *          verdicts: list of numbers, one for each host: TWEEDSTORK_NOT_TRIED, or the verdict that it got (1 to 5, 20 to 28).
 * Answers: hosts are taken by preference, lower first, equal ones as given. The first that is no "next host" (20 to 28)
 *          decides: one not tried yet gives TWEEDSTORK_TRY_HOST and its position, a verdict 1 to 5 is handed on with its
 *          position. Positions count from 0 in the lists as given. TWEEDSTORK_NO_HOST_LEFT where every host is a "next
 *          host", TWEEDSTORK_MX_LOOKUP_FAILED where the lookup failed (the lists are then not looked at); position 0 then.
 *          1 to 5 only repeats the list: the permission is tweedstork_judge_host's, for the connection that it was asked of.
 *          Before the relay returns a message that a policy held back it has to look for a newer policy (RFC 8461, 5 and 5.1).
 *
 *          Refusals: TWEEDSTORK_BAD_CODE, then TWEEDSTORK_BAD_HOST_LIST.
 *
 *          A host that was refused, that could not be connected to, whose connection was lost before its verdict, or that did
 *          not take the message after all, is the relay's to leave out of both lists; with none left the relay delays by itself.
 * Leaves:  all memory as it was.
 */
struct tweedstork_message_answer tweedstork_next_host(
    uint64_t mx_lookup,
    const uint8_t *preferences, size_t preferences_length,
    const uint8_t *verdicts, size_t verdicts_length);

/*
 * Publishing: what a domain that wants its mail protected puts onto its policy host and into DNS, and what the calls above then
 * read. The policy is served first and the TXT record changed second (RFC 8461, 8.1); docs/RELAY.md says more. No delivery needs
 * these three calls.
 */

/* How many bytes of output are always enough, for a TXT text and for a policy. */
enum { TWEEDSTORK_WRITE_TXT_ROOM = 45, TWEEDSTORK_WRITE_POLICY_ROOM = 4207 };

/*
 * Writes the text of the TXT record for _mta-sts.DOMAIN (RFC 8461, 3.1): v=STSv1; id=ID;
 *
 * Takes:   id: 1 to 32 letters or digits. Senders fetch the policy anew when it changes, so each change of the policy gets an id
 *          that the domain never had; the time of the change is one. output: memory that the text is written into; it must not
 *          overlap the id. TWEEDSTORK_WRITE_TXT_ROOM bytes are always enough.
 * Answers: TWEEDSTORK_DONE with the text's length. As one character string, alone at its name, it is accepted by
 *          tweedstork_read_txt, with this id.
 *
 *          Refusals, in this order: TWEEDSTORK_BAD_ID, TWEEDSTORK_OUTPUT_SHORT.
 * Leaves:  the text at the front of the output, with no zero byte behind it, and the rest of it as it was. A refusal leaves
 *          everything as it was.
 */
struct tweedstork_write_answer tweedstork_write_txt(
    const uint8_t *id, size_t id_length,
    uint8_t *output, size_t output_length);

/*
 * Writes a policy (RFC 8461, 3.2), as it is served at https://mta-sts.DOMAIN/.well-known/mta-sts.txt: its version, the mode, an
 * mx line for each pattern and max_age, each line ending in LF.
 *
 * Takes:   mode (enum tweedstork_mode). lifetime: how many seconds senders keep the policy, 0 to 31,557,600 (0 protects nobody: it
 *          is stale at once). patterns: 1 to 16 of them, with TWEEDSTORK_NONE also 0, one after another, each the name of a mail
 *          server or "*." and a name. pattern_lengths: list of their lengths. output: memory that the policy is written into; it
 *          must not overlap the other two. TWEEDSTORK_WRITE_POLICY_ROOM bytes are always enough.
 * Answers: TWEEDSTORK_DONE with the policy's length. tweedstork_read_policy accepts it, with this mode and lifetime; and its
 *          patterns are these, in this order and with their case.
 *
 *          Refusals, in this order: TWEEDSTORK_BAD_CODE (the mode), TWEEDSTORK_BAD_PATTERNS, TWEEDSTORK_BAD_LIFETIME,
 *          TWEEDSTORK_OUTPUT_SHORT.
 * Leaves:  the policy at the front of the output, with no zero byte behind it, and the rest of it as it was. A refusal leaves
 *          everything as it was.
 */
struct tweedstork_write_answer tweedstork_write_policy(
    uint64_t mode,
    uint64_t lifetime,
    const uint8_t *patterns, size_t patterns_length,
    const uint8_t *pattern_lengths, size_t pattern_lengths_length,
    uint8_t *output, size_t output_length);

/*
 * Writes a policy anew, as tweedstork_write_policy writes it: with its mode, its lifetime (max_age, or 31,557,600 where max_age is
 * above that) and its patterns in order, and with no other field.
 *
 * Takes:   body: the policy. output: memory that the new one is written into; the new one may be longer than the old. It must
 *          not overlap the body. TWEEDSTORK_WRITE_POLICY_ROOM bytes are always enough.
 * Answers: TWEEDSTORK_DONE with the new policy's length. tweedstork_read_policy answers it as it answers the old one. Rewriting
 *          what was rewritten changes nothing.
 *
 *          Refusals, in this order: those of tweedstork_read_policy, TWEEDSTORK_BAD_PATTERNS (it has over 16),
 *          TWEEDSTORK_OUTPUT_SHORT. Only tweedstork_read_policy says which line is wrong.
 * Leaves:  the policy at the front of the output, with no zero byte behind it, and the rest of it as it was. A refusal leaves
 *          everything as it was.
 */
struct tweedstork_write_answer tweedstork_rewrite_policy(
    const uint8_t *body, size_t body_length,
    uint8_t *output, size_t output_length);

/*
 * Conveniences, in C and so not proved; tests/conveniences.c tests them.
 */

/* Writes a number at its place, counted from 0, in a list of numbers: four bytes, big-endian (the highest first). */
static inline void tweedstork_put_number(uint8_t *list, size_t place, uint32_t number)
{
    list[4 * place] = (uint8_t)(number >> 24);
    list[4 * place + 1] = (uint8_t)(number >> 16);
    list[4 * place + 2] = (uint8_t)(number >> 8);
    list[4 * place + 3] = (uint8_t)number;
}

struct tweedstork_slice {
    const uint8_t *bytes;
    size_t length;
};

/*
 * The DNS-ID at its place, counted from 0 and below dns_id_count, of a certificate that tweedstork_read_certificate read: a part of
 * the certificate, with no zero byte behind it. places is what that call wrote.
 */
static inline struct tweedstork_slice tweedstork_dns_id(const uint8_t *certificate, const uint8_t *places, size_t place)
{
    struct tweedstork_slice dns_id;
    uint64_t start = 0, length = 0;
    size_t i;

    for (i = 16 * place; i < 16 * place + 8; i++) {
        start = start << 8 | places[i];
        length = length << 8 | places[i + 8];
    }
    dns_id.bytes = certificate + start;
    dns_id.length = (size_t)length;
    return dns_id;
}

struct tweedstork_tlsa_answer {
    uint64_t result;                        /* enum tweedstork_tlsa_result */
    struct tweedstork_slice lengths, records;
};

/*
 * The arguments of tweedstork_judge_host by name, and of tweedstork_judge_host_certificate. A new struct for each host, all zero:
 * TLSA answers left over from another host would count as this one's. A fact that isn't learnt yet stays zero; zero is never "no",
 * so a question that comes twice running means that its fact was left zero. Never zero are expanded_next_hop_given, origin, address
 * and policy_given (67); nor, once certificates are given, trusted_root and, for tweedstork_judge_facts, common_name_given (67);
 * nor, once the handshake is established, tls_version (28 where authentication is needed).
 *
 * No call can refuse these: with a policy fetched is never zero (the policy would be stale), a secure TLSA answer has all its
 * records (with none it is the same as absent; without its SHA-512 record a stale SHA-256 one would count), clock is never zero
 * (every policy would stay live), tls_version is what the handshake agreed on (the highest version offered would let old TLS
 * pass), and expanded_next_hop is from the secure MX answer (any other name would be one that the certificate may have). The first
 * two can end in delivery in cleartext, the second and the last in delivery to somebody else's server.
 */
struct tweedstork_host_facts {
    uint64_t clock;
    struct tweedstork_slice next_hop;
    uint64_t expanded_next_hop_given;       /* TWEEDSTORK_YES or TWEEDSTORK_NO */
    struct tweedstork_slice expanded_next_hop;
    uint64_t origin;                        /* enum tweedstork_origin */
    struct tweedstork_slice host;
    uint64_t address;                       /* enum tweedstork_address */
    struct tweedstork_slice expanded;       /* with each of the three alias results */
    uint64_t policy_given;                  /* enum tweedstork_policy_given */
    struct tweedstork_slice policy;
    uint64_t fetched;                       /* the clock of the policy's fetch: with a policy never left zero */
    uint64_t tlsa_answers;
    struct tweedstork_tlsa_answer tlsa[2];
    uint64_t starttls;                      /* enum tweedstork_starttls */
    uint64_t handshake;                     /* enum tweedstork_handshake */
    uint64_t tls_version;                   /* enum tweedstork_tls_version: with an established handshake never left zero */
    uint64_t certificates_given;            /* enum tweedstork_certificates_given */
    struct tweedstork_slice certificates, certificate_lengths, key_places, digests, paths;
    uint64_t trusted_root;                  /* TWEEDSTORK_YES or TWEEDSTORK_NO */
    struct tweedstork_slice dns_ids, dns_id_lengths; /* these and the next two: not for tweedstork_judge_facts_certificate */
    uint64_t common_name_given;             /* TWEEDSTORK_YES or TWEEDSTORK_NO */
    struct tweedstork_slice common_name;
};

/*
 * May the relay deliver to this host, and how? Or what must it learn next? This is tweedstork_judge_host on these facts: there
 * stands what each fact is, what is answered, and what to do with a refusal.
 */
static inline struct tweedstork_host_answer tweedstork_judge_facts(const struct tweedstork_host_facts *facts)
{
    return tweedstork_judge_host(
        facts->clock,
        facts->next_hop.bytes, facts->next_hop.length,
        facts->expanded_next_hop_given,
        facts->expanded_next_hop.bytes, facts->expanded_next_hop.length,
        facts->origin,
        facts->host.bytes, facts->host.length,
        facts->address,
        facts->expanded.bytes, facts->expanded.length,
        facts->policy_given,
        facts->policy.bytes, facts->policy.length,
        facts->fetched,
        facts->tlsa_answers,
        facts->tlsa[0].result,
        facts->tlsa[0].lengths.bytes, facts->tlsa[0].lengths.length,
        facts->tlsa[0].records.bytes, facts->tlsa[0].records.length,
        facts->tlsa[1].result,
        facts->tlsa[1].lengths.bytes, facts->tlsa[1].lengths.length,
        facts->tlsa[1].records.bytes, facts->tlsa[1].records.length,
        facts->starttls,
        facts->handshake,
        facts->tls_version,
        facts->certificates_given,
        facts->certificates.bytes, facts->certificates.length,
        facts->certificate_lengths.bytes, facts->certificate_lengths.length,
        facts->key_places.bytes, facts->key_places.length,
        facts->digests.bytes, facts->digests.length,
        facts->paths.bytes, facts->paths.length,
        facts->trusted_root,
        facts->dns_ids.bytes, facts->dns_ids.length,
        facts->dns_id_lengths.bytes, facts->dns_id_lengths.length,
        facts->common_name_given,
        facts->common_name.bytes, facts->common_name.length);
}

/*
 * May the relay deliver to this host, and how, where the library reads the leaf itself? Or what must it learn next? This is
 * tweedstork_judge_host_certificate on these facts: dns_ids, dns_id_lengths, common_name_given and common_name are not looked at,
 * and key_places has no pair for the leaf. With one, as tweedstork_judge_facts wants it, the facts are refused (65).
 */
static inline struct tweedstork_host_answer tweedstork_judge_facts_certificate(const struct tweedstork_host_facts *facts)
{
    return tweedstork_judge_host_certificate(
        facts->clock,
        facts->next_hop.bytes, facts->next_hop.length,
        facts->expanded_next_hop_given,
        facts->expanded_next_hop.bytes, facts->expanded_next_hop.length,
        facts->origin,
        facts->host.bytes, facts->host.length,
        facts->address,
        facts->expanded.bytes, facts->expanded.length,
        facts->policy_given,
        facts->policy.bytes, facts->policy.length,
        facts->fetched,
        facts->tlsa_answers,
        facts->tlsa[0].result,
        facts->tlsa[0].lengths.bytes, facts->tlsa[0].lengths.length,
        facts->tlsa[0].records.bytes, facts->tlsa[0].records.length,
        facts->tlsa[1].result,
        facts->tlsa[1].lengths.bytes, facts->tlsa[1].lengths.length,
        facts->tlsa[1].records.bytes, facts->tlsa[1].records.length,
        facts->starttls,
        facts->handshake,
        facts->tls_version,
        facts->certificates_given,
        facts->certificates.bytes, facts->certificates.length,
        facts->certificate_lengths.bytes, facts->certificate_lengths.length,
        facts->key_places.bytes, facts->key_places.length,
        facts->digests.bytes, facts->digests.length,
        facts->paths.bytes, facts->paths.length,
        facts->trusted_root);
}

/*
 * May the verdict still hang on the certificates that the server will show? Asked before the handshake. With 0 the relay may
 * offer anonymous ciphers (RFC 7672, 8.2) and need not keep the certificates; with 1 it offers none, since a server that has a
 * certificate may still choose such a cipher, and then shows none (26 or 27).
 *
 * The lowest version of TLS to offer hangs on it too. With 0 an old one is fine: whatever version is agreed on, the verdict is the
 * same, and a handshake that fails may end in cleartext (1). With 1, once every TLSA answer is learnt that the library asked for,
 * TLS 1.2 as the lowest loses no delivery, since an older version is 28. A server that has only older ones then fails the
 * handshake, and is 25.
 *
 * 1 where tweedstork_judge_host would ask for certificate facts (12) were the handshake established at TLS 1.2 or above; and where
 * a TLSA answer is not learnt yet, since its records may need them. 0 where the verdict is the same whatever the server shows; and
 * where facts are refused, since no verdict comes of them at all: see first that tweedstork_judge_facts refuses nothing. What the
 * facts say of STARTTLS, handshake, version of TLS and certificates is not read, so it is the same whichever of the two calls
 * judges the host.
 */
static inline int tweedstork_certificates_matter(const struct tweedstork_host_facts *facts)
{
    struct tweedstork_host_facts established = *facts;
    uint64_t answer;

    established.starttls = TWEEDSTORK_STARTTLS_OFFERED;
    established.handshake = TWEEDSTORK_ESTABLISHED;
    established.tls_version = TWEEDSTORK_TLS_1_2;
    established.certificates_given = TWEEDSTORK_CERTIFICATES_NOT_GIVEN;
    answer = tweedstork_judge_facts(&established).number;
    return answer == TWEEDSTORK_ASK_CERTIFICATES || answer == TWEEDSTORK_FACT_MISSING;
}

/*
 * The name to send in the handshake (SNI). Asked once every TLSA answer is learnt that the library asked for. Where DANE will be
 * checked it is the TLSA base domain (RFC 7672, 8.1): the expanded name where the records stand there, else the host. A policy
 * that applies besides doesn't change that: it is not to interfere with DANE (RFC 8461, 2), though RFC 8461, 7.1 names the host
 * alone. Otherwise, also where none of the records is usable, it is the host. The slice is one of the two that were given, with
 * no zero byte behind it.
 */
static inline struct tweedstork_slice tweedstork_server_name(const struct tweedstork_host_facts *facts)
{
    struct tweedstork_host_facts without_policy = *facts;
    int at_expanded = facts->address == TWEEDSTORK_ALIAS_SECURE && facts->tlsa_answers > 0
                      && facts->tlsa[0].result == TWEEDSTORK_TLSA_SECURE && facts->tlsa[0].lengths.length > 0;

    without_policy.policy_given = TWEEDSTORK_NO_POLICY; /* so that certificates matter for DANE alone */
    return at_expanded && tweedstork_certificates_matter(&without_policy) ? facts->expanded : facts->host;
}

#ifdef __cplusplus
}
#endif

#endif
