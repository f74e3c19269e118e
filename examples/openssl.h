/*
 * From an OpenSSL connection to the facts of its handshake and certificates that the library asks for. Made to be copied into a
 * relay; it is C, and needs OpenSSL 3: cc -c openssl.c $(pkg-config --cflags tweedstork openssl). What a relay does, with the
 * facts that it has of the host, when the library answers
 *
 *   TWEEDSTORK_ASK_HANDSHAKE      if (!handshake_prepare(ssl, &host)) leave the host out;
 *                                 handshake_give(ssl, SSL_connect(ssl), &host);
 *   TWEEDSTORK_ASK_CERTIFICATES   if (!chain_facts_read(ssl, roots, &facts)) leave the host out;
 *                                 chain_facts_give(&facts, &host);
 *
 * So it is with tweedstork_judge_facts_certificate, which reads the names of the leaf itself. A relay that asks
 * tweedstork_judge_facts has OpenSSL read them:
 *
 *   TWEEDSTORK_ASK_CERTIFICATES   if (!certificate_facts_read(ssl, roots, &host, &facts)) leave the host out;
 *                                 certificate_facts_give(&facts, &host);
 *
 * Both give the same answers, but where the library refuses the leaf (90 and 91; 65 for a name of over 255 bytes), and where the
 * common name is of a type that OpenSSL turns into UTF-8 and the library compares as it stands (such as BMPString).
 *
 * The socket is a blocking one with a time-out. With another, go on while SSL_get_error says SSL_ERROR_WANT_READ or
 * SSL_ERROR_WANT_WRITE: that is no outcome. Where the error is the relay's own (ERR_R_MALLOC_FAILURE, SSL_R_NO_CIPHERS_AVAILABLE,
 * SSL_R_NO_PROTOCOLS_AVAILABLE), leave the host out.
 */
#ifndef OPENSSL_FACTS_H
#define OPENSSL_FACTS_H

#include <openssl/ssl.h>

#include "tweedstork.h"

/* The library's limits. */
#define MOST_CERTIFICATES 8
#define MOST_CERTIFICATE_BYTES 16384 /* of one */
#define MOST_CHAIN_BYTES 65536       /* of all */
#define MOST_DNS_IDS 64
#define MOST_NAME_BYTES 255

/*
 * Room for the facts: over 80,000 bytes, which have to stay where they are as long as a host's facts point at them. From dns_id_count
 * on they are those of certificate_facts_read alone.
 */
struct certificate_facts {
    size_t count, length; /* how many certificates there are, and how many bytes they have in all */
    uint8_t certificates[MOST_CHAIN_BYTES], lengths[4 * MOST_CERTIFICATES], key_places[8 * MOST_CERTIFICATES];
    uint8_t digests[192 * MOST_CERTIFICATES], paths[4 * MOST_CERTIFICATES];
    uint64_t trusted_root;
    size_t dns_id_count, dns_ids_length;
    uint8_t dns_ids[MOST_DNS_IDS * MOST_NAME_BYTES], dns_id_lengths[4 * MOST_DNS_IDS];
    uint64_t common_name_given;
    size_t common_name_length;
    uint8_t common_name[MOST_NAME_BYTES];
};

/*
 * Sets up a connection: the server name to send, the ciphers to offer, no checks of certificates during the handshake, no resumed
 * session; and where certificates don't matter, old TLS too. Where they do, the lowest version of TLS is what the relay's context
 * has: one below TLS 1.2 is answered with TWEEDSTORK_OLD_TLS. Returns 0 where it can't be set up. That is a failure of the relay's
 * own, never to be given as TWEEDSTORK_NOT_ESTABLISHED, which may be answered with cleartext: the relay leaves the host out for
 * now.
 */
int handshake_prepare(SSL *ssl, const struct tweedstork_host_facts *host);

/*
 * Gives the host's facts the outcome of the handshake, and of an established one the version of TLS that was agreed on.
 * connected: what SSL_connect returned at last. Only after a 1 is there a version: before, SSL_version has one not agreed on.
 */
void handshake_give(const SSL *ssl, int connected, struct tweedstork_host_facts *host);

/*
 * Reads the facts of a connection whose handshake is finished, for tweedstork_judge_facts_certificate: the certificates that the
 * server showed, their key places, digests and paths, and whether the path ends in a trusted root; and no names.
 * roots: whom the relay trusts, made once by X509_STORE_new and X509_STORE_set_default_paths (which succeeds with no roots there
 *        too: see at start-up that a certificate that should verify does).
 * Returns 0 where there are no facts: the session was resumed, memory is short, or the leaf can't be read or is outside the
 * library's limits. The relay then leaves the host out, as after TWEEDSTORK_BAD_CERTIFICATES.
 */
int chain_facts_read(SSL *ssl, X509_STORE *roots, struct certificate_facts *facts);

/* Points the host's facts at these, of which those for names stay as they were. */
void chain_facts_give(const struct certificate_facts *facts, struct tweedstork_host_facts *host);

/*
 * The same for tweedstork_judge_facts, with the names that OpenSSL reads in the leaf.
 * host:  its four names are read: where a leaf has too many DNS-IDs, only those are given that can match one of them. So the facts
 *        are for this host alone.
 * Returns 0 where chain_facts_read does, and where too many DNS-IDs can match.
 */
int certificate_facts_read(SSL *ssl, X509_STORE *roots, const struct tweedstork_host_facts *host, struct certificate_facts *facts);

/* Points the host's facts at these. */
void certificate_facts_give(const struct certificate_facts *facts, struct tweedstork_host_facts *host);

#endif
