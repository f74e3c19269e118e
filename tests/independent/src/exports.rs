//! C functions over the rules, with the arguments and answers of the library's header and the prefix `independent_`.
//! They are for the fuzz targets and the benchmark, which link this package's archive beside the library's.

use crate::cache::{self, Entry, LookupAnswer};
use crate::certificate::{self, CertificateAnswer};
use crate::publish;
use crate::rules::{self, HostCall, PolicyAnswer, TlsaAnswer};

#[repr(C)]
pub struct Txt {
    pub number: u64,
    pub id_start: u64,
    pub id_length: u64,
}
#[repr(C)]
pub struct Host {
    pub number: u64,
    pub tlsa_questions: u64,
}
#[repr(C)]
pub struct Message {
    pub number: u64,
    pub position: u64,
}

#[repr(C)]
pub struct Write {
    pub number: u64,
    pub length: u64,
}

/// What is lent as pointer and length; NULL with length 0 is an empty slice.
///
/// # Safety
/// `at` is NULL with `length` 0, or has `length` bytes (or entries, aligned) that stay as they are during `'a`.
unsafe fn lent<'a, T>(at: *const T, length: usize) -> &'a [T] {
    if length == 0 {
        &[]
    } else {
        std::slice::from_raw_parts(at, length)
    }
}

/// The same for memory that the call may write.
///
/// # Safety
/// As for `lent`, and nothing else reads or writes the memory during `'a`.
unsafe fn lent_to_write<'a, T>(at: *mut T, length: usize) -> &'a mut [T] {
    if length == 0 {
        &mut []
    } else {
        std::slice::from_raw_parts_mut(at, length)
    }
}

/// # Safety
/// The slices are valid, and the output is apart from the others.
#[no_mangle]
#[rustfmt::skip]
pub unsafe extern "C" fn independent_read_txt(
    rdatas: *const u8, rdatas_length: usize,
    lengths: *const u8, lengths_length: usize,
    output: *mut u8, output_length: usize) -> Txt {
    let output = lent_to_write(output, output_length);
    let (number, id_start, id_length) = rules::read_txt(lent(rdatas, rdatas_length), lent(lengths, lengths_length), output);
    Txt { number, id_start, id_length }
}

/// # Safety
/// The slice is valid.
#[no_mangle]
pub unsafe extern "C" fn independent_read_policy(body: *const u8, body_length: usize) -> PolicyAnswer {
    rules::read_policy(lent(body, body_length))
}

/// # Safety
/// The slices are valid.
#[no_mangle]
#[rustfmt::skip]
pub unsafe extern "C" fn independent_judge_host(
    clock: u64,
    next_hop: *const u8, next_hop_length: usize,
    expanded_next_hop_given: u64,
    expanded_next_hop: *const u8, expanded_next_hop_length: usize,
    origin: u64,
    host: *const u8, host_length: usize,
    address: u64,
    expanded: *const u8, expanded_length: usize,
    policy_given: u64,
    policy: *const u8, policy_length: usize,
    fetched: u64,
    tlsa_answers: u64,
    tlsa1_result: u64,
    tlsa1_lengths: *const u8, tlsa1_lengths_length: usize,
    tlsa1_records: *const u8, tlsa1_records_length: usize,
    tlsa2_result: u64,
    tlsa2_lengths: *const u8, tlsa2_lengths_length: usize,
    tlsa2_records: *const u8, tlsa2_records_length: usize,
    starttls: u64,
    handshake: u64,
    tls_version: u64,
    certificates_given: u64,
    certificates: *const u8, certificates_length: usize,
    certificate_lengths: *const u8, certificate_lengths_length: usize,
    key_places: *const u8, key_places_length: usize,
    digests: *const u8, digests_length: usize,
    paths: *const u8, paths_length: usize,
    trusted_root: u64,
    dns_ids: *const u8, dns_ids_length: usize,
    dns_id_lengths: *const u8, dns_id_lengths_length: usize,
    common_name_given: u64,
    common_name: *const u8, common_name_length: usize) -> Host {
    let call = HostCall {
        clock,
        next_hop: lent(next_hop, next_hop_length),
        expanded_next_hop_given,
        expanded_next_hop: lent(expanded_next_hop, expanded_next_hop_length),
        origin,
        host: lent(host, host_length),
        address,
        expanded: lent(expanded, expanded_length),
        policy_given,
        policy: lent(policy, policy_length),
        fetched,
        tlsa_answers,
        tlsa: [
            TlsaAnswer { result: tlsa1_result, lengths: lent(tlsa1_lengths, tlsa1_lengths_length), records: lent(tlsa1_records, tlsa1_records_length) },
            TlsaAnswer { result: tlsa2_result, lengths: lent(tlsa2_lengths, tlsa2_lengths_length), records: lent(tlsa2_records, tlsa2_records_length) },
        ],
        starttls,
        handshake,
        tls_version,
        certificates_given,
        certificates: lent(certificates, certificates_length),
        certificate_lengths: lent(certificate_lengths, certificate_lengths_length),
        key_places: lent(key_places, key_places_length),
        digests: lent(digests, digests_length),
        paths: lent(paths, paths_length),
        trusted_root,
        dns_ids: lent(dns_ids, dns_ids_length),
        dns_id_lengths: lent(dns_id_lengths, dns_id_lengths_length),
        common_name_given,
        common_name: lent(common_name, common_name_length),
    };
    let (number, tlsa_questions) = rules::judge_host(&call);
    Host { number, tlsa_questions }
}

/// # Safety
/// The slices are valid.
#[no_mangle]
#[rustfmt::skip]
pub unsafe extern "C" fn independent_next_host(
    mx_lookup: u64,
    preferences: *const u8, preferences_length: usize,
    verdicts: *const u8, verdicts_length: usize) -> Message {
    let (number, position) = rules::next_host(mx_lookup, lent(preferences, preferences_length), lent(verdicts, verdicts_length));
    Message { number, position }
}

/// # Safety
/// The slices are valid, and table and texts are apart from each other and from the others.
#[no_mangle]
#[rustfmt::skip]
pub unsafe extern "C" fn independent_cache_store(
    clock: u64,
    domain: *const u8, domain_length: usize,
    id: *const u8, id_length: usize,
    policy: *const u8, policy_length: usize,
    table: *mut Entry, table_length: usize,
    texts: *mut u8, texts_length: usize) -> Write {
    let (number, length) = cache::store(
        clock, lent(domain, domain_length), lent(id, id_length), lent(policy, policy_length),
        lent_to_write(table, table_length), lent_to_write(texts, texts_length));
    Write { number, length }
}

/// # Safety
/// The slices are valid.
#[no_mangle]
#[rustfmt::skip]
pub unsafe extern "C" fn independent_cache_lookup(
    clock: u64,
    domain: *const u8, domain_length: usize,
    table: *const Entry, table_length: usize,
    texts: *const u8, texts_length: usize) -> LookupAnswer {
    cache::lookup(clock, lent(domain, domain_length), lent(table, table_length), lent(texts, texts_length))
}

/// # Safety
/// The slices are valid, and the output is apart from the other.
#[no_mangle]
#[rustfmt::skip]
pub unsafe extern "C" fn independent_write_txt(
    id: *const u8, id_length: usize,
    output: *mut u8, output_length: usize) -> Write {
    let (number, length) = publish::write_txt(lent(id, id_length), lent_to_write(output, output_length));
    Write { number, length }
}

/// # Safety
/// The slices are valid, and the output is apart from the others.
#[no_mangle]
#[rustfmt::skip]
pub unsafe extern "C" fn independent_write_policy(
    mode: u64,
    lifetime: u64,
    patterns: *const u8, patterns_length: usize,
    pattern_lengths: *const u8, pattern_lengths_length: usize,
    output: *mut u8, output_length: usize) -> Write {
    let (number, length) = publish::write_policy(
        mode, lifetime, lent(patterns, patterns_length), lent(pattern_lengths, pattern_lengths_length),
        lent_to_write(output, output_length));
    Write { number, length }
}

/// # Safety
/// The slices are valid, and the output is apart from the other.
#[no_mangle]
#[rustfmt::skip]
pub unsafe extern "C" fn independent_rewrite_policy(
    body: *const u8, body_length: usize,
    output: *mut u8, output_length: usize) -> Write {
    let (number, length) = publish::rewrite_policy(lent(body, body_length), lent_to_write(output, output_length));
    Write { number, length }
}

/// # Safety
/// The slices are valid, and the places are apart from the other.
#[no_mangle]
#[rustfmt::skip]
pub unsafe extern "C" fn independent_read_certificate(
    certificate: *const u8, certificate_length: usize,
    places: *mut u8, places_length: usize) -> CertificateAnswer {
    certificate::read_certificate(lent(certificate, certificate_length), lent_to_write(places, places_length))
}

/// # Safety
/// The slices are valid.
#[no_mangle]
#[rustfmt::skip]
pub unsafe extern "C" fn independent_judge_host_certificate(
    clock: u64,
    next_hop: *const u8, next_hop_length: usize,
    expanded_next_hop_given: u64,
    expanded_next_hop: *const u8, expanded_next_hop_length: usize,
    origin: u64,
    host: *const u8, host_length: usize,
    address: u64,
    expanded: *const u8, expanded_length: usize,
    policy_given: u64,
    policy: *const u8, policy_length: usize,
    fetched: u64,
    tlsa_answers: u64,
    tlsa1_result: u64,
    tlsa1_lengths: *const u8, tlsa1_lengths_length: usize,
    tlsa1_records: *const u8, tlsa1_records_length: usize,
    tlsa2_result: u64,
    tlsa2_lengths: *const u8, tlsa2_lengths_length: usize,
    tlsa2_records: *const u8, tlsa2_records_length: usize,
    starttls: u64,
    handshake: u64,
    tls_version: u64,
    certificates_given: u64,
    certificates: *const u8, certificates_length: usize,
    certificate_lengths: *const u8, certificate_lengths_length: usize,
    key_places: *const u8, key_places_length: usize,
    digests: *const u8, digests_length: usize,
    paths: *const u8, paths_length: usize,
    trusted_root: u64) -> Host {
    let call: HostCall<&[u8]> = HostCall {
        clock,
        next_hop: lent(next_hop, next_hop_length),
        expanded_next_hop_given,
        expanded_next_hop: lent(expanded_next_hop, expanded_next_hop_length),
        origin,
        host: lent(host, host_length),
        address,
        expanded: lent(expanded, expanded_length),
        policy_given,
        policy: lent(policy, policy_length),
        fetched,
        tlsa_answers,
        tlsa: [
            TlsaAnswer { result: tlsa1_result, lengths: lent(tlsa1_lengths, tlsa1_lengths_length), records: lent(tlsa1_records, tlsa1_records_length) },
            TlsaAnswer { result: tlsa2_result, lengths: lent(tlsa2_lengths, tlsa2_lengths_length), records: lent(tlsa2_records, tlsa2_records_length) },
        ],
        starttls,
        handshake,
        tls_version,
        certificates_given,
        certificates: lent(certificates, certificates_length),
        certificate_lengths: lent(certificate_lengths, certificate_lengths_length),
        key_places: lent(key_places, key_places_length),
        digests: lent(digests, digests_length),
        paths: lent(paths, paths_length),
        trusted_root,
        ..HostCall::default()
    };
    let (number, tlsa_questions) = certificate::judge_host_certificate(&call);
    Host { number, tlsa_questions }
}
