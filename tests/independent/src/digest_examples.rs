//! Document 02's No. 8, "Strongest digest only", worked by hand: sets of records with what they have to answer, by both entries.

use crate::certificate_examples::shown;
use crate::digests::answer_of;
use crate::examples::Check;
use crate::inputs::list;
use crate::leaves;
use independent_rules::certificate;
use independent_rules::rules::HostCall;

/// The digests of the leaf, then those of the certificate after it, each one byte throughout: SHA-256 and SHA-512 of the
/// certificate, then of its key info.
const LEAF: [u8; 4] = [11, 12, 13, 14];
const ANCHOR: [u8; 4] = [21, 22, 23, 24];
/// What no certificate here has.
const OLD: u8 = 99;

fn digests() -> Vec<u8> {
    let of = |[a, b, c, d]: [u8; 4]| [vec![a; 32], vec![b; 64], vec![c; 32], vec![d; 64]].concat();
    [of(LEAF), of(ANCHOR)].concat()
}

/// A record of type 1 or 2, whose data is one byte throughout.
fn digest(usage: u8, selector: u8, kind: u8, byte: u8) -> Vec<u8> {
    [vec![usage, selector, kind], vec![byte; if kind == 1 { 32 } else { 64 }]].concat()
}

/// A host whose leaf names it, without a policy.
fn call(set: &[Vec<u8>]) -> HostCall {
    let mut call = HostCall { digests: digests(), policy_given: 2, ..shown(&[b"mail.example.com"], None) };
    call.tlsa[0] = answer_of(set);
    call
}

/// By the leaf, and by its facts.
fn both(c: &mut Check, what: &str, call: &HostCall, wanted: (u64, u64)) {
    let facts = certificate::leaf_of(call).and_then(|leaf| certificate::leaf_facts(leaf).ok());
    c.host_certificate(what, call, wanted);
    c.host(what, &leaves::plain(call, facts.as_ref()), wanted);
}

/// "A merchant rotated keys, updated only the SHA-512 record, and we accepted the stale SHA-256."
fn rotated_keys(c: &mut Check) {
    for (usage, selector, [sha256, sha512]) in
        [(3, 0, [LEAF[0], LEAF[1]]), (3, 1, [LEAF[2], LEAF[3]]), (2, 0, [ANCHOR[0], ANCHOR[1]]), (2, 1, [ANCHOR[2], ANCHOR[3]])]
    {
        let one = |byte| digest(usage, selector, 1, byte);
        let two = |byte| digest(usage, selector, 2, byte);
        both(c, "SHA-256 alone", &call(&[one(sha256)]), (3, 1));
        both(c, "SHA-512 alone", &call(&[two(sha512)]), (3, 1));
        both(c, "a stale SHA-256 that matches", &call(&[one(sha256), two(OLD)]), (26, 1));
        both(c, "a stale SHA-256 that matches, last", &call(&[two(OLD), one(sha256)]), (26, 1));
        both(c, "the new SHA-512", &call(&[one(OLD), two(sha512)]), (3, 1));
        both(c, "both match", &call(&[one(sha256), two(sha512)]), (3, 1));
        both(c, "neither matches", &call(&[one(OLD), two(OLD)]), (26, 1));
        both(c, "two SHA-512, the first matches", &call(&[two(sha512), two(OLD), one(OLD)]), (3, 1));
        both(c, "two SHA-512, the last matches", &call(&[one(OLD), two(OLD), two(sha512)]), (3, 1));
        // "among usable records of the same usage and selector"
        for (usage, selector) in [(5 - usage, selector), (usage, 1 - selector), (5 - usage, 1 - selector)] {
            let other = digest(usage, selector, 2, OLD);
            both(c, "a SHA-512 of another usage or selector", &call(&[other.clone(), one(sha256)]), (3, 1));
            both(c, "the same, and one of its own", &call(&[one(sha256), other, two(OLD)]), (26, 1));
        }
    }
}

/// "type 0 always counts"
fn as_is(c: &mut Check) {
    let (old, new) = (digest(2, 1, 1, ANCHOR[2]), digest(2, 1, 2, OLD));
    let whole = |data: &[u8]| [&[2, 1, 0], data].concat();
    // The key info of the certificate "anchor".
    both(c, "types 0, 1 and 2", &call(&[whole(b"cho"), old.clone(), new.clone()]), (3, 1));
    both(c, "types 1, 2 and 0", &call(&[old.clone(), new.clone(), whole(b"cho")]), (3, 1));
    both(c, "types 0, 1 and 2, none that counts matches", &call(&[whole(b"chp"), old.clone(), new]), (26, 1));
    both(c, "types 0 and 1", &call(&[whole(b"chp"), old]), (3, 1));
}

/// "usable records": what can't be used puts nothing aside.
fn unusable(c: &mut Check) {
    let one = digest(3, 1, 1, LEAF[2]);
    let sized = |size| [vec![3, 1, 2], vec![OLD; size]].concat();
    for size in [0, 1, 32, 63, 65, 128] {
        both(c, "a type 2 of another size", &call(&[sized(size), one.clone()]), (3, 1));
    }
    for head in [[0, 1, 2], [1, 1, 2], [4, 1, 2], [255, 1, 2], [3, 2, 2], [3, 255, 2], [3, 1, 3], [3, 1, 255]] {
        let other = [&head[..], &[OLD; 64]].concat();
        both(c, "a type 2 that can't be used", &call(&[one.clone(), other.clone()]), (3, 1));
        both(c, "the same, and one that can", &call(&[one.clone(), other, sized(64)]), (26, 1));
    }
    // A type 1 of another size is no type 1 that could be used either.
    both(c, "a type 1 of 64 bytes", &call(&[[vec![3, 1, 1], vec![LEAF[3]; 64]].concat(), sized(64)]), (26, 1));
}

/// "The set is the one that was taken": 32 records, and the records of another answer.
fn sets(c: &mut Check) {
    let (one, two) = (digest(3, 1, 1, LEAF[2]), digest(3, 1, 2, OLD));
    let many = |last: &[u8]| [vec![one.clone(); 31], vec![last.to_vec()]].concat();
    both(c, "the only SHA-512 is the last of 32", &call(&many(&two)), (26, 1));
    both(c, "the same, and it matches", &call(&many(&digest(3, 1, 2, LEAF[3]))), (3, 1));
    both(c, "the same, with 63 bytes", &call(&many(&two[..66])), (3, 1));
    both(c, "the same, with 2 bytes", &call(&many(&two[..2])), (22, 1));
    let in_two = |first: &[Vec<u8>], result: u64, second: &[Vec<u8>]| {
        let mut call = call(&[]);
        (call.address, call.expanded, call.tlsa_answers) = (3, b"mx.example.net".to_vec(), 2);
        call.tlsa = [answer_of(first), answer_of(second)];
        call.tlsa[0].result = result;
        call
    };
    both(c, "a SHA-512 in the second answer", &in_two(&[one.clone()], 1, &[two.clone()]), (3, 1));
    both(c, "a SHA-512 in an insecure answer", &in_two(&[two.clone()], 2, &[one.clone()]), (3, 2));
    both(c, "both in the second answer", &in_two(&[one.clone()], 3, &[two, one]), (26, 2));
}

/// "What a host needs doesn't change, only what matches."
fn needs(c: &mut Check) {
    let stale = call(&[digest(3, 1, 1, LEAF[2]), digest(3, 1, 2, OLD)]);
    let fresh = call(&[digest(3, 1, 1, OLD), digest(3, 1, 2, LEAF[3])]);
    for call in [&stale, &fresh] {
        both(c, "not offered", &HostCall { starttls: 2, ..call.clone() }, (24, 1));
        both(c, "handshake failed", &HostCall { handshake: 2, ..call.clone() }, (25, 1));
        both(c, "certificates not given", &HostCall { certificates_given: 0, ..call.clone() }, (12, 1));
        both(c, "TLS 1.0", &HostCall { tls_version: 0x0301, ..call.clone() }, (28, 1));
    }
    both(c, "a policy rescues no mismatch", &HostCall { policy_given: 1, ..stale }, (26, 1));
    both(c, "both pass", &HostCall { policy_given: 1, ..fresh.clone() }, (5, 1));
    both(c, "the policy doesn't pass", &HostCall { policy_given: 1, trusted_root: 2, ..fresh }, (27, 1));
    // Usage 2 takes a certificate after the leaf to which the path verifies, and that for the record that counts.
    let anchored = call(&[digest(2, 0, 1, OLD), digest(2, 0, 2, ANCHOR[1])]);
    both(c, "a SHA-512 of the anchor", &anchored, (3, 1));
    both(c, "the path does not verify", &HostCall { paths: list(&[1, 2]), ..anchored }, (26, 1));
}

pub fn run(c: &mut Check) {
    rotated_keys(c);
    as_is(c);
    unusable(c);
    sets(c);
    needs(c);
}
