//! The letter's demand 3, tried on the library alone: a verdict stands whatever the missing facts turn out to be, and a question
//! is asked only while two ways to fill them in lead to two verdicts. No definition is compared here; the calls are held against
//! each other.

use crate::boundary::{Lender, Place};
use crate::digests::{is_ignored, is_usable};
use crate::inputs::{self, list};
use crate::leaves::pieces;
use crate::random::Random;
use independent_rules::rules::{HostAnswer, HostCall, TlsaAnswer};

fn is_verdict(number: u64) -> bool {
    matches!(number, 1..=5 | 20..=28)
}

/// The call with each missing fact taken from another.
fn filled(c: &HostCall, facts: &HostCall) -> HostCall {
    let mut f = c.clone();
    for i in c.tlsa_answers as usize..2 {
        f.tlsa[i] = facts.tlsa[i].clone();
    }
    f.tlsa_answers = 2;
    if f.starttls == 0 {
        f.starttls = facts.starttls;
    }
    if f.handshake == 0 {
        (f.handshake, f.tls_version) = (facts.handshake, facts.tls_version);
    }
    if f.certificates_given == 0 {
        f.certificates_given = 1;
        f.certificates = facts.certificates.clone();
        f.certificate_lengths = facts.certificate_lengths.clone();
        f.key_places = facts.key_places.clone();
        f.digests = facts.digests.clone();
        f.paths = facts.paths.clone();
        f.trusted_root = facts.trusted_root;
        f.dns_ids = facts.dns_ids.clone();
        f.dns_id_lengths = facts.dns_id_lengths.clone();
        f.common_name_given = facts.common_name_given;
        f.common_name = facts.common_name.clone();
    }
    f
}

/// Facts for every place: the TLSA result, STARTTLS, the handshake, at this version where it is established, and no certificate.
fn bare(tlsa: u64, starttls: u64, handshake: u64, tls_version: u64) -> HostCall {
    let answer = TlsaAnswer { result: tlsa, ..Default::default() };
    HostCall {
        tlsa_answers: 2,
        tlsa: [answer.clone(), answer],
        starttls,
        handshake,
        tls_version,
        certificates_given: 1,
        trusted_root: 1,
        common_name_given: 2,
        ..Default::default()
    }
}

/// The names of which the leaf may have any under usage 2.
fn references<'a>(c: &'a HostCall, base: &'a [u8]) -> Vec<&'a [u8]> {
    let mut names = vec![base];
    if c.origin != 2 {
        names.push(&c.next_hop);
    }
    if c.origin == 1 && c.expanded_next_hop_given == 1 {
        names.push(&c.expanded_next_hop);
    }
    names
}

/// Certificate facts that pass for the record: each form of both certificates is the record's data, cut or filled up. The leaf names
/// the reference, and beside a policy the host.
fn passing(c: &HostCall, record: &[u8], reference: &[u8]) -> HostCall {
    let data = record.get(3..).unwrap_or(b"");
    let sized = |n: usize| {
        let mut d = data.to_vec();
        d.resize(n, 0);
        d
    };
    let digests = [sized(32), sized(64), sized(32), sized(64)].concat();
    let n = data.len() as u64;
    let mut f = bare(3, 1, 1, 0x0303);
    f.certificates = [data, data].concat();
    f.certificate_lengths = list(&[n, n]);
    f.key_places = list(&[0, n, 0, n]);
    f.digests = [&digests[..], &digests].concat();
    f.paths = list(&[2, 1]);
    let host: &[u8] = if c.policy_given == 1 { &c.host } else { b"" };
    f.dns_ids = [host, reference].concat();
    f.dns_id_lengths = list(&[host.len() as u64, reference.len() as u64]);
    f
}

/// The last record that can be used and is not ignored; where there is none, no byte.
fn last_counting(set: &TlsaAnswer) -> Vec<u8> {
    let records = pieces(&set.records, &set.lengths).unwrap_or_default();
    records.iter().rev().find(|record| is_usable(record) && !is_ignored(record, &records)).cloned().unwrap_or_default()
}

/// The case's answer number, or what is wrong.
pub fn run_case(lender: &mut Lender, seed: u64, case: u64) -> Result<u64, String> {
    let mut r = Random::new(seed, 4, case);
    let mut c = inputs::host(&mut r);
    inputs::drop_facts(&mut r, &mut c);
    let place = Place::random(&mut r);
    let mut ask = |c: &HostCall| -> HostAnswer { lender.judge_host(c, place) };
    let (number, questions) = ask(&c);
    if number >= 40 {
        return Ok(number);
    }
    // Any facts, with a handshake at any version: a verdict stays; a question becomes a verdict.
    for _ in 0..2 {
        let mut facts = inputs::host(&mut r);
        (facts.handshake, facts.tls_version) = (r.between(1, 2) as u64, inputs::wire_version(&mut r));
        let mut full = filled(&c, &facts);
        full.starttls = if full.starttls == 0 { r.between(1, 2) as u64 } else { full.starttls };
        let then = ask(&full);
        let fillers_refused = matches!(then.0, 64 | 65 | 67);
        if is_verdict(number) && !fillers_refused && then != (number, questions) {
            return Err(format!("verdict {number} with {questions} questions became {then:?} as more facts were given"));
        }
        if !is_verdict(then.0) && !fillers_refused {
            return Err(format!("a full set answers {then:?}"));
        }
    }
    // Two verdicts for each question.
    let two = match number {
        13 | 14 => Some((bare(4, 2, 2, 0), bare(3, 2, 2, 0))),
        10 => Some((bare(3, 2, 2, 0), bare(3, 1, 1, inputs::wire_version(&mut r)))),
        11 => Some((bare(3, 1, 2, 0), bare(3, 1, 1, inputs::wire_version(&mut r)))),
        12 => {
            let base = if c.address == 3 && questions == 1 { c.expanded.clone() } else { c.host.clone() };
            let mut record = vec![];
            if questions > 0 && c.tlsa[questions as usize - 1].result == 1 {
                record = last_counting(&c.tlsa[questions as usize - 1]);
            }
            let reference = *r.pick(&references(&c, &base));
            Some((bare(3, 1, 1, 0x0303), passing(&c, &record, reference)))
        }
        _ => None,
    };
    if let Some((a, b)) = two {
        let (x, y) = (ask(&filled(&c, &a)), ask(&filled(&c, &b)));
        if !is_verdict(x.0) || !is_verdict(y.0) || x.0 == y.0 {
            return Err(format!("question {number}, but the two full sets answer {x:?} and {y:?}"));
        }
        if number == 12 && !(3..=5).contains(&y.0) {
            return Err(format!("facts made to pass answer {y:?}"));
        }
    }
    Ok(number)
}
