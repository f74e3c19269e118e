//! Host calls that read the leaf (document 02, No. 7). A random host call is given a leaf that has the call's names, and its TLSA
//! records for the leaf are made to fit. First the library against the rules, with the ways in which a call comes to its answer
//! counted; then laws between the library's two calls on a host: on the facts that the rules read of the leaf both answer the same.

use crate::arguments;
use crate::boundary::{self, Lender, Place};
use crate::digests;
use crate::inputs::{self, lengths_of, list};
use crate::publishing::{Way, Ways};
use crate::random::Random;
use crate::trees::{self, Holds, Names, Node};
use crate::{outcome, Outcome, Table};
use independent_rules::certificate::{self, LeafFacts};
use independent_rules::rules::{self, HostAnswer, HostCall, TlsaAnswer};
use std::time::Instant;

// -------------------------------------------------------------------------------------------------------------------- calls

/// The parts that a list of lengths cuts, where it sums.
pub fn pieces(bytes: &[u8], lengths: &[u8]) -> Option<Vec<Vec<u8>>> {
    let (mut rest, mut out) = (bytes, Vec::new());
    for n in lengths.chunks(4) {
        let n = u32::from_be_bytes(n.try_into().ok()?) as usize;
        out.push(rest.get(..n)?.to_vec());
        rest = &rest[n..];
    }
    rest.is_empty().then_some(out)
}

/// A limit of a certificate's size, and one byte more.
const LONGEST: usize = 16_384;

/// The signature becomes so long that the certificate has this size, where that goes.
fn lengthen(tree: &mut Node, size: usize) {
    let before = tree.bytes().len();
    for filler in (size.saturating_sub(before + 12)..size.saturating_sub(before)).rev() {
        let mut longer = tree.clone();
        if let Some(signature) = longer.nodes().and_then(|nodes| nodes.last_mut()) {
            signature.holds = Holds::Bytes(vec![7; filler]);
        }
        if longer.bytes().len() == size {
            *tree = longer;
            return;
        }
    }
}

/// A leaf with these names; one in six is damaged.
fn new_leaf(r: &mut Random, names: &Names) -> Vec<u8> {
    let mut tree = trees::certificate(r, names, 200).tree;
    if r.once_in(6) {
        trees::damage(r, &mut tree);
    } else if r.once_in(300) {
        lengthen(&mut tree, LONGEST + r.below(2));
    }
    tree.bytes()
}

/// The names that the call has, as far as its lists sum; rarely more DNS-IDs than may be.
fn names_of(r: &mut Random, c: &HostCall) -> Names {
    let mut dns_ids = pieces(&c.dns_ids, &c.dns_id_lengths).unwrap_or_default();
    if r.once_in(40) {
        dns_ids.resize(*r.pick(&[63, 64, 65, 65, 66]), b"x".to_vec());
    }
    let mut common_names = if c.common_name_given == 1 { vec![c.common_name.clone()] } else { vec![] };
    if !common_names.is_empty() && r.once_in(4) {
        common_names.insert(0, c.host.clone());
    }
    Names { dns_ids, common_names }
}

/// A record whose data is one of these becomes a record of the other's.
fn exchange(answer: &mut TlsaAnswer, old: &[u8], new: &[u8]) {
    let Some(mut records) = pieces(&answer.records, &answer.lengths).filter(|_| !old.is_empty()) else { return };
    for record in records.iter_mut().filter(|record| record.len() > 3 && &record[3..] == old) {
        record.splice(3.., new.iter().copied());
    }
    (answer.lengths, answer.records) = (list(&lengths_of(&records)), records.concat());
}

/// The call with a leaf that has its names. Its key places lose the leaf's pair; where the certificates are not in order, all of
/// that stays as it is.
fn with_leaf(r: &mut Random, mut c: HostCall) -> HostCall {
    let pair = c.key_places.len().min(8);
    let mut certificates = pieces(&c.certificates, &c.certificate_lengths).unwrap_or_default();
    if !certificates.is_empty() {
        let names = names_of(r, &c);
        let leaf = new_leaf(r, &names);
        let number = |at: usize| c.key_places.get(at..at + 4).map_or(0, |n| u32::from_be_bytes([n[0], n[1], n[2], n[3]]) as usize);
        let old_key_info = certificates[0].get(number(0)..number(0) + number(4)).unwrap_or(b"").to_vec();
        let key_info = certificate::read(&leaf).map_or(0..0, |found| found.key_info);
        for answer in &mut c.tlsa {
            exchange(answer, &old_key_info, &leaf[key_info.clone()]);
            exchange(answer, &certificates[0], &leaf);
        }
        certificates[0] = leaf;
        (c.certificates, c.certificate_lengths) = (certificates.concat(), list(&lengths_of(&certificates)));
        c.key_places.drain(..pair);
    }
    (c.dns_ids, c.dns_id_lengths, c.common_name) = Default::default();
    c.common_name_given = 2;
    c
}

pub fn call(r: &mut Random) -> HostCall {
    let mut c = inputs::host(r);
    if r.once_in(4) {
        inputs::drop_facts(r, &mut c);
        // Certificate facts beside a missing one: 66, unless the leaf is refused.
        c.certificates_given = if r.once_in(2) { 1 } else { c.certificates_given };
    }
    with_leaf(r, c)
}

/// The plain call on the facts of the leaf, or on those of a leaf with an empty key info and no names.
pub fn plain(c: &HostCall, facts: Option<&LeafFacts>) -> HostCall {
    let place = facts.map_or(&[0; 8][..], |facts| &facts.key_place);
    let name = facts.and_then(|facts| facts.common_name.clone());
    HostCall {
        key_places: [place, &c.key_places].concat(),
        dns_ids: facts.map_or(vec![], |facts| facts.dns_ids.clone()),
        dns_id_lengths: facts.map_or(vec![], |facts| facts.dns_id_lengths.clone()),
        common_name_given: if name.is_some() { 1 } else { 2 },
        common_name: name.unwrap_or_default(),
        ..c.clone()
    }
}

pub fn judge(lender: &mut Lender, r: &mut Random, place: Place, seen: &mut Ways) -> Outcome {
    let c = call(r);
    let ours = certificate::judge_host_certificate(&c);
    let theirs = lender.judge_host_certificate(&c, place);
    seen.count(&[&ways(&c, ours.0)[..], &digests::ways(&c, certificate::judge_host_certificate, ours)].concat());
    outcome(theirs.0, ours, theirs, move || arguments::host_certificate(&c))
}

// -------------------------------------------------------------------------------------------------------------------- ways

/// Whether an answer that is read has this record.
fn has_record(c: &HostCall, head: [u8; 3], data: &[u8]) -> bool {
    let wanted = [&head[..], data].concat();
    let answers = c.tlsa.iter().take(c.tlsa_answers as usize);
    answers.filter_map(|answer| pieces(&answer.records, &answer.lengths)).any(|records| records.contains(&wanted))
}

/// How the answer hangs on the leaf's facts.
fn read_ways(c: &HostCall, number: u64, leaf: &[u8], facts: &LeafFacts) -> [Way; 9] {
    let dane = matches!(number, 3 | 5);
    let key_info = certificate::read(leaf).map_or(0..0, |found| found.key_info);
    let (no_dns_id, no_name) = (facts.dns_id_lengths.is_empty(), facts.common_name.is_none());
    let nameless = HostCall { dns_ids: vec![], dns_id_lengths: vec![], common_name_given: 2, ..plain(c, Some(facts)) };
    let named = (dane || number == 4) && rules::judge_host(&nameless).0 != number;
    let long = |lengths: &[u8]| lengths.chunks_exact(4).any(|n| n[..3] != [0; 3]);
    let long_name = facts.common_name.as_ref().is_some_and(|name| name.len() > 255);
    [
        ("DANE by the whole leaf", dane && has_record(c, [3, 0, 0], leaf)),
        ("DANE by the leaf's key info", dane && has_record(c, [3, 1, 0], &leaf[key_info])),
        ("DANE by a DNS-ID of the leaf", dane && named && !no_dns_id),
        ("DANE by the common name of the leaf", dane && named && no_dns_id),
        ("26 with a common name, shut out or other", number == 26 && !no_name),
        ("MTA-STS by a DNS-ID of the leaf", number == 4 && named),
        ("65 by a DNS-ID", number == 65 && long(&facts.dns_id_lengths) && !long_name),
        ("65 by the common name", number == 65 && long_name && !long(&facts.dns_id_lengths)),
        ("66 beside a leaf that is read", number == 66),
    ]
}

/// Which ways the call is an example of; the number is what the rules answer.
fn ways(c: &HostCall, number: u64) -> [Way; 31] {
    let leaf = certificate::leaf_of(c);
    let facts = leaf.map(certificate::leaf_facts);
    let refused = matches!(facts, Some(Err(_)));
    let whatever = if leaf.is_some() && number >= 60 { rules::judge_host(&plain(c, None)).0 } else { number };
    let (malformed, many) = (number == 90, number == 91);
    let names = number == 65 && whatever != 65;
    let listed = c.certificates_given == 1 && number < 40;
    let size = leaf.map_or(0, <[u8]>::len);
    let none = LeafFacts { key_place: vec![0; 8], dns_ids: vec![], dns_id_lengths: vec![], common_name: None };
    let read = match (leaf, &facts) {
        (Some(leaf), Some(Ok(facts))) => read_ways(c, number, leaf, facts),
        _ => read_ways(c, 0, b"", &none),
    };
    let others = [
        ("no certificate facts", c.certificates_given == 0 && number < 40),
        ("no leaf", listed && c.certificate_lengths.is_empty()),
        ("a leaf alone", listed && c.certificate_lengths.len() == 4),
        ("8 certificates", listed && c.certificate_lengths.len() == 32),
        ("a leaf of 16,384 bytes", listed && size == LONGEST),
        ("65 by a leaf of 16,385 bytes", number == 65 && size == LONGEST + 1),
        ("60 before 90 or 91", refused && number == 60),
        ("61 before 90 or 91", refused && number == 61),
        ("62 before 90 or 91", refused && number == 62),
        ("64 before 90 or 91", refused && number == 64),
        ("65 for the certificates before 90 or 91", refused && number == 65),
        ("67 before 90 or 91", refused && number == 67),
        ("90 in the place of 20", malformed && whatever == 20),
        ("90 in the place of 1 or 2", malformed && matches!(whatever, 1 | 2)),
        ("90 in the place of 24", malformed && whatever == 24),
        ("90 in the place of 3", malformed && whatever == 3),
        ("90 in the place of 28", malformed && whatever == 28),
        ("90 before 66", malformed && whatever == 66),
        ("91 in the place of 20", many && whatever == 20),
        ("91 in the place of 26", many && whatever == 26),
        ("91 before 66", many && whatever == 66),
        ("65 for names that no rule comes to", names && matches!(whatever, 1 | 2 | 20 | 21)),
    ];
    std::array::from_fn(|i| if i < others.len() { others[i] } else { read[i - others.len()] })
}

// -------------------------------------------------------------------------------------------------------------------- laws

/// What the library's plain call says that the new one has to answer.
fn expected(c: &HostCall, mut ask: impl FnMut(&HostCall) -> HostAnswer) -> HostAnswer {
    // "without a leaf nothing is read"
    let Some(leaf) = certificate::leaf_of(c) else { return ask(c) };
    match certificate::leaf_facts(leaf) {
        // "the new one answers as it does on the facts read"
        Ok(facts) => ask(&plain(c, Some(&facts))),
        // "There 90 and 91 stand between 65 for the certificates and 65 for names".
        Err(refusal) => match ask(&plain(c, None)) {
            before @ (40..=65 | 67, _) => before,
            _ => (refusal, 0),
        },
    }
}

/// So many random calls; how many that were.
pub fn run(lender: &mut Lender, seed: u64, cases: u64) -> u64 {
    let (begun, mut table) = (Instant::now(), Table::new());
    for case in 0..cases {
        boundary::CURRENT.with(|c| c.set((seed, "leaves", case)));
        let mut r = Random::new(seed, 15, case);
        let (c, place) = (call(&mut r), Place::random(&mut r));
        let found = lender.judge_host_certificate(&c, place);
        let wanted = expected(&c, |call| lender.judge_host(call, place));
        if found != wanted {
            println!("LEAVES: seed {seed} case {case}\n{}", arguments::host_certificate(&c));
            println!("  the call that reads the leaf {found:?}, the plain call on its facts {wanted:?}");
            std::process::exit(1);
        }
        *table.entry(found.0).or_insert(0) += 1;
    }
    println!("the plain call on the facts of leaves: {cases} cases in {:.1} s", begun.elapsed().as_secs_f64());
    let counts: Vec<String> = table.iter().map(|(number, count)| format!("{number}: {count}")).collect();
    println!("  answers {}", counts.join(", "));
    if let Some(missing) = crate::HOST_CERTIFICATE_ANSWERS.iter().find(|number| !table.contains_key(number)) {
        println!("FAILED: too few cases gave {missing}");
        std::process::exit(1);
    }
    cases
}
