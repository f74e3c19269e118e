//! Document 02's No. 6, "Old TLS". First the ways in which a host call hangs on the version: of a great many random calls each has
//! to come often. Then laws on what a version changes, and that it changes nothing else. The library and the rules are held to them
//! each by itself: on random calls, on the fixed examples, and on a few of these at every version there is.

use crate::arguments;
use crate::boundary::{self, Lender, Place};
use crate::inputs::{self, NEW_VERSIONS, NO_VERSIONS, OLD_VERSIONS};
use crate::next_hops::changed;
use crate::publishing::Way;
use crate::random::Random;
use crate::Table;
use independent_rules::rules::{self, HostAnswer, HostCall};
use std::time::Instant;

/// "below 03 03 hex"
const FIRST_NEW: u64 = 0x0303;
const LAST: u64 = 65_535;

// -------------------------------------------------------------------------------------------------------------------- ways

/// Which ways the call is an example of; the number is what the rules answer.
pub fn ways(c: &HostCall, number: u64) -> [Way; 31] {
    let (established, answered, over) = (c.handshake == 1, number < 40, c.tls_version > LAST);
    let old = established && c.tls_version < FIRST_NEW;
    let is_28 = number == 28;
    let new = if established && matches!(number, 28 | 67) { changed(c, |c| c.tls_version = FIRST_NEW) } else { number };
    let dane = is_28 && changed(c, |c| c.policy_given = 2) == 28;
    let sts = is_28 && changed(c, |c| c.address = 2) == 28;
    let not_offered = if old && number == 2 { changed(c, |c| c.starttls = 2) } else { 0 };
    let by_version = number == 67 && new != 67;
    let beside = |version| established && c.tls_version == version && (answered || by_version);
    [
        ("28 by DANE alone", dane && !sts),
        ("28 by MTA-STS alone", sts && !dane),
        ("28 by both", dane && sts),
        ("28 without certificate facts", is_28 && c.certificates_given == 0),
        ("28 before 26", is_28 && new == 26),
        ("28 before 27", is_28 && new == 27),
        ("28 in the place of a delivery", is_28 && matches!(new, 3..=5)),
        ("2 at an old version, no TLSA record", not_offered == 1),
        ("2 at an old version, no record that can be used", not_offered == 24),
        ("not offered, beside an old version", old && matches!(number, 1 | 24)),
        ("65 at an old version", old && number == 65),
        ("66 at an old version", old && number == 66),
        ("67 by the version alone", by_version),
        ("67 by a version that no rule reaches", by_version && matches!(new, 1 | 20..=24)),
        ("an old version after a failed handshake", c.handshake == 2 && c.tls_version < FIRST_NEW && answered),
        ("no version after a failed handshake", c.handshake == 2 && over && answered),
        ("no version before the handshake", c.handshake == 0 && over && answered),
        ("version 0", beside(0)),
        ("version 02 03", beside(0x0203)),
        ("version 02 ff", beside(0x02ff)),
        ("version 03 00", beside(0x0300)),
        ("version 03 01", beside(0x0301)),
        ("version 03 02", beside(0x0302)),
        ("version 03 03", beside(0x0303)),
        ("version 03 04", beside(0x0304)),
        ("version 03 ff", beside(0x03ff)),
        ("version 04 00", beside(0x0400)),
        ("version 65,535", beside(65_535)),
        ("version 65,536", beside(65_536)),
        ("version 65,536 and 03 03", beside(65_536 + 0x0303)),
        ("version 2^64 - 1", beside(u64::MAX)),
    ]
}

// -------------------------------------------------------------------------------------------------------------------- laws

/// What a call is tried with: a version below 03 03, one from there on, and a number of more than two bytes.
#[derive(Clone, Copy, Debug)]
struct Tried {
    old: u64,
    new: u64,
    over: u64,
}

/// The answer at a version, by that at 03 03.
fn expected(first: HostAnswer, version: u64) -> HostAnswer {
    let (number, questions) = first;
    if version > LAST {
        (67, 0)
    } else if version < FIRST_NEW && matches!(number, 3..=5 | 12 | 26 | 27) {
        (28, questions)
    } else {
        first
    }
}

fn same(law: &str, found: HostAnswer, wanted: HostAnswer) -> Result<(), String> {
    if found == wanted { Ok(()) } else { Err(format!("{law}: {found:?}, and not {wanted:?}")) }
}

/// What the laws found: the answer at 03 03, and beside an established handshake the numbers at an old version without certificate
/// facts and with them.
struct Found {
    first: HostAnswer,
    old: Option<(u64, u64)>,
}

/// Every law on a call, whose own version counts for nothing.
fn laws(call: &HostCall, tried: Tried, ask: &mut dyn FnMut(&HostCall) -> HostAnswer) -> Result<Found, String> {
    let (mut call, given) = (call.clone(), call.certificates_given);
    let handshake = call.handshake;
    let mut at = |version, certificates_given| {
        (call.tls_version, call.certificates_given) = (version, certificates_given);
        ask(&call)
    };
    let first = at(FIRST_NEW, given);
    if first.0 == 28 {
        return Err(format!("{first:?} at 03 03"));
    }
    if handshake != 1 {
        for version in [tried.old, tried.new, tried.over] {
            same("no handshake was established, and the version counts", at(version, given), first)?;
        }
        return Ok(Found { first, old: None });
    }
    same("two versions from 03 03 on", at(tried.new, given), expected(first, tried.new))?;
    same("a version below 03 03", at(tried.old, given), expected(first, tried.old))?;
    same("a version over 65,535", at(tried.over, given), expected(first, tried.over))?;
    // "It is final at the handshake stage": nothing is asked for, and certificate facts change nothing unless they are refused.
    let (without, with) = (at(tried.old, 0), at(tried.old, 1));
    if matches!(without.0, 10..=14) {
        return Err(format!("an old version, certificate facts not given: the question {without:?}"));
    }
    if without.0 < 40 && !matches!(with.0, 65 | 67) {
        same("an old version, then certificate facts", with, without)?;
    }
    Ok(Found { first, old: Some((without.0, with.0)) })
}

/// The laws on the rules, then on the library, of which what they found is handed back. A law that fails ends the program.
fn hold(lender: &mut Lender, call: &HostCall, tried: Tried, place: Place) -> Found {
    let fail = |whose: &str, what: String| -> Found {
        println!("VERSIONS: {:?}\n{}", boundary::CURRENT.with(|c| c.get()), arguments::host(call));
        println!("  {whose}, tried with {tried:?}: {what}");
        std::process::exit(1)
    };
    laws(call, tried, &mut rules::judge_host).unwrap_or_else(|what| fail("rules", what));
    laws(call, tried, &mut |call| lender.judge_host(call, place)).unwrap_or_else(|what| fail("library", what))
}

// ------------------------------------------------------------------------------------------------------------------- counts

const REFUSALS: [u64; 14] = [50, 52, 53, 54, 55, 56, 57, 60, 61, 62, 64, 65, 66, 67];
/// The answers at 03 03, but for refusals: without a handshake, after a failed one, and beside an established one those that an old
/// version leaves as they are, and those that become 28.
const WITHOUT: [u64; 10] = [1, 10, 11, 13, 14, 20, 21, 22, 23, 24];
const FAILED: [u64; 7] = [1, 20, 21, 22, 23, 24, 25];
const STAYS: [u64; 7] = [1, 2, 20, 21, 22, 23, 24];
const BECOMES_28: [u64; 6] = [3, 4, 5, 12, 26, 27];
/// What may come with certificate facts where it is 28 without them.
const AFTER_28: [u64; 3] = [28, 65, 67];

/// How often each of these came.
#[derive(Default)]
struct Counts {
    by_handshake: [Table; 3],
    after_28: Table,
}

impl Counts {
    fn count(&mut self, handshake: u64, found: &Found) {
        if let Some(table) = self.by_handshake.get_mut(handshake as usize) {
            *table.entry(found.first.0).or_insert(0) += 1;
        }
        if let Some((28, with)) = found.old {
            *self.after_28.entry(with).or_insert(0) += 1;
        }
    }

    /// Prints them. What came less than once in 50,000 cases was too rare.
    fn report(&self, cases: u64) {
        let [without, established, failed] = &self.by_handshake;
        let rows: [(&str, &Table, Vec<u64>); 5] = [
            ("no handshake, the same at every version", without, [&WITHOUT[..], &REFUSALS].concat()),
            ("a failed one, the same at every version", failed, [&FAILED[..], &REFUSALS].concat()),
            ("an established one, the same at an old version", established, [&STAYS[..], &REFUSALS].concat()),
            ("an established one, at an old version 28 in the place of", established, BECOMES_28.to_vec()),
            ("28 without certificate facts, and with them", &self.after_28, AFTER_28.to_vec()),
        ];
        for (title, table, numbers) in rows {
            let of = |number: u64| table.get(&number).copied().unwrap_or(0);
            let counts: Vec<String> = numbers.iter().map(|&number| format!("{number}: {}", of(number))).collect();
            println!("  {title}: {}", counts.join(", "));
            if let Some(missing) = numbers.iter().find(|&&number| of(number) * 50_000 < cases) {
                println!("FAILED: too few cases of {missing} ({title})");
                std::process::exit(1);
            }
        }
    }
}

// -------------------------------------------------------------------------------------------------------------------- cases

/// A random call, mostly with fewer facts than there might be, and with any outcome of the handshake.
fn random_case(lender: &mut Lender, seed: u64, case: u64, counts: &mut Counts) {
    let mut r = Random::new(seed, 12, case);
    let mut call = inputs::host(&mut r);
    if r.once_in(2) {
        inputs::drop_facts(&mut r, &mut call);
    }
    if r.once_in(2) {
        call.handshake = r.below(3) as u64;
    }
    let (old, new) = (inputs::old_version(&mut r), inputs::new_version(&mut r));
    let tried = Tried { old, new, over: inputs::no_version(&mut r) };
    let found = hold(lender, &call, tried, Place::random(&mut r));
    counts.count(call.handshake, &found);
}

/// An example with each outcome of the handshake, at the edges.
fn example(lender: &mut Lender, call: &HostCall, r: &mut Random) -> u64 {
    let mut passed = 0;
    for handshake in 0..=2 {
        let call = HostCall { handshake, ..call.clone() };
        for ((old, new), over) in OLD_VERSIONS.into_iter().zip(NEW_VERSIONS).zip(NO_VERSIONS) {
            hold(lender, &call, Tried { old, new, over }, Place::random(r));
            passed += 1;
        }
    }
    passed
}

/// Each version of two bytes, and numbers about each further bit.
fn every_version() -> impl Iterator<Item = u64> {
    let further = (16..64).flat_map(|bit| [1 << bit, (1 << bit) + 0x0301, (1 << bit) + FIRST_NEW, u64::MAX >> (63 - bit)]);
    (0..=LAST).chain(further)
}

/// An established handshake at every version, for the first example of each number.
fn each_version(lender: &mut Lender, hosts: &[HostCall], r: &mut Random) -> u64 {
    let mut passed = 0;
    for wanted in [2, 3, 4, 5, 12, 24, 26, 27, 65, 66] {
        let mut calls = hosts.iter().map(|call| HostCall { handshake: 1, tls_version: FIRST_NEW, ..call.clone() });
        let Some(mut call) = calls.find(|call| rules::judge_host(call).0 == wanted) else {
            println!("FAILED: no example gives {wanted}");
            std::process::exit(1)
        };
        let first = rules::judge_host(&call);
        for version in every_version() {
            call.tls_version = version;
            let (ours, theirs) = (rules::judge_host(&call), lender.judge_host(&call, Place::random(r)));
            if [ours, theirs] != [expected(first, version); 2] {
                println!("VERSIONS: {first:?} at 03 03, rules {ours:?} and library {theirs:?} at\n{}", arguments::host(&call));
                std::process::exit(1);
            }
            passed += 1;
        }
    }
    passed
}

/// So many random cases, then the examples; how many cases that were.
pub fn run(lender: &mut Lender, seed: u64, cases: u64, hosts: &[HostCall]) -> u64 {
    let (begun, mut counts, mut r) = (Instant::now(), Counts::default(), Random::new(seed, 13, 0));
    for case in 0..cases {
        boundary::CURRENT.with(|c| c.set((seed, "versions", case)));
        random_case(lender, seed, case, &mut counts);
    }
    let mut fixed = 0;
    // The other examples differ from one of these in the version alone.
    for (i, call) in hosts.iter().filter(|call| call.tls_version == FIRST_NEW).enumerate() {
        boundary::CURRENT.with(|c| c.set((seed, "versions of example", i as u64)));
        fixed += example(lender, call, &mut r);
    }
    fixed += each_version(lender, hosts, &mut r);
    println!("laws on versions: {cases} cases and {fixed} of examples in {:.1} s", begun.elapsed().as_secs_f64());
    counts.report(cases);
    cases + fixed
}
