//! Document 02's No. 8, "Strongest digest only". First the ways in which a host call hangs on a record that is ignored, or that a
//! record near a type 2 leaves as it is: of a great many random calls each has to come often. Then laws on what a record changes
//! that is ignored, or that lets others be ignored. The library and the rules are held to them each by itself, on random calls of
//! both entries.

use crate::arguments;
use crate::boundary::{self, Lender, Place};
use crate::inputs::{self, lengths_of, list};
use crate::leaves::{self, pieces};
use crate::publishing::{Way, Ways};
use crate::random::Random;
use independent_rules::certificate;
use independent_rules::rules::{self, HostAnswer, HostCall, TlsaAnswer};
use std::time::Instant;

/// Usage and selector of the records that can be used.
pub const PAIRS: [[u8; 2]; 4] = [[2, 0], [2, 1], [3, 0], [3, 1]];
const MOST_RECORDS: usize = 32;

/// "usage 2 or 3, selector 0 or 1, and type 0 with at least 1 byte, type 1 with 32, or type 2 with 64"
pub fn is_usable(record: &[u8]) -> bool {
    let size = record.len().saturating_sub(3);
    let sized = |kind| kind == 0 || (kind == 1 && size == 32) || (kind == 2 && size == 64);
    size > 0 && PAIRS.contains(&[record[0], record[1]]) && sized(record[2])
}

fn is_strong(record: &[u8]) -> bool {
    is_usable(record) && record[2] == 2
}

/// "among usable records of the same usage and selector, type 1 is ignored if a type 2 is present"
pub fn is_ignored(record: &[u8], set: &[Vec<u8>]) -> bool {
    is_usable(record) && record[2] == 1 && set.iter().any(|other| is_strong(other) && other[..2] == record[..2])
}

pub fn answer_of(set: &[Vec<u8>]) -> TlsaAnswer {
    TlsaAnswer { result: 1, lengths: list(&lengths_of(set)), records: set.concat() }
}

// -------------------------------------------------------------------------------------------------------------------- ways

/// A call that needs DANE, as the rules of its entry answer it, and the set that was taken.
struct Judged<'a> {
    call: &'a HostCall,
    judge: fn(&HostCall) -> HostAnswer,
    place: usize,
    set: Vec<Vec<u8>>,
}

impl Judged<'_> {
    /// The records of the set of which this is so.
    fn those(&self, is_so: impl Fn(&[u8]) -> bool) -> Vec<Vec<u8>> {
        self.set.iter().filter(|record| is_so(record)).cloned().collect()
    }

    fn has(&self, is_so: impl Fn(&[u8]) -> bool) -> bool {
        self.set.iter().any(|record| is_so(record))
    }

    /// What is answered where the set has these records alone; 0 without one.
    fn number_with(&self, records: &[Vec<u8>]) -> u64 {
        let mut call = self.call.clone();
        call.tlsa[self.place] = answer_of(records);
        if records.is_empty() { 0 } else { (self.judge)(&call).0 }
    }

    fn pass(&self, records: &[Vec<u8>]) -> bool {
        matches!(self.number_with(records), 3 | 5 | 27)
    }

    /// Whether DANE passes by these records and by no other that counts.
    fn pass_alone(&self, is_one: impl Fn(&[u8]) -> bool) -> bool {
        self.pass(&self.those(&is_one)) && !self.pass(&self.those(|record| !is_one(record) && !is_ignored(record, &self.set)))
    }
}

/// 26, where a record that is ignored matches.
fn stale_ways(j: &Judged, number: u64) -> [Way; 10] {
    let is_one = |record: &[u8]| is_ignored(record, &j.set);
    let with = if number == 26 { j.number_with(&j.those(is_one)) } else { 0 };
    let stale = matches!(with, 3 | 5 | 27);
    let of = |pair: [u8; 2]| stale && j.pass(&j.those(|record| is_one(record) && record[..2] == pair));
    let strong: Vec<usize> = (0..j.set.len()).filter(|&i| is_strong(&j.set[i])).collect();
    let first = j.set.iter().position(|record| is_one(record)).unwrap_or(0);
    [
        ("26, an ignored 2 0 1 matches", of(PAIRS[0])),
        ("26, an ignored 2 1 1 matches", of(PAIRS[1])),
        ("26, an ignored 3 0 1 matches", of(PAIRS[2])),
        ("26, an ignored 3 1 1 matches", of(PAIRS[3])),
        ("26, an ignored record matches, after the type 2", stale && strong[0] < first),
        ("26, an ignored record matches, before the type 2", stale && strong[0] > first),
        ("26, an ignored record matches, the only type 2 is the last of 32", stale && strong == [MOST_RECORDS - 1]),
        ("26, an ignored record matches, beside a policy that passes", with == 5),
        ("26, an ignored record matches, beside a policy that doesn't pass", with == 27),
        ("26, an ignored record matches, in the second answer", stale && j.place == 1),
    ]
}

/// DANE passes beside records that are ignored, or by a type 1 that none near it puts aside.
fn passing_ways(j: &Judged, number: u64) -> [Way; 15] {
    let passed = matches!(number, 3 | 5);
    let ignored = passed && j.has(|record| is_ignored(record, &j.set));
    let of_pair = |record: &[u8]| j.has(|other| is_ignored(other, &j.set) && other[..2] == record[..2]);
    let by_2 = ignored && j.pass_alone(|record| is_strong(record) && of_pair(record));
    let by_0 = ignored && j.pass_alone(|record| is_usable(record) && record[2] == 0 && of_pair(record));
    let is_one = |record: &[u8]| is_usable(record) && record[2] == 1 && !is_ignored(record, &j.set);
    let by_1 = passed && (j.call.tlsa_answers == 2 || j.has(|record| record[2] >= 2)) && j.pass_alone(is_one);
    let beside = |is_near: &dyn Fn(&[u8], &[u8]) -> bool| by_1 && j.has(|other| j.has(|one| is_one(one) && is_near(one, other)));
    let sized = |other: &[u8], size: usize| other[2] == 2 && other.len() == 3 + size;
    let of_usage = |one: &[u8], other: &[u8]| one[1] == other[1] && sized(other, 64);
    let of_selector = |one: &[u8], other: &[u8]| one[0] == other[0] && sized(other, 64);
    let unread = &j.call.tlsa[1 - j.place];
    let elsewhere = if by_1 { pieces(&unread.records, &unread.lengths).unwrap_or_default() } else { vec![] };
    let is_apart = |other: &[u8]| is_strong(other) && j.has(|one| is_one(one) && one[..2] == other[..2]);
    let apart = j.call.tlsa_answers == 2 && elsewhere.iter().any(|other| is_apart(other));
    [
        ("DANE by a type 2 alone, a type 1 ignored", by_2),
        ("DANE by a type 2 alone, a type 1 ignored, beside a policy", by_2 && number == 5),
        ("DANE by a type 2 alone, a type 1 ignored and a type 0", by_2 && j.has(|record| is_usable(record) && record[2] == 0)),
        ("DANE by a type 0 alone, a type 1 ignored", by_0),
        ("DANE by a type 1 alone, a type 2 of the other selector", beside(&|one, other| is_strong(other) && one[0] == other[0])),
        ("DANE by a type 1 alone, a type 2 of the other usage", beside(&|one, other| is_strong(other) && one[1] == other[1])),
        ("DANE by a type 1 alone, a type 2 with 63 bytes", beside(&|one, other| one[..2] == other[..2] && sized(other, 63))),
        ("DANE by a type 1 alone, a type 2 with 65 bytes", beside(&|one, other| one[..2] == other[..2] && sized(other, 65))),
        ("DANE by a type 1 alone, a type 2 with 32 bytes", beside(&|one, other| one[..2] == other[..2] && sized(other, 32))),
        ("DANE by a type 1 alone, a type 2 with no byte", beside(&|one, other| one[..2] == other[..2] && sized(other, 0))),
        ("DANE by a type 1 alone, a type 2 of usage 0 or 1", beside(&|one, other| other[0] < 2 && of_usage(one, other))),
        ("DANE by a type 1 alone, a type 2 of usage 4", beside(&|one, other| other[0] == 4 && of_usage(one, other))),
        ("DANE by a type 1 alone, a type 2 of another selector", beside(&|one, other| other[1] > 1 && of_selector(one, other))),
        ("DANE by a type 1 alone, a type of no meaning", beside(&|one, other| one[..2] == other[..2] && other[2] > 2)),
        ("DANE by a type 1 alone, a type 2 in another answer", by_1 && apart),
    ]
}

/// Which ways the call is an example of; `judge` is the rules' entry for it, and the answer what they answer.
pub fn ways(call: &HostCall, judge: fn(&HostCall) -> HostAnswer, (number, questions): HostAnswer) -> Vec<Way> {
    let place = (questions as usize).clamp(1, 2) - 1;
    let taken = &call.tlsa[place];
    let needed = questions > 0 && taken.result == 1 && matches!(number, 3 | 5 | 12 | 26 | 28);
    let set = if needed { pieces(&taken.records, &taken.lengths).unwrap_or_default() } else { vec![] };
    let j = Judged { call, judge, place, set };
    let ignored = j.has(|record| is_ignored(record, &j.set));
    let beside = |wanted| ignored && number == wanted;
    let before = [("12 beside an ignored record", beside(12)), ("28 beside an ignored record", beside(28))];
    [&before[..], &stale_ways(&j, number), &passing_ways(&j, number)].concat()
}

// -------------------------------------------------------------------------------------------------------------------- laws

/// The call with the sets of both its answers changed, where their lengths sum.
fn with_sets(call: &HostCall, mut change: impl FnMut(&mut Vec<Vec<u8>>)) -> HostCall {
    let mut call = call.clone();
    for answer in &mut call.tlsa {
        if let Some(mut set) = pieces(&answer.records, &answer.lengths) {
            change(&mut set);
            (answer.lengths, answer.records) = (list(&lengths_of(&set)), set.concat());
        }
    }
    call
}

/// What the laws change: an order, a SHA-512 record that matches nothing, and what an ignored SHA-256 becomes.
struct Tried {
    order: u64,
    strong: Vec<u8>,
    digest: Vec<u8>,
}

fn same(law: &str, found: HostAnswer, wanted: HostAnswer) -> Result<(), String> {
    if found == wanted { Ok(()) } else { Err(format!("{law}: {found:?}, and not {wanted:?}")) }
}

/// Laws on the records that are ignored; the answer to the call.
fn laws_on_ignored(call: &HostCall, tried: &Tried, ask: &mut dyn FnMut(&HostCall) -> HostAnswer) -> Result<HostAnswer, String> {
    let first = ask(call);
    let shuffled = with_sets(call, |set| Random::new(tried.order, 0, 0).shuffle(set));
    same("the records in another order", ask(&shuffled), first)?;
    let other = with_sets(call, |set| {
        let before = set.clone();
        let ignored = set.iter_mut().filter(|record| is_ignored(record, &before));
        ignored.for_each(|record| record[3..].copy_from_slice(&tried.digest));
    });
    same("another digest in the ignored records", ask(&other), first)?;
    let without = with_sets(call, |set| {
        let before = set.clone();
        set.retain(|record| !is_ignored(record, &before));
    });
    // With fewer records an answer may come to fit.
    if first.0 != 64 {
        same("without the ignored records", ask(&without), first)?;
    }
    Ok(first)
}

/// What the laws found: the numbers before and after a SHA-512 record that matches nothing has come to the sets.
type Found = (u64, u64);

/// Every law on a call.
fn laws(call: &HostCall, tried: &Tried, ask: &mut dyn FnMut(&HostCall) -> HostAnswer) -> Result<Found, String> {
    let first = laws_on_ignored(call, tried, ask)?;
    // The sets stay within the limit, and a set without a usable record as it is: there the need would change.
    let added = with_sets(call, |set| {
        if set.len() < MOST_RECORDS && set.iter().any(|record| is_usable(record)) {
            set.insert(tried.order as usize % (set.len() + 1), tried.strong.clone());
        }
    });
    let then = laws_on_ignored(&added, tried, ask)?;
    // "What a host needs doesn't change, only what matches", and that only where there is a type 1 of its usage and selector.
    let is_put_aside = |record: &[u8]| is_usable(record) && record[2] == 1 && record[..2] == tried.strong[..2];
    let mut sets = call.tlsa.iter().filter_map(|answer| pieces(&answer.records, &answer.lengths));
    let may_change = matches!(first.0, 3 | 5 | 27) && sets.any(|set| set.iter().any(|record| is_put_aside(record)));
    if !(may_change && then == (26, first.1)) {
        same("beside one more SHA-512 record that matches nothing", then, first)?;
    }
    Ok((first.0, then.0))
}

fn hold(call: &HostCall, tried: &Tried, whose: &str, ask: &mut dyn FnMut(&HostCall) -> HostAnswer) -> Found {
    laws(call, tried, ask).unwrap_or_else(|what| {
        println!("DIGESTS: {:?}\n{}", boundary::CURRENT.with(|c| c.get()), arguments::host(call));
        println!("  {whose}, with one more record {:?}: {what}", tried.strong);
        std::process::exit(1)
    })
}

// ------------------------------------------------------------------------------------------------------------------- cases

/// How a call answers before and after the record has come to it.
fn changes((first, then): Found) -> [Way; 9] {
    [
        ("3, then 26", first == 3 && then == 26),
        ("5, then 26", first == 5 && then == 26),
        ("27, then 26", first == 27 && then == 26),
        ("3 both times", first == 3 && then == 3),
        ("5 both times", first == 5 && then == 5),
        ("26 both times", first == 26 && then == 26),
        ("12 both times", first == 12 && then == 12),
        ("24 or 25 both times", first == then && matches!(then, 24 | 25)),
        ("28 both times", first == 28 && then == 28),
    ]
}

/// A random call of one entry, and half of them with fewer facts; the record is mostly of the usage and selector of one of its own.
fn random_case(lender: &mut Lender, seed: u64, case: u64, counts: &mut Ways) {
    let mut r = Random::new(seed, 19, case);
    let by_leaf = r.once_in(2);
    let mut call = if by_leaf { leaves::call(&mut r) } else { inputs::host(&mut r) };
    if r.once_in(4) {
        inputs::drop_facts(&mut r, &mut call);
    }
    let front = call.tlsa[r.below(2)].records.get(..2).map_or([0, 0], |front| [front[0], front[1]]);
    let pair = if PAIRS.contains(&front) && !r.once_in(3) { front } else { *r.pick(&PAIRS) };
    let tried = Tried { order: r.next(), strong: [&pair[..], &[2], &r.bytes(64)].concat(), digest: r.bytes(32) };
    let place = Place::random(&mut r);
    let found = if by_leaf {
        hold(&call, &tried, "rules", &mut certificate::judge_host_certificate);
        hold(&call, &tried, "library", &mut |call| lender.judge_host_certificate(call, place))
    } else {
        hold(&call, &tried, "rules", &mut rules::judge_host);
        hold(&call, &tried, "library", &mut |call| lender.judge_host(call, place))
    };
    counts.count(&changes(found));
}

/// So many random cases; how many that were.
pub fn run(lender: &mut Lender, seed: u64, cases: u64) -> u64 {
    let (begun, mut counts) = (Instant::now(), Ways::default());
    for case in 0..cases {
        boundary::CURRENT.with(|c| c.set((seed, "digests", case)));
        random_case(lender, seed, case, &mut counts);
    }
    println!("laws on digests: {cases} cases in {:.1} s", begun.elapsed().as_secs_f64());
    counts.report();
    if let Some(missing) = counts.missing(cases) {
        println!("FAILED: too few cases of {missing}");
        std::process::exit(1);
    }
    cases
}
