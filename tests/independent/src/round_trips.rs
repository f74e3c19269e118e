//! What document 02's No. 5 says of several calls together, tried on the library alone. "What we write, our reader accepts (the TXT
//! text as one character string) and reads back to the same id, mode, lifetime and patterns." Rewriting "keeps mode, lifetime and
//! patterns in order, but no other field": so the reader answers alike before and after, rewriting twice is rewriting once, what is
//! written needs no rewriting, and a host is judged alike. Of the sizes that the page of the C boundary names, 45 and 4,207 bytes,
//! no text needs more and some need all. No definition is compared here; the calls are held against each other.

use crate::arguments::{policy_call, shown, Shown};
use crate::boundary::{self, Lender, Place, PolicyCall};
use crate::claims::{count, report, Counts};
use crate::examples::plain;
use crate::inputs::{lengths_of, list};
use crate::publications::{self, POLICY_ROOM, TXT_ROOM};
use crate::publishing::values;
use crate::random::Random;
use independent_rules::publish::WriteAnswer;
use independent_rules::rules::{HostCall, PolicyAnswer};
use std::panic::{catch_unwind, AssertUnwindSafe};
use std::time::Instant;

const TEXTS: &str = "TXT texts that came back";
const LONGEST_TEXTS: &str = "TXT texts of 45 bytes";
const BAD_IDS: &str = "ids that were refused";
const POLICIES: &str = "policies that came back";
const LONGEST_POLICIES: &str = "policies of 4,207 bytes";
const BAD_POLICIES: &str = "policies that were refused";
const REWRITTEN: &str = "bodies that were rewritten";
const NOT_READ: &str = "bodies that the reader refuses";
const TOO_MANY: &str = "bodies with over 16 patterns";
const ALLOWED: &str = "hosts that a policy allows";
const HELD_BACK: &str = "hosts that a policy holds back";
const ALL: [&str; 11] = [
    TEXTS, LONGEST_TEXTS, BAD_IDS, POLICIES, LONGEST_POLICIES, BAD_POLICIES, REWRITTEN, NOT_READ, TOO_MANY, ALLOWED, HELD_BACK,
];

/// What was written, or the number of the refusal.
type Written = Result<Vec<u8>, u64>;

/// Writes into an output of the size that is always enough, then into one of just the length, then into one that is a byte shorter.
/// Whatever a call was not to write has to stay.
fn written(r: &mut Random, room: usize, mut write: impl FnMut(&mut [u8]) -> WriteAnswer) -> Result<Written, String> {
    let mut into = |size: usize| {
        let before = r.bytes(size);
        let mut after = before.clone();
        let (number, length) = write(&mut after);
        let stays = after.get(length as usize..) == before.get(length as usize..) && length as usize <= size;
        (number, length as usize, stays, Shown(after))
    };
    let (number, length, stays, Shown(mut text)) = into(room);
    if !stays || number == 83 || (number == 15) != (length > 0) {
        return Err(format!("  {number} and {length} with {room} bytes of output, the rest of which stays: {stays}"));
    }
    if number != 15 {
        return Ok(Err(number));
    }
    text.truncate(length);
    if into(length) != (15, length, true, Shown(text.clone())) {
        return Err(format!("  another answer or text with just {length} bytes of output"));
    }
    match into(length - 1) {
        (83, 0, true, _) => Ok(Ok(text)),
        other => Err(format!("  with {} bytes of output for {length}: {other:?}", length - 1)),
    }
}

fn rewritten(lender: &mut Lender, r: &mut Random, body: &[u8], place: Place) -> Result<Written, String> {
    written(r, POLICY_ROOM, |output| lender.rewrite_policy(body, output, place))
}

/// What has to be so, or the claim that failed.
fn holds(claim: bool, what: &str, text: &[u8]) -> Result<(), String> {
    if claim { Ok(()) } else { Err(format!("  {what}: {:?}", Shown(text.to_vec()))) }
}

// -------------------------------------------------------------------------------------------------------------------- hosts

/// A name that no random pattern matches.
const OTHER_HOST: &[u8] = b"mail.matched-by.none-of-these";

/// A name that the pattern matches; below a long one there is none.
fn host_of(pattern: &[u8]) -> Option<Vec<u8>> {
    let host = pattern.strip_prefix(b"*.").map_or(pattern.to_vec(), |parent| [b"m.", parent].concat());
    (host.len() <= 253).then_some(host)
}

/// A host for the first pattern, for the last, or for none; and an age that is a second from being stale, or stale.
fn compared_host(r: &mut Random, patterns: &[Vec<u8>], lifetime: u64) -> (Vec<u8>, u64) {
    let host = match (r.below(3), patterns) {
        (0, [first, ..]) => host_of(first),
        (1, [.., last]) => host_of(last),
        _ => None,
    };
    let age = if r.once_in(3) { lifetime } else { lifetime.saturating_sub(1) };
    (host.unwrap_or(OTHER_HOST.to_vec()), age)
}

/// The answer for a host under this policy, fetched so many seconds ago: 23, or the question for STARTTLS.
fn judged(lender: &mut Lender, policy: &[u8], host: &[u8], age: u64, place: Place) -> u64 {
    let fetched = plain().clock + 31_557_600 - age;
    let call = HostCall {
        clock: plain().clock + 31_557_600,
        host: host.to_vec(),
        address: 2,
        tlsa_answers: 0,
        policy_given: 1,
        policy: policy.to_vec(),
        fetched,
        ..plain()
    };
    lender.judge_host(&call, place).0
}

fn count_host(counts: &mut Counts, number: u64) {
    count(counts, if number == 23 { HELD_BACK } else { ALLOWED }, 1);
}

// ------------------------------------------------------------------------------------------------------------------- claims

fn txt_comes_back(lender: &mut Lender, r: &mut Random, counts: &mut Counts, id: &[u8]) -> Result<(), String> {
    let place = Place::random(r);
    let Ok(text) = written(r, TXT_ROOM, |output| lender.write_txt(id, output, place))? else {
        count(counts, BAD_IDS, 1);
        return Ok(());
    };
    let record = [&[text.len() as u8], &text[..]].concat();
    let mut joined = vec![0; text.len()];
    let (number, start, length) = lender.read_txt(&record, &list(&[record.len() as u64]), &mut joined, place);
    let read = joined.get(start as usize..(start + length) as usize);
    holds(number == 6 && joined == text && read == Some(id), "not read back", &text)?;
    count(counts, TEXTS, 1);
    count(counts, LONGEST_TEXTS, (text.len() == TXT_ROOM) as usize);
    Ok(())
}

/// The patterns of a call that was accepted.
fn patterns_of(c: &PolicyCall) -> Vec<&[u8]> {
    let (mut patterns, mut rest) = (Vec::new(), &c.patterns[..]);
    for length in c.pattern_lengths.chunks(4) {
        let (pattern, after) = rest.split_at(length.iter().fold(0, |n, &b| 256 * n + b as usize));
        patterns.push(pattern);
        rest = after;
    }
    patterns
}

fn policy_comes_back(lender: &mut Lender, r: &mut Random, counts: &mut Counts, c: &PolicyCall) -> Result<(), String> {
    let place = Place::random(r);
    let Ok(text) = written(r, POLICY_ROOM, |output| lender.write_policy(c, output, place))? else {
        count(counts, BAD_POLICIES, 1);
        return Ok(());
    };
    let patterns = patterns_of(c);
    let mx_count = patterns.len() as u64;
    let wanted = PolicyAnswer { number: 7, mode: c.mode, lifetime: c.lifetime, mx_count, ..Default::default() };
    holds(lender.read_policy(&text, place) == wanted, "not read back", &text)?;
    holds(values(&text, "mx").eq(patterns.iter().copied()), "other patterns", &text)?;
    holds(rewritten(lender, r, &text, place)?.as_ref() == Ok(&text), "changed by rewriting", &text)?;
    // Until it is stale the policy allows the hosts of its patterns, and under enforce no other.
    let (enforced, age) = (c.mode == 1 && c.lifetime > 0, c.lifetime.saturating_sub(1));
    let other = judged(lender, &text, OTHER_HOST, age, place);
    holds(other == if enforced { 23 } else { 10 }, "another host", &text)?;
    count_host(counts, other);
    if let Some(host) = patterns.last().and_then(|pattern| host_of(pattern)) {
        holds(judged(lender, &text, &host, age, place) == 10, "a host of the last pattern", &text)?;
        count_host(counts, 10);
    }
    count(counts, POLICIES, 1);
    count(counts, LONGEST_POLICIES, (text.len() == POLICY_ROOM) as usize);
    Ok(())
}

fn rewriting_keeps(lender: &mut Lender, r: &mut Random, counts: &mut Counts, body: &[u8]) -> Result<(), String> {
    let place = Place::random(r);
    let read = lender.read_policy(body, place);
    let refusal = if read.number != 7 { Some(read.number) } else { (read.mx_count > 16).then_some(81) };
    match (rewritten(lender, r, body, place)?, refusal) {
        (Ok(text), None) => is_kept(lender, r, counts, body, &read, &text)?,
        (Err(number), Some(refusal)) if number == refusal => count(counts, if number == 81 { TOO_MANY } else { NOT_READ }, 1),
        (other, _) => return Err(format!("  read with {read:?}, rewritten with {other:?}")),
    }
    Ok(())
}

/// The text is what a body that is read so was rewritten to.
fn is_kept(
    lender: &mut Lender,
    r: &mut Random,
    counts: &mut Counts,
    body: &[u8],
    read: &PolicyAnswer,
    text: &[u8],
) -> Result<(), String> {
    let place = Place::random(r);
    let patterns: Vec<Vec<u8>> = values(body, "mx").map(|pattern| pattern.to_vec()).collect();
    holds(lender.read_policy(text, place) == *read, "read in another way", text)?;
    holds(values(text, "mx").eq(patterns.iter()), "other patterns", text)?;
    let fields = ["version", "mode", "mx", "max_age"].map(|name| values(text, name).count());
    let lines = text.iter().filter(|&&b| b == b'\n').count();
    let alone = fields == [1, 1, patterns.len(), 1] && lines == 3 + patterns.len() && text.ends_with(b"\n");
    holds(alone, "another field, or a line without an end", text)?;
    holds(rewritten(lender, r, text, place)? == Ok(text.to_vec()), "changed by a second rewriting", text)?;
    let (lifetime, pattern_lengths) = (read.lifetime, list(&lengths_of(&patterns)));
    let c = PolicyCall { mode: read.mode, lifetime, patterns: patterns.concat(), pattern_lengths };
    let from_parts = written(r, POLICY_ROOM, |output| lender.write_policy(&c, output, place))?;
    holds(from_parts == Ok(text.to_vec()), "written in another way", text)?;
    let (host, age) = compared_host(r, &patterns, lifetime);
    let [before, after] = [body, text].map(|policy| judged(lender, policy, &host, age, place));
    holds(before == after, "a host judged in another way", text)?;
    count_host(counts, after);
    count(counts, REWRITTEN, 1);
    Ok(())
}

// -------------------------------------------------------------------------------------------------------------------- cases

/// Each claim once, of random things to publish.
fn run_case(lender: &mut Lender, r: &mut Random, counts: &mut Counts) -> Result<(), String> {
    let (id, c, body) = (publications::id(r), publications::policy_call(r), publications::body(r));
    txt_comes_back(lender, r, counts, &id).map_err(|what| shown("id", &id) + &what)?;
    policy_comes_back(lender, r, counts, &c).map_err(|what| policy_call(&c) + &what)?;
    rewriting_keeps(lender, r, counts, &body).map_err(|what| shown("body", &body) + &what)
}

/// So many cases of each claim; how many that were.
pub fn run(lender: &mut Lender, seed: u64, cases: u64) -> u64 {
    let (begun, mut counts) = (Instant::now(), Counts::new());
    for case in 0..cases {
        boundary::CURRENT.with(|c| c.set((seed, "round trips", case)));
        let mut r = Random::new(seed, 11, case);
        let failed = match catch_unwind(AssertUnwindSafe(|| run_case(lender, &mut r, &mut counts))) {
            Ok(Ok(())) => continue,
            Ok(Err(what)) => what,
            Err(_) => String::from("  (see above)"),
        };
        println!("ROUND TRIP: seed {seed} case {case}\n{failed}");
        std::process::exit(1);
    }
    println!("round trips of what is written: {cases} cases of each in {:.1} s", begun.elapsed().as_secs_f64());
    report(&counts, &ALL, cases.div_ceil(1000));
    3 * cases
}
