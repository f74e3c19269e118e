//! The last sentence of document 02's No. 1, tried on the library alone: on tables reached by its calls from an empty one, and
//! while clocks never go back, a store for one domain changes no other domain's lookup, then or at a later clock; and two runs with
//! the same calls for a domain, none of them refused with 70, give it the same answers but for the text's place. No definition is
//! compared here; the calls are held against each other.

use crate::arguments;
use crate::boundary::{self, Lender, Place, StoreCall};
use crate::caches::{self, Cache, Call, Pool};
use crate::inputs::{other_case, LAST_CLOCK};
use crate::random::Random;
use independent_rules::cache::ENTRIES;
use std::collections::BTreeMap;
use std::time::Instant;

/// What a case came to, by name: each has to come.
pub type Counts = BTreeMap<&'static str, u64>;

const FOUND: &str = "lookups of another domain that find a text";
const NOT_FOUND: &str = "lookups of another domain that find none";
const TAKEN: &str = "stores over another domain's entry";
const FULL: &str = "stores refused with 70";
const RUNS: &str = "pairs of runs";
const REFUSED: &str = "pairs with an own call refused with 70";
const TEXTS: &str = "answers with a text";
const MOVED: &str = "answers with the text in another place";
const ALL: [&str; 8] = [FOUND, NOT_FOUND, TAKEN, FULL, RUNS, REFUSED, TEXTS, MOVED];

pub fn count(counts: &mut Counts, what: &'static str, n: usize) {
    *counts.entry(what).or_insert(0) += n as u64;
}

/// Prints all of them. Each has to come at least so often, else the program ends.
pub fn report(counts: &Counts, all: &[&str], at_least: u64) {
    for what in all {
        let n = counts.get(what).copied().unwrap_or(0);
        println!("  {what}: {n}");
        if n < at_least {
            println!("FAILED: too few {what}");
            std::process::exit(1);
        }
    }
}

/// What a call answers; of a lookup also the text itself.
#[derive(Clone, PartialEq, Debug)]
struct Answer {
    number: u64,
    place: u64,
    others: [u64; 4], // length, text_length, fetched, id_length
    id: [u8; 32],
    text: Vec<u8>,
}

impl Answer {
    fn but_for_place(&self) -> Answer {
        Answer { place: 0, ..self.clone() }
    }
}

fn look_up(lender: &mut Lender, cache: &Cache, clock: u64, domain: &[u8], place: Place) -> Answer {
    let a = lender.cache_lookup(clock, domain, &cache.table, &cache.texts, place);
    let text = cache.texts[a.text_start as usize..][..a.text_length as usize].to_vec();
    Answer { number: a.number, place: a.text_start, others: [a.length, a.text_length, a.fetched, a.id_length], id: a.id, text }
}

fn ask(lender: &mut Lender, cache: &mut Cache, call: &Call, place: Place) -> Answer {
    match call {
        Call::Lookup { clock, domain } => look_up(lender, cache, *clock, domain, place),
        Call::Store(c) => {
            let (number, length) = lender.cache_store(c, &mut cache.table, &mut cache.texts, place);
            Answer { number, place: 0, others: [length, 0, 0, 0], id: [0; 32], text: vec![] }
        }
    }
}

// -------------------------------------------------------------------------------------------------------------------- calls

fn clock_of(call: &Call) -> u64 {
    match call {
        Call::Lookup { clock, .. } => *clock,
        Call::Store(c) => c.clock,
    }
}

/// Zeros, or entries that count as empty for other reasons.
fn empty_cache(r: &mut Random, pool: &Pool) -> Cache {
    if r.once_in(2) {
        return Cache::zero();
    }
    let mut cache = caches::cache(r, pool);
    for entry in cache.table.iter_mut() {
        match r.below(4) {
            0 => entry.length = 1025 + r.below(9) as u64,
            1 => entry.domain[0] = 0,
            2 => entry.id = [0; 32],
            _ => entry.fetched = LAST_CLOCK + 1,
        }
    }
    cache
}

/// A store or a lookup for a domain, in some spelling; a few are refused.
fn call_for(r: &mut Random, pool: &Pool, clock: u64, domain: &[u8]) -> Call {
    let domain = other_case(r, domain);
    if r.once_in(4) {
        return Call::Lookup { clock, domain };
    }
    let mut id = caches::id(r);
    if r.once_in(30) {
        id.clear();
    }
    let policy = if r.once_in(30) { vec![] } else { caches::text(r, pool).body };
    Call::Store(StoreCall { clock, domain, id, policy })
}

/// Clocks that never go back, from the pool's on. Where there are many domains, half of the clocks are the first.
fn clocks(r: &mut Random, pool: &Pool, count: usize, most: u64, many: bool) -> Vec<u64> {
    let mut later: Vec<u64> = Vec::new();
    for _ in 0..count {
        later.push(if many && r.once_in(2) { 0 } else { r.below(most as usize + 1) as u64 });
    }
    later.sort();
    later.into_iter().map(|later| (pool.clock + later).min(LAST_CLOCK)).collect()
}

/// So many calls for these domains: for each in turn where they are many, so that the table fills.
fn calls(r: &mut Random, pool: &Pool, domains: &[Vec<u8>], count: usize, most: u64) -> Vec<Call> {
    let many = domains.len() > 8;
    let mut out = Vec::new();
    for (i, clock) in clocks(r, pool, count, most, many).into_iter().enumerate() {
        let domain = if many { &domains[i % domains.len()] } else { r.pick(domains) };
        out.push(call_for(r, pool, clock, domain));
    }
    out
}

/// The calls of both, by clock; each list keeps its order. The flag says that a call is of the first.
fn merged(r: &mut Random, first: &[Call], second: &[Call]) -> Vec<(bool, Call)> {
    let (mut a, mut b) = (first.iter().peekable(), second.iter().peekable());
    let mut out = Vec::new();
    loop {
        let take_a = match (a.peek(), b.peek()) {
            (None, None) => return out,
            (Some(_), None) => true,
            (None, Some(_)) => false,
            (Some(x), Some(y)) if clock_of(x) == clock_of(y) => r.once_in(2),
            (Some(x), Some(y)) => clock_of(x) < clock_of(y),
        };
        let call = if take_a { a.next() } else { b.next() };
        out.extend(call.map(|call| (take_a, call.clone())));
    }
}

// ------------------------------------------------------------------------------------------------------------------- claims

/// A few other domains, and the store's clock or later ones.
fn others(r: &mut Random, pool: &Pool, c: &StoreCall) -> Vec<(Vec<u8>, u64)> {
    let mut out = Vec::new();
    for _ in 0..3 {
        let domain = r.pick(&pool.domains).clone();
        let later = *r.pick(&[0, 0, 1, 99, 100, 604_800]);
        if !domain.eq_ignore_ascii_case(&c.domain) {
            out.push((other_case(r, &domain), (c.clock + later).min(LAST_CLOCK)));
        }
    }
    out
}

/// Whether the store took an entry that an earlier store had written for another domain.
fn is_taken(before: &Cache, after: &Cache, written: &mut [bool; ENTRIES]) -> bool {
    let Some(i) = (0..ENTRIES).find(|&i| before.table[i] != after.table[i]) else { return false };
    let another = !before.table[i].domain.eq_ignore_ascii_case(&after.table[i].domain);
    std::mem::replace(&mut written[i], true) && another
}

/// Lookups of a few other domains, at the store's clock and later, before and after each store.
fn others_stay(lender: &mut Lender, r: &mut Random, counts: &mut Counts) -> Result<(), String> {
    let domains = if r.once_in(2) { r.between(2, 6) } else { r.between(65, 72) };
    let lasting = r.once_in(2);
    let pool = Pool::new(r, domains, lasting);
    let (mut cache, mut written) = (empty_cache(r, &pool), [false; ENTRIES]);
    for call in calls(r, &pool, &pool.domains, 3 * domains, 300) {
        let Call::Store(c) = &call else { continue };
        let (place, others) = (Place::random(r), others(r, &pool, c));
        let before: Vec<Answer> = others.iter().map(|(domain, clock)| look_up(lender, &cache, *clock, domain, place)).collect();
        let earlier = cache.clone();
        let answer = ask(lender, &mut cache, &call, place);
        count(counts, FULL, (answer.number == 70) as usize);
        count(counts, TAKEN, is_taken(&earlier, &cache, &mut written) as usize);
        for ((domain, clock), before) in others.iter().zip(before) {
            let after = look_up(lender, &cache, *clock, domain, place);
            if after != before {
                let words = arguments::cache_call(&call);
                return Err(format!("{words}\n  changes the lookup of {domain:?} at {clock}: {before:?}, then {after:?}"));
            }
            count(counts, if after.number == 15 { FOUND } else { NOT_FOUND }, 1);
        }
    }
    Ok(())
}

/// The answers to the domain's own calls in a run with these calls for others.
fn run_with(lender: &mut Lender, r: &mut Random, pool: &Pool, own: &[Call], others: &[Call]) -> Vec<Answer> {
    let mut cache = empty_cache(r, pool);
    let mut answers = Vec::new();
    for (is_own, call) in merged(r, own, others) {
        let place = Place::random(r);
        let answer = ask(lender, &mut cache, &call, place);
        if is_own {
            answers.push(answer);
        }
    }
    answers
}

/// The first domain's calls in two runs, with many calls for others in one, and some, many or none in the other.
fn same_answers(lender: &mut Lender, r: &mut Random, counts: &mut Counts) -> Result<(), String> {
    let (many, lasting) = (r.between(64, 75), r.once_in(2));
    let pool = Pool::new(r, many, lasting);
    let (first, rest) = (&pool.domains[..1], &pool.domains[1..]);
    let rest: Vec<Vec<u8>> = rest.iter().filter(|d| !d.eq_ignore_ascii_case(&first[0])).cloned().collect();
    let most = *r.pick(&[3, 300, 1_000_000]);
    let count_of_own = *r.pick(&[3, 8, 16]);
    let own = calls(r, &pool, first, count_of_own, most);
    let counts_of_others = [*r.pick(&[90, 180, 240]), *r.pick(&[0, 5, 150])];
    let [a, b] = counts_of_others.map(|n| {
        let others = calls(r, &pool, &rest, n, most);
        run_with(lender, r, &pool, &own, &others)
    });
    if a.iter().chain(&b).any(|answer| answer.number == 70) {
        count(counts, REFUSED, 1);
        return Ok(());
    }
    count(counts, RUNS, 1);
    for ((call, a), b) in own.iter().zip(&a).zip(&b) {
        if a.but_for_place() != b.but_for_place() {
            return Err(format!("{}\n  is answered with {a:?}, and in another run with {b:?}", arguments::cache_call(call)));
        }
        count(counts, TEXTS, !a.text.is_empty() as usize);
        count(counts, MOVED, (a.place != b.place) as usize);
    }
    Ok(())
}

// -------------------------------------------------------------------------------------------------------------------- cases

/// So many cases of each claim; how many that were.
pub fn run(lender: &mut Lender, seed: u64, cases: u64) -> u64 {
    let (begun, mut counts) = (Instant::now(), Counts::new());
    for case in 0..cases {
        boundary::CURRENT.with(|c| c.set((seed, "claims", case)));
        let mut r = Random::new(seed, 7, case);
        let claims = others_stay(lender, &mut r, &mut counts).and_then(|()| same_answers(lender, &mut r, &mut counts));
        if let Err(what) = claims {
            println!("CLAIM: seed {seed} case {case}\n  {what}");
            std::process::exit(1);
        }
    }
    println!("claims on the cache: {cases} cases of each in {:.1} s", begun.elapsed().as_secs_f64());
    report(&counts, &ALL, cases.div_ceil(100));
    2 * cases
}
