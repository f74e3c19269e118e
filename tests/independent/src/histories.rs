//! The cache's calls against the rules: single calls on random and damaged tables, and histories of calls on one table. After each
//! call every field of the answer, every entry and every byte of the texts is compared, and what may not change is held against
//! what was there before.

use crate::arguments;
use crate::boundary::{self, Lender, Place, StoreCall};
use crate::caches::{self, Cache, Call, Pool};
use crate::inputs::LAST_CLOCK;
use crate::random::Random;
use crate::Table;
use independent_rules::cache::{self, Target, ENTRIES, ROOM};
use std::collections::BTreeMap;
use std::fmt::Debug;
use std::time::Instant;

const STORE_ANSWERS: [u64; 14] = [15, 50, 52, 53, 54, 55, 56, 57, 60, 62, 70, 71, 74, 80];
const LOOKUP_ANSWERS: [u64; 5] = [15, 60, 62, 72, 74];
const WAYS: [&str; 6] =
    ["a live own entry", "a stale own entry", "an empty entry", "a stale entry", "72 by a stale own entry", "72 by no entry"];

/// How often each answer number came, and each way to come to it.
#[derive(Default)]
pub struct Counts {
    stores: Table,
    lookups: Table,
    ways: BTreeMap<&'static str, u64>,
}

impl Counts {
    fn way(&mut self, way: &'static str) {
        *self.ways.entry(way).or_insert(0) += 1;
    }

    /// Prints them. An answer or a way that came less than once in a thousand calls was not tested.
    fn report(&self) {
        let calls: u64 = self.stores.values().chain(self.lookups.values()).sum();
        let often = |what: &str, count: u64| {
            if count * 1000 < calls {
                println!("FAILED: {what} came {count} times in {calls} calls");
                std::process::exit(1);
            }
        };
        for (title, table, answers) in [("store", &self.stores, &STORE_ANSWERS[..]), ("lookup", &self.lookups, &LOOKUP_ANSWERS)] {
            let line: Vec<String> = table.iter().map(|(number, count)| format!("{number}: {count}")).collect();
            println!("  {title}: answers {}", line.join(", "));
            answers.iter().for_each(|n| often(&format!("{title}'s answer {n}"), table.get(n).copied().unwrap_or(0)));
        }
        let line: Vec<String> = self.ways.iter().map(|(way, count)| format!("{way} {count}")).collect();
        println!("  by way of: {}", line.join(", "));
        WAYS.iter().for_each(|way| often(way, self.ways.get(way).copied().unwrap_or(0)));
    }
}

// ----------------------------------------------------------------------------------------------------------------- one call

fn is_live_own(before: &Cache, clock: u64, domain: &[u8]) -> bool {
    cache::lookup(clock, domain, &before.table, &before.texts).number == 15
}

/// What a store may have changed: nothing under a refusal, else its entry and its text's bytes. `at` is where the policy went.
fn check_changes(before: &Cache, after: &Cache, at: Option<usize>, policy_length: usize) -> Result<(), String> {
    if let Some(i) = (0..before.table.len()).find(|&i| Some(i) != at && before.table[i] != after.table[i]) {
        return Err(format!("entry {i} was changed"));
    }
    let (start, end) = at.map_or((0, 0), |i| (ROOM * i, ROOM * i + policy_length));
    if before.texts[..start] != after.texts[..start] || before.texts[end..] != after.texts[end..] {
        return Err(String::from("bytes of another text, or after the text, were changed"));
    }
    Ok(())
}

fn first_difference(ours: &Cache, theirs: &Cache) -> String {
    for (i, (a, b)) in ours.table.iter().zip(&theirs.table).enumerate() {
        if a != b {
            return format!("entry {i}\n  rules   {}\n  library {}", arguments::entry(a), arguments::entry(b));
        }
    }
    let at = ours.texts.iter().zip(&theirs.texts).position(|(a, b)| a != b);
    format!("the texts differ, first at {at:?}")
}

fn compared<T: PartialEq + Debug>(ours: T, theirs: T) -> Result<(), String> {
    if ours == theirs { Ok(()) } else { Err(format!("the answer differs\n  rules   {ours:?}\n  library {theirs:?}")) }
}

/// The number of the answer, or what differs.
type Asked = Result<u64, String>;

fn look_up(lender: &mut Lender, cache: &Cache, clock: u64, domain: &[u8], place: Place, counts: &mut Counts) -> Asked {
    let ours = cache::lookup(clock, domain, &cache.table, &cache.texts);
    let theirs = lender.cache_lookup(clock, domain, &cache.table, &cache.texts, place);
    *counts.lookups.entry(ours.number).or_insert(0) += 1;
    if ours.number == 72 {
        // At clock 0 every entry is live, but for those of lifetime 0.
        counts.way(if is_live_own(cache, 0, domain) { WAYS[4] } else { WAYS[5] });
    }
    compared(ours, theirs)?;
    Ok(ours.number)
}

fn store(lender: &mut Lender, cache: &mut Cache, c: &StoreCall, place: Place, counts: &mut Counts) -> Asked {
    let (mut ours, mut theirs) = (cache.clone(), cache.clone());
    let target = cache::stored(c.clock, &c.domain, &c.id, &c.policy, &mut ours.table, &mut ours.texts);
    let answer = cache::store_answer(target);
    let theirs_answer = lender.cache_store(c, &mut theirs.table, &mut theirs.texts, place);
    *counts.stores.entry(answer.0).or_insert(0) += 1;
    match target {
        Ok(Target::Own(_)) if is_live_own(cache, c.clock, &c.domain) => counts.way(WAYS[0]),
        Ok(Target::Own(_)) => counts.way(WAYS[1]),
        Ok(Target::Empty(_)) => counts.way(WAYS[2]),
        Ok(Target::Stale(_)) => counts.way(WAYS[3]),
        Err(_) => {}
    }
    compared(answer, theirs_answer)?;
    let at = target.ok().map(Target::position);
    check_changes(cache, &theirs, at, c.policy.len())?;
    if let Some(i) = at {
        theirs.table[i].padding = ours.table[i].padding; // unspecified in this entry alone
    }
    if ours != theirs {
        return Err(first_difference(&ours, &theirs));
    }
    *cache = theirs;
    Ok(answer.0)
}

/// Asks both for the same call on the same cache, which becomes what they made of it.
pub fn ask(lender: &mut Lender, cache: &mut Cache, call: &Call, place: Place, say: bool, counts: &mut Counts) -> Asked {
    if say {
        println!("  {}", arguments::cache_call(call));
    }
    match call {
        Call::Lookup { clock, domain } => look_up(lender, cache, *clock, domain, place, counts),
        Call::Store(c) => store(lender, cache, c, place, counts),
    }
    .map_err(|what| format!("{}\n  {place:?}: {what}", arguments::cache_call(call)))
}

// ------------------------------------------------------------------------------------------------------------------- cases

/// A call on a table of any sort.
fn single(lender: &mut Lender, r: &mut Random, say: bool, counts: &mut Counts) -> Result<(), String> {
    let (domains, lasting) = (*r.pick(&[3, 10, 100]), r.once_in(3));
    let pool = Pool::new(r, domains, lasting);
    let mut cache = caches::cache(r, &pool);
    if r.once_in(30) {
        caches::resize(r, &mut cache);
    }
    let (call, place) = (caches::call(r, &pool), Place::random(r));
    if say {
        print!("{}", arguments::cache(&cache));
    }
    ask(lender, &mut cache, &call, place, say, counts).map(drop)
}

/// Calls on one table, mostly from an empty one, with clocks that mostly rise; between them entries are damaged.
fn history(lender: &mut Lender, r: &mut Random, say: bool, counts: &mut Counts) -> Result<(), String> {
    let (many, lasting) = (r.once_in(3), r.once_in(2));
    let domains = if many { r.between(66, 90) } else { r.between(2, 8) };
    let mut pool = Pool::new(r, domains, lasting);
    let mut cache = if r.once_in(3) { caches::cache(r, &pool) } else { Cache::zero() };
    let damages = r.once_in(2);
    for step in 0..if many { 200 } else { 40 } {
        let far = *r.pick(&[0, 0, 0, 1, 1, 50, 99, 100, 101, if many { 2 } else { 31_557_600 }]);
        pool.clock = (pool.clock + far).min(LAST_CLOCK);
        if r.once_in(40) {
            pool.clock = pool.clock.saturating_sub(r.between(1, 200) as u64);
        }
        // Each domain of a large pool in turn, so that the table fills.
        let first = if many { step % pool.domains.len() } else { r.below(pool.domains.len()) };
        pool.domains.swap(0, first);
        let (call, place) = (caches::call(r, &pool), Place::random(r));
        pool.domains.swap(0, first);
        if damages && r.once_in(6) {
            let i = r.below(ENTRIES);
            caches::damage_entry(r, &mut cache, i);
        }
        if r.once_in(40) {
            let mut other = cache.clone();
            caches::resize(r, &mut other);
            ask(lender, &mut other, &call, place, say, counts)?;
        }
        ask(lender, &mut cache, &call, place, say, counts)?;
    }
    Ok(())
}

type Case = fn(&mut Lender, &mut Random, bool, &mut Counts) -> Result<(), String>;
const PARTS: [(&str, Case); 2] = [("cache", single), ("histories", history)];

pub fn is_part(title: &str) -> bool {
    PARTS.iter().any(|(part, _)| *part == title)
}

fn run_case(lender: &mut Lender, seed: u64, part: usize, case: u64, say: bool, counts: &mut Counts) {
    let (title, run) = PARTS[part];
    boundary::CURRENT.with(|c| c.set((seed, title, case)));
    let mut r = Random::new(seed, 5 + part as u64, case);
    let run = std::panic::AssertUnwindSafe(|| run(lender, &mut r, say, counts));
    let failed = match std::panic::catch_unwind(run) {
        Ok(Ok(())) => return,
        Ok(Err(what)) => what,
        Err(_) => String::from("(see above)"),
    };
    println!("DIFFERENCE\nseed {seed} call {title} case {case}\n  {failed}");
    std::process::exit(1);
}

/// A single case, with its calls.
pub fn run_only(lender: &mut Lender, seed: u64, title: &str, case: u64) {
    let part = PARTS.iter().position(|(part, _)| *part == title).expect("a part");
    run_case(lender, seed, part, case, true, &mut Counts::default());
}

/// One single call, without a word.
pub fn run_one(lender: &mut Lender, seed: u64, case: u64) {
    run_case(lender, seed, 0, case, false, &mut Counts::default());
}

/// So many single calls, and histories; how many cases that were.
pub fn run(lender: &mut Lender, seed: u64, calls: u64, histories: u64) -> u64 {
    for (part, cases) in [calls, histories].into_iter().enumerate() {
        let begun = Instant::now();
        let mut counts = Counts::default();
        (0..cases).for_each(|case| run_case(lender, seed, part, case, false, &mut counts));
        println!("{}: {cases} cases in {:.1} s", PARTS[part].0, begun.elapsed().as_secs_f64());
        counts.report();
    }
    calls + histories
}
