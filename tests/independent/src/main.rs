//! Differential tests: the library's C boundary against an independent writing of the rules of documents 01 and 02.
//!
//! independent [CASES [SEED]]: CASES inputs for each call (2,500,000 unless given; environment INDEPENDENT_CASES), fewer for the
//! cache, for policies that are written and for certificates, from SEED (environment INDEPENDENT_SEED). INDEPENDENT_ONLY=CALL:CASE
//! runs a single case (CALL: txt, policy, host, message, write_txt, write_policy, rewrite_policy, certificate, host_certificate,
//! lengths, cache, histories) and prints it, with what both answer.

mod arguments;
mod boundary;
mod caches;
mod certificate_examples;
mod certificates;
mod claims;
mod completions;
mod digest_examples;
mod digest_sets;
mod digests;
mod examples;
mod faults;
mod histories;
mod inputs;
mod leaves;
mod lengths;
mod next_hops;
mod publications;
mod publishing;
mod random;
mod round_trips;
mod trees;
mod versions;

use boundary::{Lender, Place};
use faults::Faults;
use independent_rules::rules;
use next_hops::NextHops;
use publishing::Ways;
use random::Random;
use std::collections::BTreeMap;
use std::fmt::Debug;
use std::panic::AssertUnwindSafe;
use std::time::Instant;

const CALLS: [&str; 9] =
    ["txt", "policy", "host", "message", "write_txt", "write_policy", "rewrite_policy", "certificate", "host_certificate"];
const HOST_CERTIFICATE_ANSWERS: [u64; 35] = [
    1, 2, 3, 4, 5, 10, 11, 12, 13, 14, 20, 21, 22, 23, 24, 25, 26, 27, 28, 50, 52, 53, 54, 55, 56, 57, 60, 61, 62, 64, 65, 66, 67,
    90, 91,
];
const ANSWERS: [&[u64]; 9] = [
    &[6, 40, 41, 42, 43, 44],
    &[7, 50, 52, 53, 54, 55, 56, 57],
    &[
        1, 2, 3, 4, 5, 10, 11, 12, 13, 14, 20, 21, 22, 23, 24, 25, 26, 27, 28, 50, 52, 53, 54, 55, 56, 57, 60, 61, 62, 64, 65, 66,
        67,
    ],
    &[1, 2, 3, 4, 5, 8, 30, 31, 63, 67],
    &[15, 80, 83],
    &[15, 67, 81, 82, 83],
    &[15, 50, 52, 53, 54, 55, 56, 57, 81, 83],
    &[15, 83, 90, 91],
    &HOST_CERTIFICATE_ANSWERS,
];
/// The random stream of each call. The others are of the tests that are no single call.
const STREAMS: [u64; 9] = [0, 1, 2, 3, 8, 9, 10, 14, 18];
/// Of the cases that are asked for, a call gets one in so many.
const ONE_IN: [u64; 9] = [1, 1, 1, 1, 1, 4, 4, 5, 10];
/// Of so many cases each answer of a call has to come, each fault of a policy in every place, each fault of a certificate, and each
/// way of the expanded next-hop, of the version, of several digests, of the calls that write and of those that read a certificate.
const MANY: u64 = 100_000;
const THREADS: u64 = 2;

/// What a case ended in: the library's answer number, whether the two agree, and what to print of it.
struct Outcome {
    number: u64,
    same: bool,
    text: Box<dyn Fn() -> String>,
}

fn outcome<T: Debug + PartialEq + 'static>(number: u64, ours: T, theirs: T, arguments: impl Fn() -> String + 'static) -> Outcome {
    let same = ours == theirs;
    Outcome { number, same, text: Box::new(move || format!("{}\n  rules   {ours:?}\n  library {theirs:?}", arguments())) }
}

fn run_case(lender: &mut Lender, seed: u64, call: usize, case: u64, seen: &mut Seen) -> Outcome {
    let mut r = Random::new(seed, STREAMS[call], case);
    let place = Place::random(&mut r);
    match call {
        0 => {
            let (rdatas, lengths, output) = inputs::txt(&mut r);
            let (mut ours_output, mut theirs_output) = (output.clone(), output.clone());
            let ours = rules::read_txt(&rdatas, &lengths, &mut ours_output);
            let theirs = lender.read_txt(&rdatas, &lengths, &mut theirs_output, place);
            let (a, b) = ((ours, ours_output), (theirs, theirs_output));
            outcome(theirs.0, a, b, move || arguments::txt(&rdatas, &lengths, &output))
        }
        1 => {
            let body = inputs::policy(&mut r);
            let ours = rules::read_policy(&body);
            let theirs = lender.read_policy(&body, place);
            seen.faults.count(&body, &ours);
            outcome(theirs.number, ours, theirs, move || arguments::policy(&body))
        }
        2 => {
            let c = inputs::host(&mut r);
            let ours = rules::judge_host(&c);
            let theirs = lender.judge_host(&c, place);
            seen.next_hops.count(&c, ours.0);
            seen.ways.count(&[&versions::ways(&c, ours.0)[..], &digests::ways(&c, rules::judge_host, ours)].concat());
            outcome(theirs.0, ours, theirs, move || arguments::host(&c))
        }
        3 => {
            let (lookup, preferences, verdicts) = inputs::message(&mut r);
            let ours = rules::next_host(lookup, &preferences, &verdicts);
            let theirs = lender.next_host(lookup, &preferences, &verdicts, place);
            outcome(theirs.0, ours, theirs, move || arguments::message(lookup, &preferences, &verdicts))
        }
        4 => publishing::write_txt(lender, &mut r, place, &mut seen.ways),
        5 => publishing::write_policy(lender, &mut r, place, &mut seen.ways),
        6 => publishing::rewrite_policy(lender, &mut r, place, &mut seen.ways),
        7 => certificates::read_certificate(lender, &mut r, place, &mut seen.certificates),
        _ => leaves::judge(lender, &mut r, place, &mut seen.ways),
    }
}

type Table = BTreeMap<u64, u64>;

/// How often each answer number of a call came, where the lines that offend stood, what hung on the expanded next-hop, what was
/// wrong with certificates, and the ways of the version, of several digests, of a call that writes or of one that reads the leaf.
#[derive(Default)]
struct Seen {
    numbers: Table,
    faults: Faults,
    next_hops: NextHops,
    certificates: certificates::Seen,
    ways: Ways,
}

impl Seen {
    /// Prints them. What never came was not tested; of a few cases that is no failure.
    fn report(&self, call: usize, cases: u64) {
        for (number, count) in &self.numbers {
            println!("  answer {number:2}: {count}");
        }
        let mut missing = ANSWERS[call].iter().find(|n| !self.numbers.contains_key(n)).map(|n| n.to_string());
        if CALLS[call] == "policy" {
            self.faults.report();
            missing = missing.or(self.faults.missing());
        }
        if CALLS[call] == "host" {
            self.next_hops.report();
            missing = missing.or(self.next_hops.missing(cases));
        }
        if CALLS[call] == "certificate" {
            self.certificates.report();
            missing = missing.or(self.certificates.missing(cases));
        }
        self.ways.report();
        missing = missing.or(self.ways.missing(cases));
        if let Some(missing) = missing.filter(|_| cases >= MANY) {
            println!("FAILED: too few cases gave {missing}");
            std::process::exit(1);
        }
    }
}

fn report(seed: u64, call: usize, case: u64, o: &Outcome) {
    println!("seed {seed} call {} case {case}", CALLS[call]);
    println!("{}", (o.text)());
}

/// The cases of one call; a difference ends the program.
fn run(lender: &mut Lender, seed: u64, call: usize, cases: std::ops::Range<u64>, seen: &mut Seen) {
    for case in cases {
        boundary::CURRENT.with(|c| c.set((seed, CALLS[call], case)));
        let o = std::panic::catch_unwind(AssertUnwindSafe(|| run_case(lender, seed, call, case, seen))).unwrap_or_else(|_| {
            println!("FAILED: seed {seed} call {} case {case}", CALLS[call]);
            std::process::exit(1)
        });
        if !o.same {
            println!("DIFFERENCE");
            report(seed, call, case, &o);
            std::process::exit(1);
        }
        *seen.numbers.entry(o.number).or_insert(0) += 1;
    }
}

fn setting(at: usize, variable: &str, default: u64) -> u64 {
    match std::env::args().nth(at).or_else(|| std::env::var(variable).ok()) {
        None => default,
        Some(s) => s.parse().unwrap_or_else(|_| {
            eprintln!("independent: {s:?} is no number");
            std::process::exit(2)
        }),
    }
}

fn main() {
    let cases = setting(1, "INDEPENDENT_CASES", 2_500_000);
    let seed = setting(2, "INDEPENDENT_SEED", 7672_8461);
    boundary::report_faults();
    let mut lender = Lender::new();
    println!("independent: seed {seed}, {cases} cases a call");
    if let Ok(only) = std::env::var("INDEPENDENT_ONLY") {
        let (call, case) = only.split_once(':').expect("CALL:CASE");
        let case = case.parse().expect("a case number");
        if call == "lengths" {
            lengths::run(&mut lender, Some(case));
            return;
        }
        if histories::is_part(call) {
            histories::run_only(&mut lender, seed, call, case);
            return;
        }
        let known = || panic!("a call: {}, lengths, cache or histories", CALLS.join(", "));
        let call = CALLS.iter().position(|c| *c == call).unwrap_or_else(known);
        report(seed, call, case, &run_case(&mut lender, seed, call, case, &mut Seen::default()));
        return;
    }
    let (mut passed, hosts) = examples::run(&mut lender);
    println!("{passed} fixed examples passed");
    passed += lengths::run(&mut lender, None);
    for (call, title) in CALLS.iter().enumerate() {
        let (begun, mut seen, cases) = (Instant::now(), Seen::default(), cases / ONE_IN[call]);
        run(&mut lender, seed, call, 0..cases, &mut seen);
        passed += cases;
        println!("{title}: {cases} cases in {:.1} s", begun.elapsed().as_secs_f64());
        seen.report(call, cases);
    }
    // A cache's case takes a hundred times as long as another. So few that an answer never comes would test nothing.
    passed += histories::run(&mut lender, seed, (cases / 25).max(5_000), (cases / 1_000).max(400));
    passed += claims::run(&mut lender, seed, (cases / 5_000).max(300));
    passed += round_trips::run(&mut lender, seed, (cases / 25).max(5_000));
    passed += versions::run(&mut lender, seed, (cases / 10).max(100_000), &hosts);
    passed += digest_sets::run(&mut lender, seed);
    passed += digests::run(&mut lender, seed, (cases / 10).max(100_000));
    passed += certificates::run(&mut lender, seed);
    passed += leaves::run(&mut lender, seed, (cases / 25).max(50_000));
    let begun = Instant::now();
    let mut table = Table::new();
    let some = cases / 4;
    for case in 0..some {
        boundary::CURRENT.with(|c| c.set((seed, "completions", case)));
        match completions::run_case(&mut lender, seed, case) {
            Ok(number) => *table.entry(number).or_insert(0) += 1,
            Err(what) => {
                println!("COMPLETION: seed {seed} case {case}: {what}");
                std::process::exit(1);
            }
        }
    }
    passed += some;
    println!("completions of host calls: {some} cases in {:.1} s", begun.elapsed().as_secs_f64());
    for (number, count) in &table {
        println!("  answer {number:2}: {count}");
    }
    if let Some(missing) = ANSWERS[2].iter().find(|number| !table.contains_key(number)).filter(|_| some >= MANY) {
        println!("FAILED: too few cases gave {missing}");
        std::process::exit(1);
    }
    // Two threads at once, each with its own memory and generator.
    let begun = Instant::now();
    let each = cases / 20;
    let threads: Vec<_> = (1..=THREADS)
        .map(|t| {
            std::thread::spawn(move || {
                let (mut lender, mut passed) = (Lender::new(), 0);
                for block in 0..each / 100 {
                    for call in 0..CALLS.len() {
                        let some = 100 / ONE_IN[call];
                        run(&mut lender, seed.wrapping_add(t), call, block * some..(block + 1) * some, &mut Seen::default());
                        passed += some;
                    }
                    histories::run_one(&mut lender, seed.wrapping_add(t), block);
                    passed += 1;
                }
                passed
            })
        })
        .collect();
    for t in threads {
        passed += t.join().unwrap_or_else(|_| std::process::exit(1));
    }
    println!("{THREADS} threads at once: {:.1} s", begun.elapsed().as_secs_f64());
    println!("independent: {passed} passed, 0 failed");
}
