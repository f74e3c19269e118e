//! Document 02's No. 8, set by set: every ordered set of up to four records of all usages, selectors and matching types that can
//! be used, which match or don't; then sets with records that are near a type 2 and no usable one, and sets of up to 32 records
//! with a type 2 and a type 1 that matches at each place. What each has to answer is worked out from how its records were made,
//! without a look at their bytes; the library and the rules are held to it, by both entries.

use crate::arguments;
use crate::boundary::{self, Lender, Place};
use crate::certificate_examples::shown;
use crate::digests::{answer_of, PAIRS};
use crate::inputs::list;
use crate::leaves;
use crate::random::Random;
use crate::Table;
use independent_rules::certificate;
use independent_rules::rules::{self, HostAnswer, HostCall, TlsaAnswer};
use std::time::Instant;

/// How a record is made: of what a certificate has for selector and type, or that with its last bit changed, and perhaps cut or
/// filled up to another size. Whether it can be used is said by who makes it.
#[derive(Clone, Copy, PartialEq, Debug)]
struct Sort {
    head: [u8; 3],
    size: Option<usize>,
    matches: bool,
    usable: bool,
}

impl Sort {
    fn usable(pair: [u8; 2], kind: u8, matches: bool) -> Sort {
        Sort { head: [pair[0], pair[1], kind], size: None, matches, usable: true }
    }

    /// Of the data of a type 2 that matches, cut or filled up.
    fn unusable(head: [u8; 3], size: usize) -> Sort {
        Sort { head, size: Some(size), matches: true, usable: false }
    }

    fn is_of(&self, other: &Sort) -> bool {
        self.head[..2] == other.head[..2]
    }
}

/// Where a set stands: in the only answer, in the first of two or in the second.
#[derive(Clone, Copy, PartialEq, Debug)]
enum At {
    Alone,
    First,
    Second,
}

/// What a set is met with: whether the path to the certificate after the leaf verifies, whether the leaf names the host, and
/// whether there is a live enforce policy for the host.
#[derive(Clone, Copy, Debug)]
struct Scene {
    path: bool,
    named: bool,
    policy: bool,
    at: At,
}

const SCENES: usize = 2 * 2 * 2 * 3;

impl Scene {
    fn number(i: usize) -> Scene {
        Scene { path: i & 1 == 0, named: i & 2 == 0, policy: i & 4 != 0, at: [At::Alone, At::First, At::Second][i / 8] }
    }
}

/// The answer to a set; `agile` is false for what it would be if no record were ignored.
fn expected(set: &[Sort], scene: Scene, agile: bool) -> HostAnswer {
    let strong = |one: &Sort| set.iter().any(|other| other.usable && other.head[2] == 2 && other.is_of(one));
    // "among usable records of the same usage and selector, type 1 is ignored if a type 2 is present; type 0 always counts"
    let counts = |one: &Sort| one.usable && !(agile && one.head[2] == 1 && strong(one));
    let reached = |one: &Sort| one.head[0] == 3 || (scene.path && scene.named);
    let dane = set.iter().any(|one| counts(one) && one.matches && reached(one));
    let number = match (set.iter().any(|one| one.usable), scene.policy) {
        (true, _) if !dane => 26,
        (_, true) if !scene.named => 27,
        (true, true) => 5,
        (true, false) => 3,
        (false, true) => 4,
        (false, false) => 2,
    };
    (number, if scene.at == At::Second { 2 } else { 1 })
}

/// The calls of both entries for each scene, and what was answered.
struct Sets<'a> {
    lender: &'a mut Lender,
    calls: Vec<[HostCall; 2]>,
    seed: u64,
    r: Random,
    asked: u64,
    by_ignoring: u64,
    table: Table,
}

/// Digests of their own for each certificate and form.
fn digests() -> Vec<u8> {
    (0..2 * 192).map(|i| (i * 7 % 251) as u8).collect()
}

/// Records of type 2 for every usage and selector, which match nothing: of an answer whose set isn't taken.
fn other_set() -> TlsaAnswer {
    let records: Vec<Vec<u8>> = PAIRS.iter().map(|pair| [&pair[..], &[2], &[9; 64]].concat()).collect();
    answer_of(&records)
}

/// The call by the leaf, without the set. Two answers are at the expanded name, which is the host itself, and at the host.
fn call_of(scene: Scene) -> HostCall {
    let name: &[u8] = if scene.named { b"mail.example.com" } else { b"mail.example.org" };
    let mut call = shown(&[name], None);
    call.digests = digests();
    call.paths = list(&[2, if scene.path { 1 } else { 2 }]);
    call.policy_given = if scene.policy { 1 } else { 2 };
    if scene.at != At::Alone {
        (call.address, call.expanded, call.tlsa_answers) = (3, call.host.clone(), 2);
        call.tlsa = [other_set(), other_set()];
    }
    if scene.at == At::Second {
        call.tlsa[0].result = 2;
    }
    call
}

/// The same by the facts of the leaf, then by the leaf.
fn both_entries(scene: Scene) -> [HostCall; 2] {
    let call = call_of(scene);
    let facts = certificate::leaf_of(&call).and_then(|leaf| certificate::leaf_facts(leaf).ok()).expect("a leaf");
    [leaves::plain(&call, Some(&facts)), call]
}

/// What the certificate of this number has for selector and type: all of it, or its key info, or a digest.
fn form(call: &HostCall, certificate: usize, selector: u8, kind: u8) -> &[u8] {
    let number = |list: &[u8], i: usize| list[4 * i..4 * i + 4].iter().fold(0, |n, &byte| 256 * n + byte as usize);
    let start = if certificate == 0 { 0 } else { number(&call.certificate_lengths, 0) };
    let length = number(&call.certificate_lengths, certificate);
    let place = |i: usize| number(&call.key_places, 2 * certificate + i);
    let digests = &call.digests[192 * certificate + 96 * selector as usize..];
    match (selector, kind) {
        (_, 1) => &digests[..32],
        (_, 2) => &digests[32..96],
        (0, _) => &call.certificates[start..start + length],
        _ => &call.certificates[start + place(0)..start + place(0) + place(1)],
    }
}

/// The bytes of a record, of the plain call.
fn record(call: &HostCall, sort: &Sort) -> Vec<u8> {
    let [usage, selector, kind] = sort.head;
    let (certificate, kind_of_data) = (if usage == 2 { 1 } else { 0 }, if sort.usable { kind } else { 2 });
    let mut record = [&sort.head[..], form(call, certificate, selector.min(1), kind_of_data)].concat();
    if let Some(size) = sort.size {
        record.resize(3 + size, 0);
    }
    if let (false, Some(last)) = (sort.matches, record.last_mut()) {
        *last ^= 1;
    }
    record
}

impl Sets<'_> {
    fn fail(&self, set: &[Sort], scene: Scene, call: &HostCall, answers: [HostAnswer; 3]) -> ! {
        let [wanted, ours, theirs] = answers;
        println!("DIGEST SETS: {scene:?}\n{}", arguments::host(call));
        set.iter().for_each(|sort| println!("  {sort:?}"));
        println!("  wanted {wanted:?}, rules {ours:?}, library {theirs:?}");
        std::process::exit(1)
    }

    /// A set in a scene, by the plain entry (0) or by the leaf (1).
    fn ask(&mut self, set: &[Sort], i: usize, entry: usize) {
        boundary::CURRENT.with(|c| c.set((self.seed, "digest sets", self.asked)));
        let (scene, place) = (Scene::number(i), Place::random(&mut self.r));
        let records: Vec<Vec<u8>> = set.iter().map(|sort| record(&self.calls[i][0], sort)).collect();
        let call = &mut self.calls[i][entry];
        call.tlsa[if scene.at == At::Second { 1 } else { 0 }] = answer_of(&records);
        let (ours, theirs) = if entry == 0 {
            (rules::judge_host(call), self.lender.judge_host(call, place))
        } else {
            (certificate::judge_host_certificate(call), self.lender.judge_host_certificate(call, place))
        };
        let wanted = expected(set, scene, true);
        if [ours, theirs] != [wanted; 2] {
            self.fail(set, scene, &self.calls[i][entry], [wanted, ours, theirs]);
        }
        self.asked += 1;
        self.by_ignoring += (expected(set, scene, false) != wanted) as u64;
        *self.table.entry(wanted.0).or_insert(0) += 1;
    }

    /// In every scene, by both entries.
    fn ask_everywhere(&mut self, set: &[Sort]) {
        (0..SCENES).for_each(|i| (0..2).for_each(|entry| self.ask(set, i, entry)));
    }

    /// In one scene, by one entry.
    fn ask_somewhere(&mut self, set: &[Sort]) {
        let (i, entry) = (self.r.below(SCENES), self.r.below(2));
        self.ask(set, i, entry);
    }

    /// Every ordered set of so many of these.
    fn each(&mut self, sorts: &[Sort], size: u32, ask: fn(&mut Self, &[Sort])) {
        for i in 0..sorts.len().pow(size) {
            let set: Vec<Sort> = (0..size).map(|k| sorts[i / sorts.len().pow(k) % sorts.len()]).collect();
            ask(self, &set);
        }
    }

    /// A part, with how many sets of it an ignored record decides.
    fn part(&mut self, title: &str, run: impl Fn(&mut Self)) {
        let (begun, asked, by_ignoring) = (Instant::now(), self.asked, self.by_ignoring);
        run(self);
        let (asked, by_ignoring) = (self.asked - asked, self.by_ignoring - by_ignoring);
        let seconds = begun.elapsed().as_secs_f64();
        println!("  {title}: {asked} cases, {by_ignoring} of them 26 by what is ignored, in {seconds:.1} s");
        if by_ignoring * 1_000 < asked {
            println!("FAILED: too few of them");
            std::process::exit(1);
        }
    }
}

/// Every record that can be used, which matches or not, and a type 2 of 63 bytes of every usage and selector.
fn all_sorts() -> Vec<Sort> {
    let usable = |pair| (0..=2).flat_map(move |kind| [true, false].map(|matches| Sort::usable(pair, kind, matches)));
    let short = |pair: [u8; 2]| [true, false].map(|matches| Sort { matches, ..Sort::unusable([pair[0], pair[1], 2], 63) });
    PAIRS.into_iter().flat_map(|pair| usable(pair).chain(short(pair))).collect()
}

/// Records of one usage and selector, and those that are near its type 2.
fn near_sorts(pair: [u8; 2]) -> Vec<Sort> {
    let [usage, selector] = pair;
    let usable = [(0, false), (1, true), (1, false), (2, true), (2, false)];
    let mut sorts = usable.map(|(kind, matches)| Sort::usable(pair, kind, matches)).to_vec();
    sorts.extend([0, 1, 32, 63, 65, 128].map(|size| Sort::unusable([usage, selector, 2], size)));
    sorts.extend([0, 1, 4, 130, 255].map(|usage| Sort::unusable([usage, selector, 2], 64)));
    sorts.extend([2, 3, 128, 255].map(|selector| Sort::unusable([usage, selector, 2], 64)));
    sorts.extend([3, 4, 130, 255].map(|kind| Sort::unusable([usage, selector, kind], 64)));
    sorts.push(Sort::unusable([usage, selector, 1], 64));
    sorts.extend([Sort::usable([5 - usage, selector], 2, false), Sort::usable([usage, 1 - selector], 2, false)]);
    sorts
}

/// Sets of so many records of type 1 that match nothing, with one of these and a type 1 that matches at each two places.
fn long_sets(sets: &mut Sets, pair: [u8; 2], size: usize) {
    let strong = Sort::usable(pair, 2, false);
    let others = [
        strong,
        Sort { matches: true, ..strong },
        Sort::unusable(strong.head, 63),
        Sort::usable([5 - pair[0], pair[1]], 2, false),
        Sort::usable([pair[0], 1 - pair[1]], 2, false),
    ];
    for (i, k) in (0..size * size).map(|both| (both / size, both % size)).filter(|(i, k)| i != k) {
        for other in others {
            let mut set = vec![Sort::usable(pair, 1, false); size];
            (set[i], set[k]) = (other, Sort::usable(pair, 1, true));
            sets.ask_somewhere(&set);
        }
    }
}

/// All parts; how many sets were asked.
pub fn run(lender: &mut Lender, seed: u64) -> u64 {
    let calls = (0..SCENES).map(|i| both_entries(Scene::number(i))).collect();
    let r = Random::new(seed, 20, 0);
    let mut sets = Sets { lender, calls, seed, r, asked: 0, by_ignoring: 0, table: Table::new() };
    println!("sets of records with several digests:");
    let sorts = all_sorts();
    sets.part("every set of 1 to 3 records", |sets| (1..=3).for_each(|size| sets.each(&sorts, size, Sets::ask_everywhere)));
    sets.part("every set of 4 records", |sets| sets.each(&sorts, 4, Sets::ask_somewhere));
    sets.part("sets with records near a type 2", |sets| {
        for pair in PAIRS {
            (1..=2).for_each(|size| sets.each(&near_sorts(pair), size, Sets::ask_everywhere));
            sets.each(&near_sorts(pair), 3, Sets::ask_somewhere);
        }
    });
    sets.part("sets of up to 32 records", |sets| {
        for size in [2, 3, 8, 9, 16, 17, 31, 32] {
            PAIRS.into_iter().for_each(|pair| long_sets(sets, pair, size));
        }
    });
    let counts: Vec<String> = sets.table.iter().map(|(number, count)| format!("{number}: {count}")).collect();
    println!("  answers {}", counts.join(", "));
    if sets.table.keys().ne(&[2, 3, 4, 5, 26, 27]) {
        println!("FAILED: not the answers 2, 3, 4, 5, 26 and 27");
        std::process::exit(1);
    }
    sets.asked
}
