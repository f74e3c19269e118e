//! Every length from 0 to 72 of what the library may look at several bytes at a time: the value of a policy's line and of a TXT
//! field, names, certificates and key infos compared whole, the domains of a cache, and ids and patterns that are written. Each is
//! asked as it is right and with another byte, or a few, at each place. Then the lines of a policy that offend, at each place among
//! others and after lines of each length, and outputs of each length. An input is lent on every side (`Place::each`), and the
//! answer must be the same on all of them; only a cache, which is long, is lent on one side.

use crate::arguments::Shown;
use crate::boundary::{self, Lender, Place, PolicyCall, StoreCall};
use crate::caches::{Cache, Call};
use crate::examples::{one_record, plain};
use crate::inputs::{lengths_of, list, EDGES, LETTERS, UTF8_EDGES};
use crate::random::Random;
use crate::{arguments, histories, Table};
use independent_rules::cache::ENTRIES;
use independent_rules::publish::{self, WriteAnswer};
use independent_rules::rules::{self, HostCall, TlsaAnswer};
use std::fmt::Debug;
use std::panic::AssertUnwindSafe;
use std::time::Instant;

const LONGEST: usize = 72;

struct Check<'a> {
    lender: &'a mut Lender,
    only: Option<u64>,
    inputs: u64,
    calls: u64,
    table: Table,
}

impl Check<'_> {
    /// Counts an input. Whether it is to be asked.
    fn begins(&mut self) -> bool {
        self.inputs += 1;
        boundary::CURRENT.with(|c| c.set((0, "lengths", self.inputs)));
        self.only.map_or(true, |only| only == self.inputs)
    }

    /// Asks the rules once and the library on every side, and compares all that they answer.
    fn ask<T: Debug + PartialEq>(
        &mut self,
        arguments: impl Fn() -> String,
        ours: impl Fn() -> T,
        theirs: impl Fn(&mut Lender, Place) -> T,
        number: impl Fn(&T) -> u64,
    ) {
        if !self.begins() {
            return;
        }
        let ours = ours();
        if self.only.is_some() {
            println!("{}\n  rules   {ours:?}", arguments());
        }
        for place in Place::each(self.inputs) {
            let theirs = theirs(self.lender, place);
            if theirs != ours {
                println!("DIFFERENCE\nlengths case {}, {place:?}\n{}", self.inputs, arguments());
                println!("  rules   {ours:?}\n  library {theirs:?}");
                std::process::exit(1);
            }
            self.calls += 1;
        }
        *self.table.entry(number(&ours)).or_insert(0) += 1;
    }

    fn policy(&mut self, body: &[u8]) {
        self.ask(
            || arguments::policy(body),
            || rules::read_policy(body),
            |lender, place| lender.read_policy(body, place),
            |answer| answer.number,
        );
    }

    /// The output is filled with one byte, which changes with the cases, as its size does.
    fn txt(&mut self, records: &[Vec<u8>], text_length: usize) {
        let (rdatas, lengths) = (records.concat(), list(&lengths_of(records)));
        let case = self.inputs as usize;
        let output = vec![b"a;= 9\0\x80"[case % 7]; text_length + [0, 0, 1, 9][case % 4]];
        let with_output = |read: &mut dyn FnMut(&mut [u8]) -> rules::TxtAnswer| {
            let mut output = output.clone();
            (read(&mut output), output)
        };
        self.ask(
            || arguments::txt(&rdatas, &lengths, &output),
            || with_output(&mut |output| rules::read_txt(&rdatas, &lengths, output)),
            |lender, place| with_output(&mut |output| lender.read_txt(&rdatas, &lengths, output, place)),
            |(answer, _)| answer.0,
        );
    }

    /// The text as one record, in one character string or cut in two.
    fn text(&mut self, text: &[u8]) {
        let cut = if self.inputs % 2 == 0 { 0 } else { self.inputs as usize % (text.len() + 1) };
        let (a, b) = text.split_at(cut);
        self.txt(&[strings(&[a, b])], text.len());
    }

    fn host(&mut self, call: &HostCall) {
        self.ask(
            || arguments::host(call),
            || rules::judge_host(call),
            |lender, place| lender.judge_host(call, place),
            |answer| answer.0,
        );
    }

    /// A call that writes, with an output of this size, filled with one byte, which changes with the cases.
    fn write(
        &mut self,
        room: usize,
        inputs: impl Fn() -> String,
        ours: impl Fn(&mut [u8]) -> WriteAnswer,
        theirs: impl Fn(&mut Lender, &mut [u8], Place) -> WriteAnswer,
    ) {
        let output = vec![b"a:\n 9\0\x80"[self.inputs as usize % 7]; room];
        let with_output = |write: &mut dyn FnMut(&mut [u8]) -> WriteAnswer| {
            let mut output = output.clone();
            (write(&mut output), Shown(output))
        };
        self.ask(
            || [inputs(), arguments::shown("output", &output)].concat(),
            || with_output(&mut |output| ours(output)),
            |lender, place| with_output(&mut |output| theirs(lender, output, place)),
            |(answer, _)| answer.0,
        );
    }

    fn write_txt(&mut self, id: &[u8], room: usize) {
        let theirs = |lender: &mut Lender, output: &mut [u8], place| lender.write_txt(id, output, place);
        self.write(room, || arguments::shown("id", id), |output| publish::write_txt(id, output), theirs);
    }

    fn write_policy(&mut self, c: &PolicyCall, room: usize) {
        let ours = |output: &mut [u8]| publish::write_policy(c.mode, c.lifetime, &c.patterns, &c.pattern_lengths, output);
        let theirs = |lender: &mut Lender, output: &mut [u8], place| lender.write_policy(c, output, place);
        self.write(room, || arguments::policy_call(c), ours, theirs);
    }

    fn rewrite_policy(&mut self, body: &[u8], room: usize) {
        let theirs = |lender: &mut Lender, output: &mut [u8], place| lender.rewrite_policy(body, output, place);
        self.write(room, || arguments::shown("body", body), |output| publish::rewrite_policy(body, output), theirs);
    }

    /// Read and rewritten; for a few there is too little room.
    fn policy_and_rewriting(&mut self, body: &[u8]) {
        self.policy(body);
        let room = if self.inputs % 5 == 0 { 40 } else { 110 };
        self.rewrite_policy(body, room);
    }

    /// A call on one of the caches, in which some entry has a live policy, and these bytes at the front of its domain's field. The
    /// case's number decides which cache and entry, and on which side they are lent.
    fn cache(&mut self, caches: &[Cache], field: &[u8], call: &Call) {
        if !self.begins() {
            return;
        }
        let mut r = Random::new(0, 0, self.inputs);
        let (mut cache, say) = (r.pick(caches).clone(), self.only.is_some());
        cache.put(r.below(ENTRIES), field, b"held", plain().clock, LIVE);
        if say {
            print!("{}", arguments::cache(&cache));
        }
        let place = Place::random(&mut r);
        match histories::ask(self.lender, &mut cache, call, place, say, &mut Default::default()) {
            Ok(number) => *self.table.entry(number).or_insert(0) += 1,
            Err(what) => {
                println!("DIFFERENCE\nlengths case {}, held {}\n{what}", self.inputs, field.escape_ascii());
                std::process::exit(1);
            }
        }
        self.calls += 1;
    }

    /// A part of the test; answers of these numbers must be among its own.
    fn part(&mut self, title: &str, answers: &[u64], part: fn(&mut Check)) {
        let (begun, inputs) = (Instant::now(), self.inputs);
        self.table.clear();
        part(self);
        if self.only.is_some() {
            return;
        }
        let table: Vec<String> = self.table.iter().map(|(number, count)| format!("{number}: {count}")).collect();
        let (inputs, seconds) = (self.inputs - inputs, begun.elapsed().as_secs_f64());
        println!("  {title}: {inputs} inputs in {seconds:.1} s; answers {}", table.join(", "));
        if let Some(missing) = answers.iter().find(|number| !self.table.contains_key(number)) {
            println!("FAILED: no input gave {missing}");
            std::process::exit(1);
        }
    }
}

// ------------------------------------------------------------------------------------------------------------------- pieces

/// Letters and digits, beginning elsewhere for each length.
fn letters(n: usize) -> Vec<u8> {
    LETTERS.iter().copied().cycle().skip(n % LETTERS.len()).take(n).collect()
}

/// A name of this length: one label (too long from 64 on), or labels of this size.
fn name(n: usize, label: usize) -> Vec<u8> {
    let mut name = letters(n);
    for at in (label..n).step_by(label + 1) {
        if at + 1 < n {
            name[at] = b'.';
        }
    }
    name
}

/// The piece stands in the place of what was there, and doesn't pass the end.
fn replaced(s: &[u8], at: usize, piece: &[u8]) -> Vec<u8> {
    let n = piece.len().min(s.len() - at);
    [&s[..at], &piece[..n], &s[at + n..]].concat()
}

/// The bytes themselves, then with each of the pieces at each place.
fn with_each(s: &[u8], pieces: &[&[u8]], mut f: impl FnMut(&[u8])) {
    f(s);
    for at in 0..s.len() {
        pieces.iter().for_each(|piece| f(&replaced(s, at, piece)));
    }
}

/// The bytes themselves, then with one of them changed at each place, by these bits, and one more or less at each end.
fn near(s: &[u8], bits: &[u8], mut f: impl FnMut(&[u8])) {
    f(s);
    for at in 0..s.len() {
        bits.iter().for_each(|bits| f(&replaced(s, at, &[s[at] ^ bits])));
    }
    f(&[s, b"a"].concat());
    f(&[b"a", s].concat());
    if !s.is_empty() {
        f(&s[1..]);
        f(&s[..s.len() - 1]);
    }
}

fn single(bytes: &[u8]) -> Vec<&[u8]> {
    bytes.chunks(1).collect()
}

/// Every byte at each place of up to 24 letters, and every two side by side, at some place of 17.
fn with_every(mut f: impl FnMut(&[u8])) {
    let every: Vec<u8> = (0..=255).collect();
    for n in 0..=24 {
        with_each(&letters(n), &single(&every), &mut f);
    }
    for first in 0..=255u8 {
        for second in 0..=255 {
            f(&replaced(&letters(17), (first ^ second) as usize % 16, &[first, second]));
        }
    }
}

/// A record's character strings; an empty one is left out.
fn strings(parts: &[&[u8]]) -> Vec<u8> {
    parts.iter().filter(|p| !p.is_empty()).flat_map(|p| [&[p.len() as u8], *p].concat()).collect()
}

// ----------------------------------------------------------------------------------------------------------------- policies

fn policy_values(c: &mut Check) {
    let body = |value: &[u8], tail: &[u8]| [b"version:STSv1\nmode:none\nmax_age:1\nx:", value, tail].concat();
    let others: [&[u8]; 6] = [b"\nmx:b", b"\r\nmx:", b"  ", b" \t", b"\t\t\t\t\t\t\t\t", b"          "];
    let pieces = [&single(EDGES)[..], UTF8_EDGES, &others].concat();
    for n in 0..=LONGEST {
        let value: Vec<u8> = (0..n).map(|i| b' ' + ((7 * i + n) % 95) as u8).collect();
        for tail in [&b""[..], b"\n", b" \r\nmx:a"] {
            with_each(&value, &pieces, |value| c.policy(&body(value, tail)));
        }
    }
    with_every(|value| c.policy(&body(value, b"")));
}

/// The values that are compared or read as numbers, changed and between blanks.
fn policy_known_values(c: &mut Check) {
    let lines = |field: &[u8], value: &[u8]| -> Vec<u8> {
        let others = [&b"version: STSv1\n"[..], b"mode: none\n", b"max_age: 86400\n"];
        let others: Vec<&[u8]> = others.into_iter().filter(|line| !line.starts_with(field)).collect();
        [&others.concat(), field, b":", value].concat()
    };
    for field in ["version", "mode", "max_age", "mx"].map(str::as_bytes) {
        for value in ["STSv1", "enforce", "testing", "none", "1", "31557601", "0123456789", "01234567890", "a.example"] {
            near(value.as_bytes(), &[0x01, 0x10, 0x20, 0x40, 0x80], |value| c.policy_and_rewriting(&lines(field, value)));
            for n in 0..=LONGEST {
                for blank in [b" ", b"\t"] {
                    let blanks = blank.repeat(n);
                    c.policy_and_rewriting(&lines(field, &[&blanks, value.as_bytes(), b"\r\n"].concat()));
                    c.policy_and_rewriting(&lines(field, &[value.as_bytes(), &blanks].concat()));
                    c.policy_and_rewriting(&lines(field, &[value.as_bytes(), &blanks, b"x"].concat()));
                }
            }
        }
    }
}

fn policy_names(c: &mut Check) {
    let edges = single(EDGES);
    let body = |name: &[u8]| [name, b":STSv1\nmode:none\nmax_age:1\nversion:STSv1"].concat();
    for n in 0..=LONGEST {
        with_each(&letters(n), &edges, |name| c.policy(&body(name)));
    }
    for line in ["version:STSv1\n", "mode:none\n", "max_age:1\n", "mx:a\n"] {
        let rest = ["version:STSv1\n", "mode:none\n", "max_age:1\n"].concat().replace(line, "");
        let colon = line.find(':').unwrap_or(0);
        near(&line.as_bytes()[..colon], &[0x01, 0x02, 0x20, 0x80], |name| {
            c.policy(&[name, &line.as_bytes()[colon..], rest.as_bytes()].concat());
        });
    }
}

/// Lines that offend, whatever stands before them, or as the first of their name. Some have a fault of content too, which counts
/// after that of their form.
#[rustfmt::skip]
const OFFENDING: [&[u8]; 18] = [
    b"", b"mode", b":none", b"mode:", b"mode: \t", b"mode :none", b" mode:none", b"-mode:none", b"mode:no\tne", b"mode:none\r",
    b"version:STSv2\x7f", b"max_age:1x\xc3", b"mx:a..b\0", b"mx\rmx:a", b"version:STSv2", b"mode: Enforce", b"max_age:\t1x ",
    b"mx:a..b",
];

/// The lines with these ends in turn, and the last one with this end.
fn joined(lines: &[&[u8]], ends: &[&[u8]], last: &[u8]) -> Vec<u8> {
    let mut body = Vec::new();
    for (i, line) in lines.iter().enumerate() {
        body.extend(*line);
        body.extend(if i + 1 == lines.len() { last } else { ends[i % ends.len()] });
    }
    body
}

/// A line that offends at each place, before the line there or instead of it, and with a second one somewhere after it.
fn policy_faults(c: &mut Check) {
    const GOOD: [&[u8]; 5] = [b"version: STSv1", b"mode:none", b"max_age: 86400 ", b"mx:*.a", b"x: y"];
    let ends: [&[&[u8]]; 3] = [&[b"\n"], &[b"\r\n"], &[b"\r\n", b"\n"]];
    for (at, line) in (0..=GOOD.len()).flat_map(|at| OFFENDING.map(|line| (at, line))) {
        let before = [&GOOD[..at], &[line], &GOOD[at..]].concat();
        let instead = [&GOOD[..at], &[line], &GOOD[(at + 1).min(GOOD.len())..]].concat();
        for (ends, last) in ends.iter().flat_map(|ends| [&b""[..], b"\n", b"\r\n", b"\r"].map(|last| (ends, last))) {
            c.policy_and_rewriting(&joined(&before, ends, last));
            c.policy_and_rewriting(&joined(&instead, ends, last));
        }
        for (later, other) in (at + 1..=before.len()).flat_map(|later| OFFENDING.map(|other| (later, other))) {
            c.policy_and_rewriting(&joined(&[&before[..later], &[other], &before[later..]].concat(), ends[2], b"\n"));
        }
    }
}

/// A line that offends after one of each length, and after up to 16,383 lines: more leave no room for one.
fn policy_offsets(c: &mut Check) {
    for (line, end) in OFFENDING.iter().flat_map(|line| [(line, &b"\n"[..]), (line, b"\r\n")]) {
        for n in 0..=LONGEST {
            let before = [b"x:y", &letters(n)[..]].concat();
            c.policy(&joined(&[&before, line, b"x:y"], &[end], end));
        }
    }
    for n in [1, 2, 255, 256, 257, 999, 1000, 1001, 4095, 4096, 8191, 16_382, 16_383] {
        let before = b"a:b\n".repeat(n);
        for line in OFFENDING.iter().filter(|line| before.len() + line.len() <= 65_536) {
            c.policy(&[&before, *line].concat());
        }
        c.policy(&[&before, &b"\n"[..]].concat());
        c.policy(&[&before, &b"a:b\n"[..]].concat());
    }
}

// -------------------------------------------------------------------------------------------------------------- TXT records

fn txt_values(c: &mut Check) {
    let text = |head: &str, value: &[u8], tail: &str| [b"v=STSv1;", head.as_bytes(), value, tail.as_bytes()].concat();
    let edges = single(EDGES);
    for n in 0..=LONGEST {
        for (head, tail) in [("id=", ""), ("id=", ";"), ("id=", "\t; x=y"), ("id=a;x=", ""), ("id=a;x=", " ;")] {
            with_each(&letters(n), &edges, |value| c.text(&text(head, value, tail)));
        }
    }
    with_every(|value| c.text(&text("id=", value, "")));
    with_every(|value| c.text(&text("id=a;x=", value, "")));
}

fn txt_names(c: &mut Check) {
    let edges = single(EDGES);
    for n in 0..=LONGEST {
        with_each(&letters(n), &edges, |name| c.text(&[b"v=STSv1;", name, b"=a;id=b"].concat()));
    }
    near(b"id", &[0x01, 0x20, 0x80], |name| c.text(&[b"v=STSv1; ", name, b"=a"].concat()));
}

/// The tag changed, cut short, and in up to three character strings, beside other records.
fn txt_tags(c: &mut Check) {
    const TAG: &[u8] = b"v=STSv1;";
    let other = strings(&[b"v=spf1 -all"]);
    let bits: Vec<u8> = (0..8).map(|bit| 1 << bit).collect();
    for rest in [&b""[..], b"id=a", b";id=0123456789"] {
        near(TAG, &bits, |tag| {
            let text = [tag, rest].concat();
            for first in 0..=text.len().min(9) {
                for second in first..=text.len().min(9) {
                    let record = strings(&[&text[..first], &text[first..second], &text[second..]]);
                    c.txt(&[record.clone()], text.len());
                    c.txt(&[other.clone(), record, other.clone()], text.len());
                }
            }
        });
    }
    for n in 0..TAG.len() {
        // The front of the tag; what comes after it in memory, the next record's first bytes, is the rest of it.
        let front = [&[n as u8], &TAG[..n]].concat();
        let mut next = TAG[n..].to_vec();
        next.resize(1 + TAG[n] as usize, b'a');
        c.txt(&[front.clone(), next.clone()], 80);
        c.txt(&[front.clone(), next, strings(&[TAG, b"id=a"])], 80);
        c.txt(&[front], 80);
    }
}

// --------------------------------------------------------------------------------------------------------------------- names

/// As next-hop, expanded next-hop, host, expanded name, and pattern that is read or written.
fn each_use(c: &mut Check, name: &[u8]) {
    let alias = HostCall { address: 3, tlsa_answers: 0, expanded: b"mx.example.net".to_vec(), ..plain() };
    c.host(&HostCall { next_hop: name.to_vec(), ..alias.clone() });
    c.host(&HostCall { expanded_next_hop_given: 1, expanded_next_hop: name.to_vec(), ..alias.clone() });
    c.host(&HostCall { host: name.to_vec(), ..alias.clone() });
    c.host(&HostCall { expanded: name.to_vec(), ..alias });
    let star = [&b""[..], b"*."][name.len() % 2];
    let pattern = [star, name].concat();
    c.policy(&[b"version:STSv1\nmode:testing\nmax_age:1\nmx:", &pattern[..]].concat());
    c.write_policy(&policy_call(2, 1, &[pattern]), name.len() + 50);
}

fn names(c: &mut Check) {
    let pieces = [single(b"\0-./9:@AZ[_`{\x7f\x80\xad\xc1\xff"), vec![b"--", b"..", b".-", b"-.", b".a."]].concat();
    for n in 0..=LONGEST {
        with_each(&name(n, 63), &pieces, |name| each_use(c, name));
        with_each(&name(n, n % 9 + 1), &pieces, |name| each_use(c, name));
        for (before, after) in [("a.", ""), ("", ".b"), ("a9.", ".b-c")] {
            near(&letters(n), &[], |label| each_use(c, &[before.as_bytes(), label, after.as_bytes()].concat()));
        }
    }
    for n in 250..=256 {
        each_use(c, &name(n, 63));
    }
}

// --------------------------------------------------------------------------------------------------------------- comparisons

/// A host with a live enforce policy of one pattern; the DNS-ID comes after one that is no name.
fn under_policy(host: &[u8], pattern: &[u8], dns_id: &[u8]) -> HostCall {
    let dns_ids = [b"-".repeat(host.len() % 9), dns_id.to_vec()];
    HostCall {
        host: host.to_vec(),
        address: 2,
        tlsa_answers: 0,
        policy_given: 1,
        policy: [b"version:STSv1\nmode:enforce\nmax_age:86400\nmx:", pattern].concat(),
        fetched: plain().clock,
        dns_ids: dns_ids.concat(),
        dns_id_lengths: list(&lengths_of(&dns_ids)),
        ..shown(&[b"leaf"], 0)
    }
}

/// The certificates are shown, each with its key info from this place on, and digests of their own.
fn shown(certificates: &[&[u8]], key_start: usize) -> HostCall {
    let certificates: Vec<Vec<u8>> = certificates.iter().map(|c| c.to_vec()).collect();
    let places = certificates.iter().flat_map(|c| [key_start as u64, (c.len() - key_start) as u64]).collect::<Vec<u64>>();
    HostCall {
        starttls: 1,
        handshake: 1,
        certificates_given: 1,
        certificates: certificates.concat(),
        certificate_lengths: list(&lengths_of(&certificates)),
        key_places: list(&places),
        digests: (0..192 * certificates.len()).map(|i| (i * 7 % 251) as u8).collect(),
        paths: list(&vec![1; certificates.len()]),
        trusted_root: 1,
        common_name_given: 2,
        ..plain()
    }
}

fn compared_names(c: &mut Check) {
    let bits = [0x20, 0x01, 0x40, 0x80, 0xa0];
    for n in 1..=LONGEST {
        for label in [63, n % 9 + 1] {
            let host = name(n, label);
            let below = [b"Mx.", &host[..]].concat();
            near(&host, &bits, |other| {
                c.host(&under_policy(&host, &host, other));
                c.host(&under_policy(&host, other, &host));
                c.host(&under_policy(&below, &below, &[b"*.", other].concat()));
                c.host(&under_policy(&below, &[b"*.", other].concat(), &below));
                c.host(&HostCall { origin: 3, host: host.clone(), next_hop: other.to_vec(), ..plain() });
                let mut anchored = HostCall { host: host.clone(), ..shown(&[b"leaf", b"root"], 0) };
                anchored.tlsa[0] = one_record(b"\x02\0\0root");
                let named = HostCall { common_name_given: 1, common_name: other.to_vec(), ..anchored };
                c.host(&HostCall {
                    expanded_next_hop_given: 1,
                    expanded_next_hop: host.clone(),
                    host: plain().host,
                    ..named.clone()
                });
                c.host(&named);
            });
        }
    }
}

/// The record as the second of two; the first one can't be used, and moves it by 0 to 8 bytes.
fn second_record(record: &[u8], moved: usize) -> [TlsaAnswer; 2] {
    let both = [[&[1, 0, 0], &letters(moved)[..]].concat(), record.to_vec()];
    [TlsaAnswer { result: 1, lengths: list(&lengths_of(&both)), records: both.concat() }, Default::default()]
}

/// Records that are compared whole with a leaf, or with a certificate after it, or with their key info.
fn compared_certificates(c: &mut Check) {
    for n in 0..=LONGEST {
        let moved = n % 9;
        let whole: Vec<u8> = (0..n).map(|i| (i * 11 + n) as u8).collect();
        let longer = [&letters(moved), &whole[..]].concat(); // with the key info at its end
        for (usage, selector) in [(3, 0), (3, 1), (2, 0), (2, 1)] {
            let (certificate, start) = if selector == 0 { (&whole, 0) } else { (&longer, moved) };
            let leaf = letters(n % 7 + start);
            let chain: [&[u8]; 3] = [&leaf, certificate, b"another root"];
            let mut call = shown(if usage == 3 { &chain[1..2] } else { &chain }, start);
            (call.dns_ids, call.dns_id_lengths) = (call.host.clone(), list(&[call.host.len() as u64]));
            near(&whole, &[0x01, 0x20, 0x80, 0xff], |data| {
                c.host(&HostCall { tlsa: second_record(&[&[usage, selector, 0], data].concat(), moved), ..call.clone() });
            });
        }
    }
}

fn compared_digests(c: &mut Check) {
    let mut call = shown(&[b"leaf", b"root"], 2);
    (call.dns_ids, call.dns_id_lengths) = (call.host.clone(), list(&[call.host.len() as u64]));
    for (usage, of) in [(3, 0), (2, 192)] {
        for (selector, kind, start, size) in [(0, 1, 0, 32), (0, 2, 32, 64), (1, 1, 96, 32), (1, 2, 128, 64)] {
            let digest = call.digests[of + start..of + start + size].to_vec();
            near(&digest, &[0x01, 0x20, 0x80, 0xff], |data| {
                for moved in 0..9 {
                    c.host(&HostCall { tlsa: second_record(&[&[usage, selector, kind], data].concat(), moved), ..call.clone() });
                }
            });
        }
    }
}

// ------------------------------------------------------------------------------------------------------- domains of a cache

const LIVE: &[u8] = b"version:STSv1\nmode:none\nmax_age:86400\n";
const FIELD: usize = 253;

/// What may stand in the field of an entry's domain, less its final zeros: this domain and what is near it, each alone, and with a
/// byte right behind it, one further or at the field's end, in turn. Then the domain with a zero at each place, with a byte at
/// each place behind it, with a text behind a zero, and in other case. What doesn't fit in the field is cut off.
fn near_fields(domain: &[u8], mut f: impl FnMut(&[u8])) {
    const BEHIND: [u8; 5] = *b"a\x01 \x80\xff";
    let n = domain.len();
    let with = |s: &[u8], at: usize| [s, &vec![0; at - s.len()], &[BEHIND[(n + at) % 5]]].concat();
    let mut turn = n;
    near(domain, &[0x20, 0x01, 0x40, 0x80, 0xa0], |other| {
        let other = &other[..other.len().min(FIELD)];
        f(other);
        let at = [other.len(), other.len() + 1, FIELD - 1][turn % 3];
        if (other.len()..FIELD).contains(&at) {
            f(&with(other, at));
        }
        turn += 1;
    });
    with_each(domain, &[b"\0"], &mut f);
    (n..FIELD).for_each(|at| f(&with(domain, at)));
    let text = [domain, b"\0", domain].concat();
    f(&text[..text.len().min(FIELD)]);
    f(&domain.iter().map(|b| if b.is_ascii_alphabetic() { b ^ 0x20 } else { *b }).collect::<Vec<u8>>());
}

/// The call for a domain, on a cache whose other entries are empty, or live and of other domains. Then for the domain with a zero
/// and a text behind it, which is no name, where an entry has the domain itself.
fn compared_domains(c: &mut Check, call: fn(&[u8]) -> Call) {
    let mut caches = [Cache::zero(), Cache::zero()];
    for i in 0..ENTRIES {
        caches[1].put(i, format!("d{i}.example").as_bytes(), b"other", plain().clock, LIVE);
    }
    for n in (1..=LONGEST).chain(250..=FIELD) {
        for label in [63, n % 9 + 1] {
            let domain = name(n, label);
            let asked = call(&domain);
            near_fields(&domain, |field| c.cache(&caches, field, &asked));
            near(&[&domain, &b"\0b"[..]].concat(), &[], |other| c.cache(&caches, &domain, &call(other)));
        }
    }
}

fn look_up(domain: &[u8]) -> Call {
    Call::Lookup { clock: plain().clock, domain: domain.to_vec() }
}

fn store(domain: &[u8]) -> Call {
    let policy = b"version:STSv1\nmode:none\nmax_age:1".to_vec();
    Call::Store(StoreCall { clock: plain().clock, domain: domain.to_vec(), id: b"new".to_vec(), policy })
}

// ---------------------------------------------------------------------------------------------------------- what is written

fn policy_call(mode: u64, lifetime: u64, patterns: &[Vec<u8>]) -> PolicyCall {
    PolicyCall { mode, lifetime, patterns: patterns.concat(), pattern_lengths: list(&lengths_of(patterns)) }
}

/// Ids with every byte of the edges at each place, and with every byte at all in the first, the last and a place between; then each
/// length with outputs of each length.
fn ids_written(c: &mut Check) {
    const FRAME: usize = b"v=STSv1; id=;".len();
    let (edges, every): (_, Vec<u8>) = (single(EDGES), (0..=255).collect());
    for n in 0..=LONGEST {
        with_each(&letters(n), if n <= 40 { &edges } else { &[] }, |id| c.write_txt(id, FRAME + n + n % 3));
    }
    for (n, at) in [(1, 0), (9, 0), (9, 4), (9, 8), (32, 0), (32, 15), (32, 31)] {
        every.iter().for_each(|&byte| c.write_txt(&replaced(&letters(n), at, &[byte]), FRAME + 32));
    }
    for n in 0..=34 {
        (0..=FRAME + n + 17).for_each(|room| c.write_txt(&letters(n), room));
    }
}

/// Patterns of each length, before and after one another, and 16 of each; written, and rewritten from a body with other fields.
fn patterns_written(c: &mut Check) {
    for n in (1..=LONGEST).chain(250..=254) {
        for (first, count) in [(n, 1), (n, 2), (n + 1, 3), (n, 16), (n, 17)] {
            let mut patterns: Vec<Vec<u8>> = (0..count).map(|i| name(n, [63, n % 9 + 1][i % 2])).collect();
            patterns[0] = [b"*.", &name(first, 63)[..]].concat();
            let lines: Vec<Vec<u8>> = patterns.iter().map(|pattern| [b"mx:", &pattern[..], b" \r\nx: mx: y\n"].concat()).collect();
            let body = [&b"max_age: 0086400\n"[..], &lines.concat(), b"mode:enforce\nversion:STSv1"].concat();
            let needed = 44 + patterns.concat().len() + 5 * count;
            for room in [needed - 1, needed, needed + 9] {
                c.write_policy(&policy_call(1, 86_400, &patterns), room);
                c.rewrite_policy(&body, room);
            }
        }
    }
}

/// Every count of patterns with every mode, and what may be wrong with the list of their lengths; also beside a lifetime or an
/// output that would be refused later.
fn patterns_counted(c: &mut Check) {
    const MODES: [u64; 7] = [0, 1, 2, 3, 4, 257, (1 << 32) + 1];
    for (count, mode) in (0..=18).flat_map(|count| MODES.map(|mode| (count, mode))) {
        let patterns: Vec<Vec<u8>> = (0..count).map(|i| name(i % 5 + 1, 63)).collect();
        for (lifetime, room) in [(604_800, 30), (604_800, 300), (31_557_601, 300), (31_557_601, 0)] {
            let good = policy_call(mode, lifetime, &patterns);
            c.write_policy(&good, room);
            near(&good.pattern_lengths, &[0x01, 0x80], |lengths| {
                c.write_policy(&PolicyCall { pattern_lengths: lengths.to_vec(), ..good.clone() }, room);
            });
            near(&good.patterns, &[], |patterns| c.write_policy(&PolicyCall { patterns: patterns.to_vec(), ..good.clone() }, room));
        }
    }
}

/// Lifetimes of each number of digits, with each bit changed, and about the largest; written, and rewritten with zeros in front.
fn lifetimes_written(c: &mut Check) {
    let tens = (0..20).map(|digits| 10u64.pow(digits));
    let near_tens = tens.flat_map(|ten| [ten - 1, ten, ten + 1, ten + ten / 7, ten / 9]);
    let bits = (0..64).flat_map(|bit| [31_557_600 ^ 1 << bit, 1 << bit]);
    let all: Vec<u64> = (0..=1111).chain(near_tens).chain(31_557_580..=31_557_620).chain(bits).chain([u64::MAX]).collect();
    for lifetime in all {
        c.write_policy(&policy_call(3, lifetime, &[]), 44);
        c.write_policy(&policy_call(1, lifetime, &[b"a".to_vec()]), 60);
        for zeros in 0..=10 {
            let age = format!("{}{lifetime}", "0".repeat(zeros));
            if age.len() <= 11 {
                c.rewrite_policy(format!("version:STSv1\nmode:none\nmax_age:{age}").as_bytes(), 44);
            }
        }
    }
}

/// Outputs of each length, for policies of every mode.
fn outputs(c: &mut Check) {
    for (mode, word) in [(1, "enforce"), (2, "testing"), (3, "none")] {
        for patterns in [vec![name(1, 63)], vec![name(70, 7), name(9, 3), name(33, 63)]] {
            let mut body = format!("mode: {word}\r\nversion: STSv1\r\nnote: none\r\nmax_age: 31557601\r\n").into_bytes();
            patterns.iter().for_each(|pattern| body.extend([b"mx: ", &pattern[..], b"\r\n"].concat()));
            for room in 0..=200 {
                c.write_policy(&policy_call(mode, 31_557_600, &patterns), room);
                c.rewrite_policy(&body, room);
            }
        }
    }
}

/// All parts, or the one input alone, printed; the number of the library's answers that were compared.
pub fn run(lender: &mut Lender, only: Option<u64>) -> u64 {
    let begun = Instant::now();
    let mut c = Check { lender, only, inputs: 0, calls: 0, table: Table::new() };
    if only.is_none() {
        println!("lengths 0 to {LONGEST}:");
    }
    let all = std::panic::catch_unwind(AssertUnwindSafe(|| {
        c.part("policy values", &[7, 53, 57], policy_values);
        c.part("policy values that are known", &[7, 15, 52, 53, 54, 55, 56, 57, 83], policy_known_values);
        c.part("policy names", &[7, 52, 53], policy_names);
        c.part("policy faults", &[7, 15, 53, 54, 55, 56, 57, 83], policy_faults);
        c.part("policy faults further on", &[52, 53, 54, 55, 56, 57], policy_offsets);
        c.part("TXT values", &[6, 42], txt_values);
        c.part("TXT names", &[6, 42], txt_names);
        c.part("TXT tags", &[6, 40, 42], txt_tags);
        c.part("names", &[7, 13, 15, 53, 57, 60, 61, 81], names);
        c.part("names compared", &[3, 4, 23, 26, 27, 53, 57, 61], compared_names);
        c.part("certificates compared", &[3, 26], compared_certificates);
        c.part("digests compared", &[3, 26], compared_digests);
        c.part("domains looked up", &[15, 60, 72], |c| compared_domains(c, look_up));
        c.part("domains stored", &[15, 60, 70], |c| compared_domains(c, store));
        c.part("ids written", &[15, 80, 83], ids_written);
        c.part("patterns written", &[15, 57, 81, 83], patterns_written);
        c.part("patterns counted", &[15, 67, 81, 82, 83], patterns_counted);
        c.part("lifetimes written", &[15, 56, 82], lifetimes_written);
        c.part("outputs", &[15, 83], outputs);
    }));
    if all.is_err() {
        println!("FAILED: lengths case {}", c.inputs);
        std::process::exit(1);
    }
    if only.is_none() {
        println!("  {} inputs, {} cases in {:.1} s", c.inputs, c.calls, begun.elapsed().as_secs_f64());
    }
    c.calls
}
