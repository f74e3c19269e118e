//! Document 01's "Cases on both sides" and a few more, and cases of document 02, with their answers written down: they hold the
//! rules here and the library to the papers themselves, not only to each other.

use crate::arguments::Shown;
use crate::boundary::{Lender, Place, PolicyCall, Side, StoreCall};
use crate::caches::Cache;
use crate::certificate_examples;
use crate::digest_examples;
use crate::inputs::{lengths_of, list, NEW_VERSIONS, NO_VERSIONS, OLD_VERSIONS};
use independent_rules::cache::{self, Entry, LookupAnswer, ROOM};
use independent_rules::publish::{self, WriteAnswer};
use independent_rules::rules::{self, HostCall, PolicyAnswer, TlsaAnswer};

pub const MIDDLE: Place = Place { side: Side::Open(0), turn: 0 };
pub const BEFORE_GUARD: Place = Place { side: Side::BeforeGuard, turn: 1 };

pub struct Check<'a> {
    pub lender: &'a mut Lender,
    passed: u64,
    hosts: Vec<HostCall>,
}

impl Check<'_> {
    pub fn same<T: PartialEq + std::fmt::Debug>(&mut self, what: &str, wanted: T, ours: T, theirs: T) {
        if ours != wanted || theirs != wanted {
            println!("EXAMPLE {what}: wanted {wanted:?}, rules {ours:?}, library {theirs:?}");
            std::process::exit(1);
        }
        self.passed += 1;
    }

    fn txt(&mut self, text: &str, wanted: (u64, u64, u64)) {
        let rdata: Vec<u8> = [&[text.len() as u8], text.as_bytes()].concat();
        let lengths = list(&[rdata.len() as u64]);
        let (mut a, mut b) = ([0xee; 80], [0xee; 80]);
        let ours = rules::read_txt(&rdata, &lengths, &mut a);
        let theirs = self.lender.read_txt(&rdata, &lengths, &mut b, MIDDLE);
        let mut output = [0xee; 80];
        if wanted.0 == 6 || wanted.0 == 42 {
            output[..text.len()].copy_from_slice(text.as_bytes());
        }
        self.same(text, (wanted, output), (ours, a), (theirs, b));
    }

    fn policy(&mut self, body: &[u8], wanted: PolicyAnswer) {
        let ours = rules::read_policy(body);
        let theirs = self.lender.read_policy(body, BEFORE_GUARD);
        let shown = &body[..body.len().min(100)];
        self.same(&shown.escape_ascii().to_string(), wanted, ours, theirs);
    }

    /// Without a line: accepted with these fields, or 50 or 52.
    fn read(&mut self, body: &str, number: u64, mode: u64, lifetime: u64, mx_count: u64) {
        self.policy(body.as_bytes(), PolicyAnswer { number, mode, lifetime, mx_count, ..Default::default() });
    }

    fn offends(&mut self, body: &str, number: u64, line: u64, offset: u64) {
        self.policy(body.as_bytes(), PolicyAnswer { number, line, offset, ..Default::default() });
    }

    pub fn host(&mut self, what: &str, call: &HostCall, wanted: (u64, u64)) {
        let ours = rules::judge_host(call);
        let theirs = self.lender.judge_host(call, BEFORE_GUARD);
        self.same(what, wanted, ours, theirs);
        self.hosts.push(call.clone());
    }

    fn message(&mut self, preferences: &[u64], verdicts: &[u64], wanted: (u64, u64)) {
        let (p, v) = (list(preferences), list(verdicts));
        let ours = rules::next_host(1, &p, &v);
        let theirs = self.lender.next_host(1, &p, &v, BEFORE_GUARD);
        self.same("message", wanted, ours, theirs);
    }

    /// Stores with the id `clock`'s digits. Wanted is the position, or the refusal; the cache becomes what the library made of it,
    /// but for padding.
    fn store(&mut self, cache: &mut Cache, clock: u64, domain: &str, policy: &[u8], wanted: Result<usize, u64>) {
        let id = clock.to_string().into_bytes();
        let call = StoreCall { clock, domain: domain.as_bytes().to_vec(), id: id.clone(), policy: policy.to_vec() };
        let (mut ours, mut theirs, mut expected) = (cache.clone(), cache.clone(), cache.clone());
        let a = cache::store(clock, &call.domain, &id, policy, &mut ours.table, &mut ours.texts);
        let b = self.lender.cache_store(&call, &mut theirs.table, &mut theirs.texts, BEFORE_GUARD);
        if let Ok(i) = wanted {
            let entry = &mut expected.table[i];
            *entry = Entry { fetched: clock, length: policy.len() as u64, ..Entry::ZERO };
            entry.domain[..domain.len()].copy_from_slice(domain.as_bytes());
            entry.id[..id.len()].copy_from_slice(&id);
            expected.texts[ROOM * i..][..policy.len()].copy_from_slice(policy);
        }
        theirs.table.iter_mut().for_each(|e| e.padding = [0; 3]);
        let what = format!("store for {domain} at {clock}");
        self.same(&what, (wanted.map_or_else(|number| number, |_| 15), 0), a, b);
        self.same(&what, true, ours == expected, theirs == expected);
        *cache = theirs;
    }

    /// Wanted is the position, the fetch reading and the text's length, or the refusal.
    fn lookup(&mut self, cache: &Cache, clock: u64, domain: &str, wanted: Result<(usize, u64, usize), u64>) {
        let ours = cache::lookup(clock, domain.as_bytes(), &cache.table, &cache.texts);
        let theirs = self.lender.cache_lookup(clock, domain.as_bytes(), &cache.table, &cache.texts, MIDDLE);
        let mut expected = LookupAnswer::default();
        match wanted {
            Err(number) => expected.number = number,
            Ok((i, fetched, length)) => {
                let id = fetched.to_string().into_bytes();
                (expected.number, expected.text_start, expected.text_length) = (15, 1024 * i as u64, length as u64);
                (expected.fetched, expected.id_length) = (fetched, id.len() as u64);
                expected.id[..id.len()].copy_from_slice(&id);
            }
        }
        self.same(&format!("lookup of {domain} at {clock}"), expected, ours, theirs);
    }

    /// A call that writes, into outputs of several sizes. Wanted is the text, which is written wherever there is room, else 83; or
    /// the refusal that comes before 83.
    fn written(
        &mut self,
        what: &str,
        wanted: Result<&str, u64>,
        ours: impl Fn(&mut [u8]) -> WriteAnswer,
        theirs: impl Fn(&mut Lender, &mut [u8]) -> WriteAnswer,
    ) {
        let length = wanted.map_or(45, str::len);
        for room in [0, length - 1, length, length + 1, 4208] {
            let mut expected = vec![0xee; room];
            let answer = match wanted {
                Err(number) => (number, 0),
                Ok(_) if room < length => (83, 0),
                Ok(text) => {
                    expected[..length].copy_from_slice(text.as_bytes());
                    (15, length as u64)
                }
            };
            let (mut a, mut b) = (vec![0xee; room], vec![0xee; room]);
            let (x, y) = (ours(&mut a), theirs(self.lender, &mut b));
            self.same(what, (answer, Shown(expected)), (x, Shown(a)), (y, Shown(b)));
        }
    }

    fn write_txt(&mut self, id: &str, wanted: Result<&str, u64>) {
        let id = id.as_bytes();
        let theirs = |lender: &mut Lender, output: &mut [u8]| lender.write_txt(id, output, BEFORE_GUARD);
        self.written("TXT text", wanted, |output| publish::write_txt(id, output), theirs);
    }

    /// The lengths are the patterns' own, and these bytes.
    fn write(&mut self, mode: u64, lifetime: u64, patterns: &[&str], more_lengths: &[u8], wanted: Result<&str, u64>) {
        let patterns: Vec<Vec<u8>> = patterns.iter().map(|pattern| pattern.as_bytes().to_vec()).collect();
        let pattern_lengths = [&list(&lengths_of(&patterns)), more_lengths].concat();
        let c = PolicyCall { mode, lifetime, patterns: patterns.concat(), pattern_lengths };
        let ours = |output: &mut [u8]| publish::write_policy(mode, lifetime, &c.patterns, &c.pattern_lengths, output);
        self.written("policy", wanted, ours, |lender, output| lender.write_policy(&c, output, BEFORE_GUARD));
    }

    fn rewrite(&mut self, body: &str, wanted: Result<&str, u64>) {
        let body = body.as_bytes();
        let theirs = |lender: &mut Lender, output: &mut [u8]| lender.rewrite_policy(body, output, BEFORE_GUARD);
        self.written("rewritten policy", wanted, |output| publish::rewrite_policy(body, output), theirs);
    }
}

pub fn one_record(record: &[u8]) -> TlsaAnswer {
    TlsaAnswer { result: 1, lengths: list(&[record.len() as u64]), records: record.to_vec() }
}

/// A plain host with a secure answer of no records and no policy; nothing more given. The version counts once a handshake is given.
pub fn plain() -> HostCall {
    HostCall {
        clock: 605_799,
        next_hop: b"example.com".to_vec(),
        expanded_next_hop_given: 2,
        origin: 1,
        host: b"mail.example.com".to_vec(),
        address: 1,
        policy_given: 2,
        tlsa_answers: 1,
        tlsa: [TlsaAnswer { result: 1, ..Default::default() }, TlsaAnswer::default()],
        tls_version: 0x0303,
        ..Default::default()
    }
}

pub const WEEK: &[u8] = b"version: STSv1\nmode: enforce\nmx: *.example.com\nmax_age: 604800\n";
const SHORT: &[u8] = b"version: STSv1\nmode: none\nmax_age: 10\n";
const SHORTER: &[u8] = b"version: STSv1\nmode: none\nmax_age: 9";

/// A line with each of the faults of content.
const CONTENT: [(u64, &str); 4] = [(54, "version: STSv2"), (55, "mode: Enforce"), (56, "max_age: -1"), (57, "mx: a..b")];

/// A policy of a week in so many bytes.
fn long(size: usize) -> Vec<u8> {
    [WEEK, b"x:", &vec![b'y'; size - WEEK.len() - 2]].concat()
}

/// Document 02, No. 1: a cache from all zeros.
fn cached(c: &mut Check) -> Cache {
    let mut cache = Cache::zero();
    c.lookup(&cache, 0, "example.com", Err(72));
    c.store(&mut cache, 1000, "Example.com", WEEK, Ok(0));
    c.lookup(&cache, 605_799, "eXample.COM", Ok((0, 1000, WEEK.len())));
    c.lookup(&cache, 605_800, "example.com", Err(72));
    // "A clock before the fetch leaves it live (house)."
    c.lookup(&cache, 0, "example.com", Ok((0, 1000, WEEK.len())));
    c.lookup(&cache, 0, "www.example.com", Err(72));
    // The own entry before an empty one, also where it is stale; the new spelling, and only the text's own bytes.
    c.store(&mut cache, 605_801, "example.COM", SHORTER, Ok(0));
    c.store(&mut cache, 605_802, "example.org", SHORT, Ok(1));
    c.lookup(&cache, 605_809, "example.com", Ok((0, 605_801, SHORTER.len())));
    c.lookup(&cache, 605_810, "example.com", Err(72));
    // Refusals change nothing.
    c.store(&mut cache, 1, "example.com.", WEEK, Err(60));
    c.store(&mut cache, 253_402_300_800, "", b"", Err(62));
    c.store(&mut cache, 1, "example.com", b"", Err(53));
    for (number, line) in CONTENT {
        c.store(&mut cache, 1, "example.com", format!("{line}\n").as_bytes(), Err(number));
        c.store(&mut cache, 1, "example.com", &[line.as_bytes(), b"\n", &long(1025)].concat(), Err(number));
    }
    c.store(&mut cache, 1, "example.com", &long(1025), Err(71));
    cache
}

/// The same, filled up.
fn cached_in_a_full_table(c: &mut Check, mut cache: Cache) {
    for i in 2..64 {
        c.store(&mut cache, 605_803, &format!("d{i}"), &long(1024), Ok(i));
    }
    // All are live: 70. Then one is stale, and is taken after one that counts as empty.
    c.store(&mut cache, 605_809, "example.net", WEEK, Err(70));
    c.store(&mut cache, 605_809, "D63", WEEK, Ok(63));
    cache.table[40].length = 1025;
    c.lookup(&cache, 605_809, "d40", Err(72));
    c.store(&mut cache, 605_812, "example.net", WEEK, Ok(40));
    c.store(&mut cache, 605_812, "example.edu", WEEK, Ok(0));
    c.store(&mut cache, 605_811, "example.info", WEEK, Err(70));
    c.store(&mut cache, 605_812, "example.info", WEEK, Ok(1));
    // Of several own entries the lowest counts: a stale one hides a live one.
    (cache.table[7], cache.table[9]) = (cache.table[63], cache.table[63]);
    cache.texts[ROOM * 7..][..SHORT.len()].copy_from_slice(SHORT);
    (cache.table[7].length, cache.texts[ROOM * 9]) = (SHORT.len() as u64, 0);
    c.lookup(&cache, 605_818, "d63", Ok((7, 605_809, SHORT.len())));
    c.lookup(&cache, 605_819, "d63", Err(72));
    // One that counts as empty is not own.
    cache.table[7].id[6] = b'-';
    c.lookup(&cache, 605_819, "d63", Ok((63, 605_809, WEEK.len())));
    // Other sizes.
    cache.table.pop();
    c.lookup(&cache, u64::MAX, "", Err(74));
    c.store(&mut cache, u64::MAX, "", b"", Err(74));
}

fn policies(c: &mut Check) {
    c.read("version: STSv1\nmode: enforce\nmx: *.example.com\nmax_age: 604800\n", 7, 1, 604_800, 1);
    c.read("version: STSv1\r\nmode: none\r\nmax_age: 9999999999", 7, 3, 31_557_600, 0);
    c.read("version: STSv1\nmode: testing\nmax_age: 1\n", 52, 0, 0, 0);
    c.read("max_age: 1\nmx: a\nversion: STSv1", 52, 0, 0, 0);
    // Only the first of each counts, but every mx; names are case-sensitive.
    c.read("mode: none\nversion: STSv1\nmode: x\nversion: STSv2\nmax_age: 1\nmax_age: x\n", 7, 3, 1, 0);
    c.read("Version: 2\nMODE: x\nMax_Age: x\nMX: ..\nversion: STSv1\nmode: none\nmax_age: 1", 7, 3, 1, 0);
}

/// Document 02, No. 2: "the first line that offends, counted from 1, and the byte offset where it begins".
fn policies_that_offend(c: &mut Check) {
    // "A body of zero bytes is 53 at line 1."
    c.offends("", 53, 1, 0);
    // Line form: "An empty line, (...) a lone CR, or a blank before the colon".
    c.offends("\n", 53, 1, 0);
    c.offends("\r\n", 53, 1, 0);
    c.offends("version: STSv1\n\nmode: none\nmax_age: 1\n", 53, 2, 15);
    c.offends("version: STSv1\r\nmode: none\r\nmax_age: 1\r\n\r\n", 53, 4, 40);
    c.offends("version: STSv1\nmode: none\nmax_age: 1\r", 53, 3, 26);
    c.offends("version: STSv1\rmode: none\nmax_age: 1\n", 53, 1, 0);
    c.offends("version: STSv1\nmode: none\r\r\nmax_age: 1\n", 53, 2, 15);
    c.offends("version: STSv1\nmode : none\nmax_age: 1\n", 53, 2, 15);
    c.offends("version: STSv1\nmode: none\nmax_age: 1\nnote: a\tb", 53, 4, 37);
    c.offends("version: STSv1\nmode: none\nmax_age:\n", 53, 3, 26);
    c.offends("version: STSv1\nmode: none\nmax_age", 53, 3, 26);
    // Content, after LF and after CRLF.
    c.offends("version: STSv2\nmode: none\nmax_age: 1\n", 54, 1, 0);
    c.offends("mode: none\r\nversion: stsv1\r\nmax_age: 1\r\n", 54, 2, 12);
    c.offends("version: STSv1\r\nmode: None\r\nmax_age: 1\r\n", 55, 2, 16);
    c.offends("version: STSv1\nmode: none\nmax_age: 00000000001", 56, 3, 26);
    c.offends("version: STSv1\nmode: none\nmax_age: 1\nmx: a\nmx: b.\n", 57, 5, 43);
    // "the first line that offends"
    c.offends("mx: *\nmax_age: x\nmode: x\nversion: x\n\n", 57, 1, 0);
    c.offends("max_age: x\nmode: x\nversion: x\n\nmx: *\n", 56, 1, 0);
    c.offends("x: y\nmode: x\nversion: x\n\nmx: *\nmax_age: x\n", 55, 2, 5);
    c.offends("x: y\n\nmx: *\nmax_age: x\nmode: x\nversion: x\n", 53, 2, 5);
    // "within a line, form comes before content", and a fault of form counts in a line that isn't the first of its name.
    c.offends("version: STS\tv2\nmode: none\n", 53, 1, 0);
    c.offends("version: STSv1\nmode: x\r", 53, 2, 15);
    c.offends("version: STSv1\nversion:\n", 53, 2, 15);
    // "52 still comes after them"
    c.offends("max_age: 1\nmx: a_b", 57, 2, 11);
}

/// At the limit of 65,536 bytes.
fn policies_of_many_lines(c: &mut Check) {
    let lines = "a:b\n".repeat(16_383);
    c.offends(&format!("{lines}\n"), 53, 16_384, 65_532);
    c.offends(&format!("{lines}mx:"), 53, 16_384, 65_532);
    c.offends(&format!("{}mx:..\n", &lines[..4000]), 57, 1001, 4000);
    c.offends(&"\0".repeat(65_536), 53, 1, 0);
    c.read(&format!("{lines}a:b\n"), 52, 0, 0, 0);
    c.read(&"\0".repeat(65_537), 50, 0, 0, 0);
}

/// RFC 7672, 3.2.2: mail to exchange.example.org, an alias of example.com, through mx10.example.com with its record 2 0 1. The
/// leaf has this DNS-ID.
fn aliased(dns_id: &str) -> HostCall {
    HostCall {
        next_hop: b"exchange.example.org".to_vec(),
        expanded_next_hop_given: 1,
        expanded_next_hop: b"example.com".to_vec(),
        host: b"mx10.example.com".to_vec(),
        tlsa: [one_record(&[&[2, 0, 1][..], &[6; 32]].concat()), TlsaAnswer::default()],
        starttls: 1,
        handshake: 1,
        certificates_given: 1,
        certificates: b"leafanchor".to_vec(),
        certificate_lengths: list(&[4, 6]),
        key_places: list(&[0, 4, 0, 6]),
        digests: [[1; 192], [6; 192]].concat(),
        paths: list(&[1, 1]),
        trusted_root: 1,
        dns_ids: dns_id.as_bytes().to_vec(),
        dns_id_lengths: list(&[dns_id.len() as u64]),
        common_name_given: 2,
        ..plain()
    }
}

/// Document 02, No. 3: "mail to exchange.example.org through mx10.example.com accepts exchange.example.org, example.com and
/// mx10.example.com", and what else follows from "a further reference when it differs from the next-hop and MX was secure".
fn expanded_next_hops(c: &mut Check) {
    for dns_id in ["exchange.example.org", "example.com", "mx10.example.com", "EXAMPLE.Com", "*.com"] {
        c.host(dns_id, &aliased(dns_id), (3, 1));
    }
    // The alias between the two is no reference.
    for dns_id in ["mail.example.org", "mx15.example.com", "example.org", "*.mx10.example.com", "com", ""] {
        c.host(dns_id, &aliased(dns_id), (26, 1));
    }
    for (dns_id, number) in [("exchange.example.org", 3), ("example.com", 26), ("mx10.example.com", 3)] {
        c.host("none given", &HostCall { expanded_next_hop_given: 2, ..aliased(dns_id) }, (number, 1));
        let itself = HostCall { expanded_next_hop: b"Exchange.Example.ORG".to_vec(), ..aliased(dns_id) };
        c.host("the next-hop itself", &itself, (number, 1));
        let not_looked_at = HostCall { expanded_next_hop_given: 2, expanded_next_hop: b"..".to_vec(), ..aliased(dns_id) };
        c.host("not looked at", &not_looked_at, (number, 1));
    }
    for (dns_id, number) in [("exchange.example.org", 26), ("example.com", 26), ("mx10.example.com", 3)] {
        c.host("insecure MX", &HostCall { origin: 2, ..aliased(dns_id) }, (number, 1));
    }
    for (dns_id, number) in [("exchange.example.org", 3), ("example.com", 26), ("mx10.example.com", 26)] {
        let no_mx = HostCall { origin: 3, host: b"exchange.example.org".to_vec(), ..aliased(dns_id) };
        c.host("no MX", &no_mx, (number, 1));
    }
    // "With no MX the host must equal the next-hop": the expanded one doesn't count.
    let at_expanded = HostCall { origin: 3, host: b"example.com".to_vec(), ..aliased("example.com") };
    c.host("no MX, the host is the expanded next-hop", &at_expanded, (61, 0));
    let common_name = HostCall { common_name_given: 1, common_name: b"example.com".to_vec(), ..aliased("") };
    c.host("common name beside a DNS-ID", &common_name, (26, 1));
    c.host("common name", &HostCall { dns_id_lengths: vec![], ..common_name }, (3, 1));
    // MTA-STS takes the host's name alone.
    let enforced = HostCall { policy_given: 1, policy: WEEK.to_vec(), fetched: 605_799, ..aliased("example.com") };
    c.host("beside a policy", &enforced, (27, 1));
    let alias = HostCall { address: 3, expanded: b"mx.example.net".to_vec(), ..enforced };
    let both = HostCall { dns_ids: b"example.commx10.example.com".to_vec(), dns_id_lengths: list(&[11, 16]), ..alias.clone() };
    c.host("beside a policy, records at the expanded host name", &both, (5, 1));
    c.host("the same, none given", &HostCall { expanded_next_hop_given: 2, ..both }, (26, 1));
}

/// "checked right after the next-hop with refusal 60", whatever the origin (reading 9 of document 02).
fn refused_next_hops(c: &mut Check) {
    let longest = [&vec![b'a'; 63][..], &vec![b'b'; 63], &vec![b'c'; 63], &vec![b'd'; 61]].join(&b'.');
    let longer = [&longest[..], b"d"].concat();
    for origin in 1..=3 {
        let host = if origin == 3 { "exchange.example.org" } else { "mx10.example.com" };
        let call = HostCall { origin, host: host.as_bytes().to_vec(), ..aliased(host) };
        let with = |name: &[u8]| HostCall { expanded_next_hop: name.to_vec(), ..call.clone() };
        c.host("253 bytes", &with(&longest), (3, 1));
        for name in [&b""[..], b"example.com.", b"a_b.example", b"-a", b"*.example.com", &longer] {
            let bad = with(name);
            c.host("no name", &bad, (60, 0));
            c.host("no name, and no host", &HostCall { host: vec![], ..bad.clone() }, (60, 0));
            c.host("no name, and no clock", &HostCall { clock: u64::MAX, ..bad.clone() }, (62, 0));
            c.host("no name, and not given", &HostCall { expanded_next_hop_given: 2, ..bad }, (3, 1));
        }
        for code in [0, 3, 256 + 1, (1 << 32) + 1, u64::MAX] {
            let bad = HostCall { expanded_next_hop_given: code, clock: u64::MAX, ..call.clone() };
            c.host("no code", &bad, (67, 0));
        }
    }
}

/// Document 02, No. 6: "Where authentication is needed and the version is below 03 03 hex, the verdict is the new 28, before 26."
/// The call is one that gives 5 at 03 03 hex.
fn old_versions(c: &mut Check, named: &HostCall) {
    let mut with = |what: &str, change: &dyn Fn(&mut HostCall), old: (u64, u64), new: (u64, u64)| {
        let mut call = named.clone();
        change(&mut call);
        for (versions, wanted) in [(OLD_VERSIONS, old), (NEW_VERSIONS, new), (NO_VERSIONS, (67, 0))] {
            for tls_version in versions {
                c.host(what, &HostCall { tls_version, ..call.clone() }, wanted);
            }
        }
    };
    with("both", &|_| {}, (28, 1), (5, 1));
    with("DANE", &|c| c.policy_given = 2, (28, 1), (3, 1));
    with("MTA-STS", &|c| c.tlsa[0].result = 3, (28, 1), (4, 1));
    // "01's last case reads at 03 03 hex."
    with("no DNS-ID", &|c| (c.dns_ids, c.dns_id_lengths) = Default::default(), (28, 1), (27, 1));
    with("a record that does not match", &|c| c.tlsa[0].records[34] = 5, (28, 1), (26, 1));
    with("no certificate", &|c| {
        (c.certificates, c.certificate_lengths, c.key_places, c.digests, c.paths) = Default::default()
    }, (28, 1), (26, 1));
    // "It is final at the handshake stage, where the walk then stops."
    with("certificate facts not given", &|c| c.certificates_given = 0, (28, 1), (12, 1));
    with("certificate facts not given, MTA-STS", &|c| (c.address, c.certificates_given) = (2, 0), (28, 0), (12, 0));
    with("facts that are not given", &|c| {
        (c.certificates_given, c.trusted_root, c.paths, c.dns_id_lengths) = (0, 9, vec![9; 5], vec![9])
    }, (28, 1), (12, 1));
    // All that is given is checked.
    with("digests of one byte less", &|c| c.digests.truncate(191), (65, 0), (65, 0));
    with("DNS-IDs without their lengths", &|c| c.dns_id_lengths.clear(), (65, 0), (65, 0));
    with("a path flag of 3", &|c| c.paths = list(&[3]), (67, 0), (67, 0));
    with("no trusted-root code", &|c| c.trusted_root = 0, (67, 0), (67, 0));
    // The count is that of the other verdicts.
    let alias = |c: &mut HostCall, answers: u64| {
        (c.address, c.expanded, c.tlsa_answers) = (3, b"mx.example.net".to_vec(), answers);
        c.tlsa[1] = std::mem::take(&mut c.tlsa[0]);
        c.tlsa[0].result = 3;
    };
    with("records at the host name of an alias", &|c| alias(c, 2), (28, 2), (5, 2));
    with("a missing TLSA answer", &|c| alias(c, 1), (66, 0), (66, 0));
    with("STARTTLS not given", &|c| c.starttls = 0, (66, 0), (66, 0));
    // No authentication is needed, or the walk doesn't come to the handshake.
    with("a stale policy, no record", &|c| (c.clock, c.tlsa[0].result) = (700_000, 2), (2, 1), (2, 1));
    with("a stale policy, usage 1", &|c| (c.clock, c.tlsa[0].records[0]) = (700_000, 1), (2, 1), (2, 1));
    with("a stale policy", &|c| c.clock = 700_000, (28, 1), (3, 1));
    with("usage 1 beside a policy", &|c| c.tlsa[0].records[0] = 1, (28, 1), (4, 1));
    with("not offered", &|c| c.starttls = 2, (24, 1), (24, 1));
    with("address lookup failed", &|c| c.address = 6, (20, 0), (20, 0));
    with("no address", &|c| c.address = 7, (21, 0), (21, 0));
    with("TLSA lookup failed", &|c| c.tlsa[0].result = 4, (22, 1), (22, 1));
    with("no pattern", &|c| c.host = b"a.b.example.com".to_vec(), (23, 0), (23, 0));
    // 67 before 62.
    with("a bad clock", &|c| c.clock = u64::MAX, (62, 0), (62, 0));
}

/// "(ignored after a failed one)"; and where no handshake is given there is no version either.
fn ignored_versions(c: &mut Check, named: &HostCall) {
    for tls_version in [OLD_VERSIONS, NEW_VERSIONS, NO_VERSIONS].concat() {
        let failed = HostCall { handshake: 2, tls_version, ..named.clone() };
        c.host("handshake failed", &failed, (25, 1));
        c.host("handshake failed, nothing needed", &HostCall { address: 2, policy_given: 2, ..failed }, (1, 0));
        let not_given = HostCall { handshake: 0, tls_version, ..named.clone() };
        c.host("handshake not given", &HostCall { certificates_given: 0, ..not_given.clone() }, (11, 1));
        c.host("handshake not given, certificate facts given", &not_given, (66, 0));
        c.host("STARTTLS not given", &HostCall { starttls: 0, certificates_given: 0, ..not_given }, (10, 1));
        let nothing_needed = HostCall { handshake: 1, tls_version, address: 2, policy_given: 2, ..named.clone() };
        c.host("established, nothing needed", &nothing_needed, if tls_version > 65_535 { (67, 0) } else { (2, 0) });
    }
}

/// "28 joins the "next host" verdicts that a message's host list accepts."
fn listed_verdicts(c: &mut Check) {
    for verdict in 0..=300 {
        let wanted = match verdict {
            1..=5 => (verdict, 0),
            9 => (8, 0),
            20..=28 => (31, 0),
            _ => (63, 0),
        };
        c.message(&[10], &[verdict], wanted);
        c.message(&[10, 20], &[28, verdict], if wanted.0 < 31 { (wanted.0, 1) } else { wanted });
    }
    c.message(&[20, 10, 10], &[9, 28, 24], (8, 0));
    c.message(&[20, 10, 10], &[28, 22, 28], (31, 0));
    c.message(&[10; 32], &[28; 32], (31, 0));
}

/// RFC 8461's example of a policy, from its section 3.2, and the one of its appendix A.
const SECTION_3_2: &str = "\
version: STSv1
mode: enforce
mx: mail.example.com
mx: *.example.net
mx: backupmx.example.com
max_age: 604800
";
const APPENDIX_A: &str = "\
version: STSv1
mode: testing
mx: mx1.example.com
mx: mx2.example.com
mx: mx.backup-example.com
max_age: 1296000
";

/// Document 02, No. 5: "Write the TXT text `v=STSv1; id=ID;` from an id". The first is RFC 8461's, from its section 3.1.
fn written_texts(c: &mut Check) {
    c.write_txt("20160831085700Z", Ok("v=STSv1; id=20160831085700Z;"));
    c.write_txt("a", Ok("v=STSv1; id=a;"));
    c.write_txt("Z9", Ok("v=STSv1; id=Z9;"));
    let longest = "v=STSv1; id=abcdefghijklmnopqrstuvwxyz012345;";
    c.write_txt("abcdefghijklmnopqrstuvwxyz012345", Ok(longest));
    c.same("the longest TXT text", 45, longest.len(), longest.len());
    c.write_txt("abcdefghijklmnopqrstuvwxyz0123456", Err(80));
    for id in ["", " ", "a b", "a;", "2016-08-31", "a_b", "a\n", "a\0", "\0", "\u{e9}", "=", "id=a"] {
        c.write_txt(id, Err(80));
    }
}

/// "and the policy body from a mode, a lifetime and 1 to 16 patterns (0 to 16 for mode none)"
fn written_policies(c: &mut Check) {
    c.write(1, 604_800, &["mail.example.com", "*.example.net", "backupmx.example.com"], b"", Ok(SECTION_3_2));
    c.write(2, 1_296_000, &["mx1.example.com", "mx2.example.com", "mx.backup-example.com"], b"", Ok(APPENDIX_A));
    c.write(3, 0, &[], b"", Ok("version: STSv1\nmode: none\nmax_age: 0\n"));
    c.write(3, 9, &["a"], b"", Ok("version: STSv1\nmode: none\nmx: a\nmax_age: 9\n"));
    let as_given = "version: STSv1\nmode: enforce\nmx: *.A\nmx: b\nmx: B\nmx: b\nmx: *.a\nmax_age: 10\n";
    c.write(1, 10, &["*.A", "b", "B", "b", "*.a"], b"", Ok(as_given));
    // As long as can be, and a byte more in each part of it.
    let label = "a".repeat(63);
    let name = format!("{label}.{label}.{label}.{}", "z".repeat(61));
    let (starred, longer) = (format!("*.{name}"), format!("{name}z"));
    let longest = format!("version: STSv1\nmode: testing\n{}max_age: 31557600\n", format!("mx: {starred}\n").repeat(16));
    c.write(2, 31_557_600, &[&*starred; 16], b"", Ok(&longest));
    c.same("the longest policy", 4207, longest.len(), longest.len());
    c.write(2, 31_557_600, &[&*starred; 17], b"", Err(81));
    c.write(2, 31_557_601, &[&*starred; 16], b"", Err(82));
    c.write(3, 1, &[&*name], b"", Ok(&format!("version: STSv1\nmode: none\nmx: {name}\nmax_age: 1\n")));
    c.write(3, 1, &[&*longer], b"", Err(81));
    c.write(3, 1, &[&*format!("*.{longer}")], b"", Err(81));
}

/// 67, 81, 82 and 83, "in that order".
fn refused_policies(c: &mut Check) {
    for mode in [0, 4, 5, 256 + 1, (1 << 32) + 1, u64::MAX] {
        c.write(mode, 0, &["a"], b"", Err(67));
        c.write(mode, u64::MAX, &[""], &[0], Err(67));
    }
    for lifetime in [31_557_601, 99_999_999, 1 << 32, (1 << 32) + 1, u64::MAX] {
        c.write(1, lifetime, &["a"], b"", Err(82));
        c.write(3, lifetime, &[], b"", Err(82));
        c.write(1, lifetime, &[], b"", Err(81));
        c.write(3, lifetime, &["a."], b"", Err(81));
    }
    for mode in [1, 2] {
        c.write(mode, 1, &[], b"", Err(81));
    }
    for mode in [1, 2, 3] {
        c.write(mode, 1, &["a"; 17], b"", Err(81));
        c.write(mode, 1, &["a"; 256 + 1], b"", Err(81));
        for pattern in ["", "*", "*.", "*.*.a", "a.*", "a.", "-a", "a_b", " a", "a\n", "a\nmx: b", "mx: a", "\u{e9}.example"] {
            c.write(mode, 1, &[pattern], b"", Err(81));
            c.write(mode, 1, &["a", pattern, "b"], b"", Err(81));
        }
        // Left-over bytes, a length of nothing, one that is not there, and a sum that is right but for its 33rd bit.
        for more in [&[0][..], &[0, 0], &[0, 0, 0], &[0, 0, 0, 0], &[0, 0, 0, 1], &[255, 255, 255, 255, 0, 0, 0, 1]] {
            c.write(mode, 1, &["a", "b"], more, Err(81));
            c.write(mode, 1, &[], more, Err(81));
        }
    }
}

/// "Rewriting takes a body (50 to 52, then 81 for over 16 patterns, 83) and keeps mode, lifetime and patterns in order, but no
/// other field."
fn rewritten_policies(c: &mut Check) {
    for text in [SECTION_3_2, APPENDIX_A] {
        c.rewrite(text, Ok(text));
        c.rewrite(&text.replace('\n', "\r\n"), Ok(text));
        c.rewrite(text.trim_end(), Ok(text));
        c.rewrite(&text.replace(": ", ":\t ").replace('\n', " \t\r\n"), Ok(text));
        c.rewrite(&text.replace(": ", ":"), Ok(text));
        let further = "mode: none\nmax_age: x\nversion: STSv2\nMX: a\nmx2: b\nm: c";
        c.rewrite(&format!("note: caf\u{e9} \u{1f4ec}\n{text}{further}"), Ok(text));
    }
    let none = |age: &str| format!("version: STSv1\nmode: none\nmax_age: {age}\n");
    for (age, kept) in [("0000000000", "0"), ("0000000012", "12"), ("31557600", "31557600"), ("9999999999", "31557600")] {
        c.rewrite(&format!("max_age:{age}\nmode:none\nversion:STSv1"), Ok(&none(kept)));
    }
    let with = |count: usize| format!("version: STSv1\nmode: none\n{}max_age: 1\n", "mx: *.Example.com\n".repeat(count));
    c.rewrite(&with(16), Ok(&with(16)));
    c.rewrite(&with(17), Err(81));
    c.rewrite(&with(256 + 1), Err(81));
    c.rewrite(&with(3000), Err(81));
    // What the reader refuses, also beside 17 patterns.
    for body in [with(1), with(17)] {
        c.rewrite(&format!("{body}\n"), Err(53));
        c.rewrite(&body.replace("max_age: 1\n", ""), Err(52));
        c.rewrite(&format!("{body}x:{}", "y".repeat(65_536)), Err(50));
        for (number, line) in CONTENT {
            c.rewrite(&format!("{line}\n{body}"), Err(number));
        }
    }
    c.rewrite("", Err(53));
    c.rewrite("version: STSv1\nmode: enforce\nmax_age: 1\n", Err(52));
}

/// How many passed, and the host calls among them.
pub fn run(lender: &mut Lender) -> (u64, Vec<HostCall>) {
    let mut c = Check { lender, passed: 0, hosts: Vec::new() };
    let cache = cached(&mut c);
    cached_in_a_full_table(&mut c, cache);
    c.txt("v=STSv1; id=20160831085700Z;", (6, 12, 15));
    c.txt("v=STSv1; id=20160831085700Z", (6, 12, 15));
    c.txt("v=STSv1; id=20160831085700Z; ;", (42, 0, 0));
    c.txt("v=STSv1;id=abcdefghijklmnopqrstuvwxyz012345", (6, 11, 32));
    c.txt("v=STSv1;id=abcdefghijklmnopqrstuvwxyz0123456", (42, 0, 0));
    c.txt("v=STSv1 ;id=a", (40, 0, 0));
    c.txt("v=STSv1;", (42, 0, 0));
    c.txt("v=STSv1; id=a ", (42, 0, 0));
    c.txt("v=STSv1; id=a \t; ", (6, 12, 1));

    policies(&mut c);
    policies_that_offend(&mut c);
    policies_of_many_lines(&mut c);

    let with = |base: &HostCall, change: &dyn Fn(&mut HostCall)| {
        let mut call = base.clone();
        change(&mut call);
        call
    };
    // "secure, zero records, plain host, no policy, not offered: 1. The same with only a usage 1 record: 24. That record and TLS
    // established: 2."
    c.host("zero records, not offered", &with(&plain(), &|c| c.starttls = 2), (1, 1));
    let unusable = with(&plain(), &|c| c.tlsa[0] = one_record(&[1, 0, 0, 7]));
    c.host("usage 1, not offered", &with(&unusable, &|c| c.starttls = 2), (24, 1));
    c.host("usage 1, established", &with(&unusable, &|c| (c.starttls, c.handshake) = (1, 1)), (2, 1));
    c.host("usage 1, handshake failed", &with(&unusable, &|c| (c.starttls, c.handshake) = (1, 2)), (25, 1));
    // Questions.
    c.host("nothing known", &with(&plain(), &|c| c.tlsa_answers = 0), (14, 0));
    c.host("TLSA known", &plain(), (10, 1));
    c.host("offered", &with(&plain(), &|c| c.starttls = 1), (11, 1));
    c.host("handshake without STARTTLS", &with(&plain(), &|c| c.handshake = 1), (66, 0));
    // The patterns, and the time left, by way of 23.
    let policy = |pattern: &str, host: &str, clock: u64| {
        with(&plain(), &|c| {
            c.policy_given = 1;
            c.policy = format!("version: STSv1\nmode: enforce\nmx: {pattern}\nmax_age: 604800\n").into_bytes();
            (c.fetched, c.clock) = (1000, clock);
            c.host = host.as_bytes().to_vec();
        })
    };
    c.host("*.example.com, mail", &policy("*.example.com", "mail.example.com", 605_799), (10, 1));
    c.host("*.example.com, bare", &policy("*.example.com", "example.com", 605_799), (23, 0));
    c.host("*.example.com, two labels", &policy("*.example.com", "a.b.example.com", 605_799), (23, 0));
    c.host("stale", &policy("*.example.com", "a.b.example.com", 605_800), (10, 1));
    // "53 to 57 stand wherever 51 stood": between 61 and 64, also for a stale policy.
    for (number, line) in [(53, ""), CONTENT[0], CONTENT[1], CONTENT[2], CONTENT[3]] {
        let offending = with(&policy("*.example.com", "mail.example.com", 700_000), &|c| {
            c.policy = [line.as_bytes(), b"\n", &c.policy].concat();
            c.tlsa[0].lengths = vec![0];
        });
        c.host(line, &offending, (number, 0));
        c.host(line, &with(&offending, &|c| c.host.push(b'.')), (61, 0));
    }
    // "record `3 1 1` with the leaf's key digest, live enforce policy with a pattern for the host, no DNS-ID: 27", at 03 03 hex.
    let both = with(&policy("*.example.com", "mail.example.com", 605_799), &|c| {
        c.tlsa[0] = one_record(&[&[3, 1, 1][..], &[4; 32]].concat());
        (c.starttls, c.handshake, c.certificates_given) = (1, 1, 1);
        c.certificates = b"certificate".to_vec();
        c.certificate_lengths = list(&[11]);
        c.key_places = list(&[2, 3]);
        c.digests = [vec![1; 32], vec![2; 64], vec![4; 32], vec![5; 64]].concat();
        c.paths = list(&[1]);
        (c.trusted_root, c.common_name_given) = (1, 2);
    });
    c.host("no DNS-ID", &both, (27, 1));
    let named = with(&both, &|c| {
        c.dns_ids = b"MAIL.example.com".to_vec();
        c.dns_id_lengths = list(&[16]);
    });
    c.host("both", &named, (5, 1));
    c.host("DANE alone", &with(&both, &|c| c.policy_given = 2), (3, 1));
    c.host("MTA-STS alone", &with(&named, &|c| c.tlsa[0].result = 3), (4, 1));
    c.host("a policy rescues no mismatch", &with(&named, &|c| c.tlsa[0].records[34] = 5), (26, 1));
    c.host("no certificate", &with(&named, &|c| {
        (c.certificates, c.certificate_lengths, c.key_places, c.digests, c.paths) = Default::default()
    }), (26, 1));

    expanded_next_hops(&mut c);
    refused_next_hops(&mut c);
    old_versions(&mut c, &named);
    ignored_versions(&mut c, &named);
    digest_examples::run(&mut c);

    written_texts(&mut c);
    written_policies(&mut c);
    refused_policies(&mut c);
    rewritten_policies(&mut c);

    // "Preferences A 20, B 10, C 10 and verdicts A 9, B 22, C 24: 8 with A. With C 9: 8 with C. With A 26, B 22, C 24: 31."
    c.message(&[20, 10, 10], &[9, 22, 24], (8, 0));
    c.message(&[20, 10, 10], &[9, 22, 9], (8, 2));
    c.message(&[20, 10, 10], &[26, 22, 24], (31, 0));
    listed_verdicts(&mut c);
    certificate_examples::run(&mut c);
    (c.passed, c.hosts)
}
