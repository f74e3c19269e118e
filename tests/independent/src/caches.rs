//! Random caches and calls on them. What an entry or a call is made of comes from a small pool, so that entries are often valid,
//! domains often meet, and policies are live or stale by a second; then one thing of it is damaged.

use crate::boundary::StoreCall;
use crate::inputs::{self, bad_name, damage, letters, name_of_length, offend, other_case, padded, EDGES, LAST_CLOCK};
use crate::random::Random;
use independent_rules::cache::{Entry, ENTRIES, ROOM, TEXTS};

/// The memory of a cache.
#[derive(Clone, PartialEq)]
pub struct Cache {
    pub table: Vec<Entry>,
    pub texts: Vec<u8>,
}

impl Cache {
    pub fn zero() -> Cache {
        Cache { table: vec![Entry::ZERO; ENTRIES], texts: vec![0; TEXTS] }
    }

    /// Puts an entry down unchecked, as some other program may have; the bytes after the text stay.
    pub fn put(&mut self, i: usize, domain: &[u8], id: &[u8], fetched: u64, text: &[u8]) {
        let entry = &mut self.table[i];
        *entry = Entry { padding: entry.padding, fetched, length: text.len() as u64, ..Entry::ZERO };
        entry.domain[..domain.len()].copy_from_slice(domain);
        entry.id[..id.len()].copy_from_slice(id);
        self.texts[ROOM * i..][..text.len()].copy_from_slice(text);
    }
}

#[derive(Clone, Debug)]
pub enum Call {
    Store(StoreCall),
    Lookup { clock: u64, domain: Vec<u8> },
}

/// What a case draws from. The first domain is the one that calls are mostly for.
pub struct Pool {
    pub domains: Vec<Vec<u8>>,
    pub clock: u64,
    ages: &'static [Age],
}

/// max_age as written, and the seconds that count.
type Age = (&'static str, u64);

/// The last ones are long.
const AGES: [Age; 8] = [
    ("0", 0),
    ("1", 1),
    ("100", 100),
    ("0000000100", 100),
    ("604800", 604_800),
    ("31557600", 31_557_600),
    ("31557601", 31_557_600),
    ("9999999999", 31_557_600),
];

/// An accepted policy with its lifetime.
pub struct Text {
    pub body: Vec<u8>,
    pub lifetime: u64,
}

impl Pool {
    /// The first domain, some that are nearly the same, and others. Where policies are to last, none is of a few seconds.
    pub fn new(r: &mut Random, domains: usize, lasting: bool) -> Pool {
        let first = match r.below(8) {
            0 => {
                let n = *r.pick(&[1, 2, 63, 64, 252, 253]);
                name_of_length(r, n)
            }
            _ => b"mail-1.Example.com".to_vec(),
        };
        let mut domains: Vec<Vec<u8>> = (0..domains).map(|i| format!("d{i}.example").into_bytes()).collect();
        for i in 1..domains.len().min(1 + r.below(6)) {
            domains[i] = near(r, &first);
        }
        domains[0] = first;
        let clock = match r.below(6) {
            0 => *r.pick(&[0, 1, 99, 100, 101, 31_557_600, 31_557_601, LAST_CLOCK - 1, LAST_CLOCK]),
            _ => r.between(1_000_000_000, 2_000_000_000) as u64,
        };
        let ages = if lasting { &AGES[4..] } else { &AGES[..] };
        Pool { domains, clock, ages }
    }

    /// A domain that is not the first, in some spelling.
    fn other(&self, r: &mut Random) -> Vec<u8> {
        let i = r.between(1, self.domains.len() - 1);
        spelled(r, &self.domains[i])
    }

    /// Mostly the first.
    pub fn domain(&self, r: &mut Random) -> Vec<u8> {
        let i = if r.once_in(3) { r.below(self.domains.len()) } else { 0 };
        spelled(r, &self.domains[i])
    }

    /// Time left of -1 to 2, or anything.
    fn fetched(&self, r: &mut Random, lifetime: u64) -> u64 {
        match r.below(8) {
            0 => self.clock,
            1 => r.below(LAST_CLOCK as usize + 1) as u64,
            2 => *r.pick(&[0, 1, LAST_CLOCK, LAST_CLOCK - 1]),
            3 => (self.clock + r.between(1, 100) as u64).min(LAST_CLOCK),
            _ => (self.clock + r.below(4) as u64).saturating_sub(lifetime + 1).min(LAST_CLOCK),
        }
    }
}

/// A name that is near this one and, but by chance, another.
fn near(r: &mut Random, name: &[u8]) -> Vec<u8> {
    let mut s = name.to_vec();
    match r.below(5) {
        0 if s.len() > 1 => {
            s.pop();
        }
        1 if s.len() < 253 => s.push(b'a'),
        2 if s.len() < 252 => s.splice(0..0, *b"a.").for_each(drop),
        _ => {
            let at = if r.once_in(2) { s.len() - 1 } else { r.below(s.len()) };
            s[at] = if s[at] == b'x' { b'y' } else { b'x' };
        }
    }
    let still_a_name = s.split(|&b| b == b'.').all(|l| (1..=63).contains(&l.len()) && l[0] != b'-' && l[l.len() - 1] != b'-');
    if still_a_name { s } else { b"other.example".to_vec() }
}

fn spelled(r: &mut Random, s: &[u8]) -> Vec<u8> {
    if r.once_in(2) { other_case(r, s) } else { s.to_vec() }
}

/// Often one of two, so that a store meets its own id again.
pub fn id(r: &mut Random) -> Vec<u8> {
    if r.once_in(3) {
        return r.pick(&[&b"20160831085700Z"[..], b"abcdefghijklmnopqrstuvwxyz012345"]).to_vec();
    }
    let n = if r.once_in(4) { *r.pick(&[1, 31, 32]) } else { r.between(1, 20) };
    letters(r, n)
}

/// An accepted policy of at most 1,024 bytes, mostly short, and often the same.
pub fn text(r: &mut Random, pool: &Pool) -> Text {
    let &(age, lifetime) = r.pick(pool.ages);
    if r.once_in(4) {
        return Text { body: format!("version: STSv1\nmode: none\nmax_age: {age}\n").into_bytes(), lifetime };
    }
    let end = if r.once_in(4) { "\r\n" } else { "\n" };
    let mode = *r.pick(&["mode: none", "mode:enforce\nmx: *.example.com", "mode: testing\nmx:a.b"]);
    let mut lines = [String::from("version: STSv1"), String::from(mode), format!("max_age: {age}")];
    r.shuffle(&mut lines);
    let mut body = lines.join(end).into_bytes();
    match r.below(24) {
        0..=11 => body.extend(end.as_bytes()),
        12 => {
            let size = r.between(ROOM - 2, ROOM);
            padded(r, &mut body, size);
        }
        13 => {
            let size = r.between(body.len() + 8, ROOM);
            padded(r, &mut body, size);
        }
        _ => {}
    }
    Text { body, lifetime }
}

// ------------------------------------------------------------------------------------------------------------------- tables

/// What stands in the texts where no text does: it would end, go on with or spoil a policy that is read too far.
fn blank_texts(r: &mut Random) -> Vec<u8> {
    match r.below(4) {
        0 => vec![0; TEXTS],
        1 => vec![*r.pick(EDGES); TEXTS],
        2 => b"\nmax_age: 7\nmode: none\n\xff".repeat(TEXTS / 16)[..TEXTS].to_vec(),
        _ => r.bytes(TEXTS),
    }
}

/// The kinds of an entry.
#[derive(Clone, Copy)]
enum Kind {
    OtherLive,
    OtherStale,
    Own,
    Any,
    Damaged,
    Zero,
    Noise,
}

fn put_entry(r: &mut Random, pool: &Pool, cache: &mut Cache, i: usize, kind: Kind) {
    let Text { body, lifetime } = text(r, pool);
    let id = id(r);
    let own = matches!(kind, Kind::Own) || matches!(kind, Kind::Any | Kind::Damaged) && r.once_in(3);
    let domain = if own { spelled(r, &pool.domains[0]) } else { pool.other(r) };
    match kind {
        Kind::Zero => cache.table[i] = Entry { padding: cache.table[i].padding, ..Entry::ZERO },
        Kind::Noise => {
            let (domain, id) = (r.bytes(253), r.bytes(32));
            let (fetched, length) = (r.next() >> r.below(64), r.next() >> r.below(64));
            cache.table[i] = Entry { padding: cache.table[i].padding, fetched, length, ..Entry::ZERO };
            cache.table[i].domain.copy_from_slice(&domain);
            cache.table[i].id.copy_from_slice(&id);
        }
        Kind::OtherLive if lifetime > 0 => {
            let fetched = pool.clock.saturating_sub(r.below(lifetime as usize) as u64);
            cache.put(i, &domain, &id, fetched, &body);
        }
        Kind::OtherLive => put_entry(r, pool, cache, i, kind),
        Kind::OtherStale => cache.put(i, &domain, &id, pool.clock.saturating_sub(lifetime + r.below(3) as u64), &body),
        Kind::Own | Kind::Any => cache.put(i, &domain, &id, pool.fetched(r, lifetime), &body),
        Kind::Damaged => {
            let live = pool.clock.saturating_sub(r.below(lifetime.max(1) as usize) as u64);
            cache.put(i, &domain, &id, live, &body);
            damage_entry(r, cache, i);
        }
    }
}

/// A table of one sort throughout, with a few entries of other kinds.
pub fn cache(r: &mut Random, pool: &Pool) -> Cache {
    let mut cache = Cache { table: vec![Entry::ZERO; ENTRIES], texts: blank_texts(r) };
    for entry in cache.table.iter_mut() {
        entry.padding = [r.byte(), r.byte(), r.byte()];
    }
    let most = *r.pick(&[Kind::OtherLive, Kind::OtherLive, Kind::OtherLive, Kind::OtherStale, Kind::Any, Kind::Zero, Kind::Noise]);
    for i in 0..ENTRIES {
        put_entry(r, pool, &mut cache, i, most);
    }
    for _ in 0..r.below(5) {
        let kinds = [Kind::Own, Kind::Own, Kind::Damaged, Kind::Damaged, Kind::OtherStale, Kind::OtherLive, Kind::Any, Kind::Zero];
        let (i, kind) = (place_of(r), *r.pick(&kinds));
        put_entry(r, pool, &mut cache, i, kind);
    }
    cache
}

fn place_of(r: &mut Random) -> usize {
    if r.once_in(4) { *r.pick(&[0, ENTRIES - 1]) } else { r.below(ENTRIES) }
}

/// One thing of an entry is changed: mostly it counts as empty then, or just not.
pub fn damage_entry(r: &mut Random, cache: &mut Cache, i: usize) {
    match r.below(5) {
        0 => damage_length(r, cache, i),
        1 => damage_text(r, cache, i),
        2 => damage_domain(r, &mut cache.table[i].domain),
        3 => damage_id(r, &mut cache.table[i].id),
        _ => {
            let fetched = &mut cache.table[i].fetched;
            *fetched = *r.pick(&[LAST_CLOCK, LAST_CLOCK + 1, *fetched ^ 1 << 38, *fetched | 1 << 63, u64::MAX, 1 << 32, 0]);
        }
    }
}

/// Over 1,024 with a text that would be a policy, exactly 1,024, or a little more or less than the text.
fn damage_length(r: &mut Random, cache: &mut Cache, i: usize) {
    let length = cache.table[i].length;
    match r.below(3) {
        0 => {
            let mut body = cache.texts[ROOM * i..][..(length as usize).min(ROOM)].to_vec();
            let rest = (TEXTS - ROOM * i).min(ROOM + 2);
            if body.len() + 8 < ROOM {
                padded(r, &mut body, rest);
            }
            cache.texts[ROOM * i..][..body.len()].copy_from_slice(&body);
            cache.table[i].length = r.between(ROOM - 1, ROOM + 2) as u64;
        }
        1 => cache.table[i].length = *r.pick(&[0, 1, length.wrapping_add(1), length.wrapping_sub(1), length ^ 7, length / 2]),
        _ => {
            let high = [length ^ 1 << 32, length ^ 1 << 63, length ^ 65_536, length ^ 256, length ^ 1024, u64::MAX];
            cache.table[i].length = *r.pick(&high);
        }
    }
}

/// A byte of the text, or one after it, where it doesn't count.
fn damage_text(r: &mut Random, cache: &mut Cache, i: usize) {
    let length = (cache.table[i].length as usize).clamp(1, ROOM);
    let at = match r.below(4) {
        0 => length - 1,
        1 => length.min(ROOM - 1),
        _ => r.below(length),
    };
    cache.texts[ROOM * i + at] = *r.pick(EDGES);
}

fn length_of(field: &[u8]) -> usize {
    field.iter().rposition(|&b| b != 0).map_or(0, |last| last + 1)
}

fn damage_domain(r: &mut Random, field: &mut [u8; 253]) {
    let n = length_of(field);
    match r.below(9) {
        0 => field[r.below(n.max(1))] = 0,
        1 => field[r.below(n.max(1))] = *r.pick(EDGES),
        2 => field[n.min(252)] = *r.pick(b"a.-_\0"),
        3 => field[r.between(n.min(252), 252)] = b'a',
        4 => field[252] = *r.pick(b"a\x01"),
        5 => *field = [0; 253],
        6 => field.copy_from_slice(&name_of_length(r, 253)),
        7 => {
            let at = r.below(253);
            field.copy_from_slice(&name_of_length(r, 253));
            field[at] = *r.pick(EDGES);
        }
        _ => {
            let bad = bad_name(r, &field[..n]);
            let kept = bad.len().min(253);
            *field = [0; 253];
            field[..kept].copy_from_slice(&bad[..kept]);
        }
    }
}

fn damage_id(r: &mut Random, field: &mut [u8; 32]) {
    let n = length_of(field);
    match r.below(6) {
        0 => field[r.below(n.max(1))] = 0,
        1 => field[r.below(n.max(1))] = *r.pick(EDGES),
        2 => field[r.between(n.min(31), 31)] = *r.pick(b"a\x01-"),
        3 => *field = [0; 32],
        4 => field.copy_from_slice(&letters(r, 32)),
        _ => {
            field.copy_from_slice(&letters(r, 32));
            field[31] = *r.pick(EDGES);
        }
    }
}

/// Table or texts get another size.
pub fn resize(r: &mut Random, cache: &mut Cache) {
    if r.once_in(2) {
        let last = cache.table[ENTRIES - 1];
        cache.table.resize(*r.pick(&[0, 1, 32, 63, 65, 128]), last);
    }
    if cache.table.len() == ENTRIES || r.once_in(4) {
        cache.texts.resize(*r.pick(&[0, 1, 64, 1024, 65_535, 65_537, 64_512, 66_560, 131_072]), b'a');
    }
}

// -------------------------------------------------------------------------------------------------------------------- calls

fn bad_id(r: &mut Random) -> Vec<u8> {
    match r.below(4) {
        0 => vec![],
        1 => {
            let n = *r.pick(&[33, 34, 64]);
            letters(r, n)
        }
        _ => {
            let mut s = id(r);
            let at = if r.once_in(2) { s.len() - 1 } else { r.below(s.len()) };
            s[at] = *r.pick(b"\0-_.:@[`{/ \x7f\x80\xff");
            s
        }
    }
}

/// Mostly refused, with 50 or 52 to 57; or over 1,024 bytes.
fn bad_policy(r: &mut Random, pool: &Pool) -> Vec<u8> {
    let mut body = text(r, pool).body;
    match r.below(9) {
        0 | 1 => {
            let size = *r.pick(&[65_536, 65_537, 65_537, 65_538]);
            padded(r, &mut body, size);
        }
        2 => body = b"version: STSv1\nmode: enforce\nmax_age: 5\n".to_vec(),
        3 => {
            body = b"mode: none\nmax_age: 100\n".to_vec();
            let size = *r.pick(&[40, 1024, 1025]);
            padded(r, &mut body, size);
        }
        4 => body.clear(),
        5 => body.truncate(r.below(body.len())),
        6 => body.resize(*r.pick(&[1024, 1025, 65_536, 65_537]), b'\n'),
        _ => damage(r, &mut body),
    }
    body
}

/// A line of it offends: 53 to 57. A few are over 1,024 bytes too.
fn offending_policy(r: &mut Random, pool: &Pool) -> Vec<u8> {
    let mut body = text(r, pool).body;
    offend(r, &mut body);
    if r.once_in(10) {
        padded(r, &mut body, ROOM + 1);
    }
    body
}

fn long_policy(r: &mut Random, pool: &Pool) -> Vec<u8> {
    let mut body = text(r, pool).body;
    let size = if r.once_in(2) { ROOM + 1 } else { *r.pick(&[1026, 1100, 2048, 4096, 65_536]) };
    if body.len() + 8 < size {
        padded(r, &mut body, size);
    }
    body
}

fn bad_clock(r: &mut Random) -> u64 {
    *r.pick(&[LAST_CLOCK + 1, LAST_CLOCK + 2, 1 << 38, 1 << 63, u64::MAX])
}

/// A call at the pool's clock; one in four has faults, several at once. Of the other stores a few have a policy that offends.
pub fn call(r: &mut Random, pool: &Pool) -> Call {
    let faults = r.once_in(4);
    let fault = |r: &mut Random| faults && r.once_in(4);
    let clock = if fault(r) { bad_clock(r) } else { pool.clock };
    let domain = pool.domain(r);
    let domain = if fault(r) { bad_name(r, &domain) } else { domain };
    if r.once_in(3) {
        return Call::Lookup { clock, domain };
    }
    let id = if fault(r) { bad_id(r) } else { id(r) };
    let policy = match faults && r.once_in(2) {
        true if r.once_in(3) => long_policy(r, pool),
        true => bad_policy(r, pool),
        false if r.once_in(40) => inputs::policy(r),
        false if r.once_in(20) => offending_policy(r, pool),
        false => text(r, pool).body,
    };
    Call::Store(StoreCall { clock, domain, id, policy })
}
