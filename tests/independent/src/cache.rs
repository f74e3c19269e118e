//! Document 02, No. 1 ("A policy cache"), written independently of the library, over the rules of document 01. Comments quote
//! document 02; "reading n" is its list of readings in the page of the C boundary.

use crate::rules::{is_clock, is_id, is_live, is_name, read_policy};

pub const ENTRIES: usize = 64;
pub const ROOM: usize = 1024;
pub const TEXTS: usize = ENTRIES * ROOM;

/// "domain, id, fetch reading and length (domain and id filled up with zeros to 253 and 32 bytes, the numbers eight bytes each)".
/// The padding is C's, named here so that an entry is bytes throughout; no rule reads it, and a store leaves it as it is.
#[repr(C)]
#[derive(Clone, Copy, PartialEq, Debug)]
pub struct Entry {
    pub domain: [u8; 253],
    pub id: [u8; 32],
    pub padding: [u8; 3],
    pub fetched: u64,
    pub length: u64,
}

impl Entry {
    pub const ZERO: Entry = Entry { domain: [0; 253], id: [0; 32], padding: [0; 3], fetched: 0, length: 0 };
}

/// Number and length.
pub type StoreAnswer = (u64, u64);

/// A refusal has zeros in all other fields.
#[repr(C)]
#[derive(Clone, Copy, PartialEq, Debug, Default)]
pub struct LookupAnswer {
    pub number: u64,
    pub length: u64,
    pub text_start: u64,
    pub text_length: u64,
    pub fetched: u64,
    pub id_length: u64,
    pub id: [u8; 32],
}

// ---------------------------------------------------------------------------------------------------------------- one entry

/// What an entry holds.
struct Held<'a> {
    domain: &'a [u8],
    id: &'a [u8],
    fetched: u64,
    lifetime: u64,
    text: &'a [u8],
}

impl Held<'_> {
    fn is_own(&self, domain: &[u8]) -> bool {
        self.domain.eq_ignore_ascii_case(domain)
    }

    fn is_live(&self, clock: u64) -> bool {
        is_live(self.fetched, self.lifetime, clock)
    }
}

fn less_final_zeros(mut s: &[u8]) -> &[u8] {
    while let [rest @ .., 0] = s {
        s = rest;
    }
    s
}

fn filled_up<const N: usize>(s: &[u8]) -> [u8; N] {
    let mut filled = [0; N];
    filled[..s.len()].copy_from_slice(s);
    filled
}

/// "An entry whose length is over 1,024, or whose domain or id (less its final zeros), fetch reading or text wouldn't be accepted,
/// counts as empty": None. `room` is the entry's 1,024 bytes of text.
fn held<'a>(entry: &'a Entry, room: &'a [u8]) -> Option<Held<'a>> {
    if entry.length > ROOM as u64 {
        return None;
    }
    let (domain, id) = (less_final_zeros(&entry.domain), less_final_zeros(&entry.id));
    let text = &room[..entry.length as usize];
    let policy = read_policy(text);
    let accepted = is_name(domain) && is_id(id) && is_clock(entry.fetched) && policy.number == 7;
    accepted.then_some(Held { domain, id, fetched: entry.fetched, lifetime: policy.lifetime, text })
}

// ---------------------------------------------------------------------------------------------------------------- the table

/// "64 entries (...), and for each entry 1,024 bytes of policy text in a second lent buffer"
fn table_held<'a>(table: &'a [Entry], texts: &'a [u8]) -> Vec<Option<Held<'a>>> {
    table.iter().zip(texts.chunks(ROOM)).map(|(entry, room)| held(entry, room)).collect()
}

/// "the domain's own entry (of several the lowest counts, in lookups too)". Reading 6: whether it is stale or not; one that counts
/// as empty is not own.
fn own(entries: &[Option<Held>], domain: &[u8]) -> Option<usize> {
    entries.iter().position(|e| e.as_ref().is_some_and(|h| h.is_own(domain)))
}

/// Where a store goes.
#[derive(Clone, Copy, PartialEq, Debug)]
pub enum Target {
    Own(usize),
    Empty(usize),
    Stale(usize),
}

impl Target {
    pub fn position(self) -> usize {
        match self {
            Target::Own(i) | Target::Empty(i) | Target::Stale(i) => i,
        }
    }
}

/// "replaces the domain's own entry (...), else takes an empty one, else one that is stale by then, lowest position first"
fn target(table: &[Entry], texts: &[u8], clock: u64, domain: &[u8]) -> Option<Target> {
    let entries = table_held(table, texts);
    let empty = || entries.iter().position(|e| e.is_none());
    let stale = || entries.iter().position(|e| e.as_ref().is_some_and(|h| !h.is_live(clock)));
    None.or_else(|| own(&entries, domain).map(Target::Own))
        .or_else(|| empty().map(Target::Empty))
        .or_else(|| stale().map(Target::Stale))
}

// ---------------------------------------------------------------------------------------------------------------- the calls

/// "74 when table or buffer has another size", then 62 and 60: the checks that both calls begin with.
fn refusal(clock: u64, domain: &[u8], table: &[Entry], texts: &[u8]) -> Option<u64> {
    if table.len() != ENTRIES || texts.len() != TEXTS {
        return Some(74);
    }
    if !is_clock(clock) {
        return Some(62);
    }
    (!is_name(domain)).then_some(60)
}

/// "Order: 74, 62, 60, 80, 50 to 52, 71, 70; a refusal changes nothing, a store only its entry and the text's bytes." With No. 2
/// "53 to 57 stand wherever 51 stood". Where the policy went, or the number of a refusal.
pub fn stored(clock: u64, domain: &[u8], id: &[u8], policy: &[u8], table: &mut [Entry], texts: &mut [u8]) -> Result<Target, u64> {
    if let Some(number) = refusal(clock, domain, table, texts) {
        return Err(number);
    }
    // "80 when the id isn't 1 to 32 letters or digits"
    if !is_id(id) {
        return Err(80);
    }
    let number = read_policy(policy).number;
    if number != 7 {
        return Err(number);
    }
    // "71 when the text is over 1,024 bytes"
    if policy.len() > ROOM {
        return Err(71);
    }
    // "70 exactly when no such entry exists"
    let target = target(table, texts, clock, domain).ok_or(70u64)?;
    // "Storing takes the call's clock as fetch reading". Reading 7: the domain as spelled, and only the text's own bytes.
    let i = target.position();
    let padding = table[i].padding;
    table[i] = Entry { domain: filled_up(domain), id: filled_up(id), padding, fetched: clock, length: policy.len() as u64 };
    texts[ROOM * i..ROOM * i + policy.len()].copy_from_slice(policy);
    Ok(target)
}

/// "A new call that succeeds answers 15 and the length it wrote to its output, 0 where it has none (as here)".
pub fn store_answer(stored: Result<Target, u64>) -> StoreAnswer {
    match stored {
        Ok(_) => (15, 0),
        Err(number) => (number, 0),
    }
}

pub fn store(clock: u64, domain: &[u8], id: &[u8], policy: &[u8], table: &mut [Entry], texts: &mut [u8]) -> StoreAnswer {
    store_answer(stored(clock, domain, id, policy, table, texts))
}

/// "Looking up (74, 62, 60 first) hands back the live policy's text as a part of the lent buffer, with id and fetch reading, or
/// 72."
pub fn lookup(clock: u64, domain: &[u8], table: &[Entry], texts: &[u8]) -> LookupAnswer {
    let refused = |number| LookupAnswer { number, ..Default::default() };
    if let Some(number) = refusal(clock, domain, table, texts) {
        return refused(number);
    }
    let entries = table_held(table, texts);
    let Some(i) = own(&entries, domain) else { return refused(72) };
    match &entries[i] {
        Some(h) if h.is_live(clock) => LookupAnswer {
            number: 15,
            length: 0,
            text_start: (ROOM * i) as u64,
            text_length: h.text.len() as u64,
            fetched: h.fetched,
            id_length: h.id.len() as u64,
            id: filled_up(h.id),
        },
        _ => refused(72),
    }
}
