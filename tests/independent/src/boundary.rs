//! The archive's functions as the C boundary declares them, and safe wrappers.
//!
//! Every slice is lent as a copy, in one of several ways, chosen per call: before a page that can't be touched (reading past the
//! slice stops the program), after such a page, or in the open, at some offset from a boundary of 16 bytes; an empty one also as
//! NULL. Other bytes stand beside it, which change from call to call. After the call each copy must still hold what it held, and
//! what stands beside it too. A cache's table is lent likewise, at offsets from the boundary that keep it aligned to 8.

use crate::random::Random;
use independent_rules::cache::{Entry, LookupAnswer, StoreAnswer};
use independent_rules::certificate::CertificateAnswer;
use independent_rules::exports::{Host, Message, Txt, Write};
use independent_rules::publish::WriteAnswer;
use independent_rules::rules::{HostAnswer, HostCall, MessageAnswer, PolicyAnswer, TxtAnswer};
use std::cell::Cell;
use std::ffi::c_void;

#[rustfmt::skip]
#[link(name = "tweedstork", kind = "static")]
extern "C" {
    fn tweedstork_read_txt(
        rdatas: *const u8, rdatas_length: usize,
        lengths: *const u8, lengths_length: usize,
        output: *mut u8, output_length: usize) -> Txt;
    fn tweedstork_read_policy(body: *const u8, body_length: usize) -> PolicyAnswer;
    fn tweedstork_judge_host(
        clock: u64,
        next_hop: *const u8, next_hop_length: usize,
        expanded_next_hop_given: u64,
        expanded_next_hop: *const u8, expanded_next_hop_length: usize,
        origin: u64,
        host: *const u8, host_length: usize,
        address: u64,
        expanded: *const u8, expanded_length: usize,
        policy_given: u64,
        policy: *const u8, policy_length: usize,
        fetched: u64,
        tlsa_answers: u64,
        tlsa1_result: u64,
        tlsa1_lengths: *const u8, tlsa1_lengths_length: usize,
        tlsa1_records: *const u8, tlsa1_records_length: usize,
        tlsa2_result: u64,
        tlsa2_lengths: *const u8, tlsa2_lengths_length: usize,
        tlsa2_records: *const u8, tlsa2_records_length: usize,
        starttls: u64,
        handshake: u64,
        tls_version: u64,
        certificates_given: u64,
        certificates: *const u8, certificates_length: usize,
        certificate_lengths: *const u8, certificate_lengths_length: usize,
        key_places: *const u8, key_places_length: usize,
        digests: *const u8, digests_length: usize,
        paths: *const u8, paths_length: usize,
        trusted_root: u64,
        dns_ids: *const u8, dns_ids_length: usize,
        dns_id_lengths: *const u8, dns_id_lengths_length: usize,
        common_name_given: u64,
        common_name: *const u8, common_name_length: usize) -> Host;
    fn tweedstork_next_host(
        mx_lookup: u64,
        preferences: *const u8, preferences_length: usize,
        verdicts: *const u8, verdicts_length: usize) -> Message;
    fn tweedstork_cache_store(
        clock: u64,
        domain: *const u8, domain_length: usize,
        id: *const u8, id_length: usize,
        policy: *const u8, policy_length: usize,
        table: *mut Entry, table_length: usize,
        texts: *mut u8, texts_length: usize) -> Write;
    fn tweedstork_cache_lookup(
        clock: u64,
        domain: *const u8, domain_length: usize,
        table: *const Entry, table_length: usize,
        texts: *const u8, texts_length: usize) -> LookupAnswer;
    fn tweedstork_write_txt(
        id: *const u8, id_length: usize,
        output: *mut u8, output_length: usize) -> Write;
    fn tweedstork_write_policy(
        mode: u64,
        lifetime: u64,
        patterns: *const u8, patterns_length: usize,
        pattern_lengths: *const u8, pattern_lengths_length: usize,
        output: *mut u8, output_length: usize) -> Write;
    fn tweedstork_rewrite_policy(
        body: *const u8, body_length: usize,
        output: *mut u8, output_length: usize) -> Write;
    fn tweedstork_read_certificate(
        certificate: *const u8, certificate_length: usize,
        places: *mut u8, places_length: usize) -> CertificateAnswer;
    fn tweedstork_judge_host_certificate(
        clock: u64,
        next_hop: *const u8, next_hop_length: usize,
        expanded_next_hop_given: u64,
        expanded_next_hop: *const u8, expanded_next_hop_length: usize,
        origin: u64,
        host: *const u8, host_length: usize,
        address: u64,
        expanded: *const u8, expanded_length: usize,
        policy_given: u64,
        policy: *const u8, policy_length: usize,
        fetched: u64,
        tlsa_answers: u64,
        tlsa1_result: u64,
        tlsa1_lengths: *const u8, tlsa1_lengths_length: usize,
        tlsa1_records: *const u8, tlsa1_records_length: usize,
        tlsa2_result: u64,
        tlsa2_lengths: *const u8, tlsa2_lengths_length: usize,
        tlsa2_records: *const u8, tlsa2_records_length: usize,
        starttls: u64,
        handshake: u64,
        tls_version: u64,
        certificates_given: u64,
        certificates: *const u8, certificates_length: usize,
        certificate_lengths: *const u8, certificate_lengths_length: usize,
        key_places: *const u8, key_places_length: usize,
        digests: *const u8, digests_length: usize,
        paths: *const u8, paths_length: usize,
        trusted_root: u64) -> Host;
}

extern "C" {
    fn mmap(at: *mut c_void, length: usize, protection: i32, flags: i32, file: i32, offset: i64) -> *mut c_void;
    fn mprotect(at: *mut c_void, length: usize, protection: i32) -> i32;
    fn signal(number: i32, handler: extern "C" fn(i32)) -> usize;
}

thread_local! {
    /// The case that this thread runs: seed, part, case. For the report when the library touches what it was not lent.
    pub static CURRENT: Cell<(u64, &'static str, u64)> = const { Cell::new((0, "", 0)) };
}

extern "C" fn on_fault(number: i32) {
    let (seed, part, case) = CURRENT.with(|c| c.get());
    println!("FAULT (signal {number}): seed {seed} {part} case {case}");
    std::process::exit(1);
}

/// A fault (SIGSEGV, SIGBUS, SIGILL, SIGTRAP, SIGFPE) is reported with its case.
pub fn report_faults() {
    for number in [11, 7, 4, 5, 8] {
        // SAFETY: the handler prints and ends the program.
        unsafe { signal(number, on_fault) };
    }
}

const PAGE: usize = 4096;
const ROOM: usize = 44 * PAGE;
const BOUNDARY: usize = 16;
const HOST_SLICES: usize = 17;
const LEAF_HOST_SLICES: usize = 14; // without the names
const TABLE: usize = HOST_SLICES; // the slot of a cache's table
const SLOTS: usize = HOST_SLICES + 1;

/// How many bytes beside a slice are set and looked at again.
const NEAR: usize = 32;
/// What may stand there, one of them alone or all in turn: bytes that would go on with a text, end it, or spoil it, were they
/// taken for a part of the slice. They are as many as the slots, so that no two slots have the same beside them.
const BESIDE: &[u8; 18] = b"a0.\n\r \t-_*:;=Z~\0\x80\xff";

/// Where the slices of a call are lent.
#[derive(Clone, Copy, Debug)]
pub enum Side {
    /// The first slice so many bytes after a boundary; how the others stand to it changes with the turn.
    Open(usize),
    BeforeGuard,
    AfterGuard,
}

/// How the slices of a call are lent. The turn decides what stands beside them, and whether an empty one is NULL.
#[derive(Clone, Copy, Debug)]
pub struct Place {
    pub side: Side,
    pub turn: usize,
}

impl Place {
    pub fn random(r: &mut Random) -> Place {
        let open = Side::Open(r.below(BOUNDARY));
        let side = *r.pick(&[open, Side::BeforeGuard, Side::AfterGuard]);
        Place { side, turn: r.below(2 * BOUNDARY * BESIDE.len()) }
    }

    /// Each side once. From case to case a side's turns go through all that may stand beside a slice.
    pub fn each(case: u64) -> impl Iterator<Item = Place> {
        let open = (0..BOUNDARY).map(Side::Open);
        let turns = case as usize * (BOUNDARY + 3)..;
        [Side::BeforeGuard, Side::AfterGuard].into_iter().chain(open).zip(turns).map(|(side, turn)| Place { side, turn })
    }

    /// Whether a slice of this length is NULL.
    fn is_null(&self, length: usize) -> bool {
        length == 0 && self.turn % 2 == 1
    }
}

/// Memory with untouchable pages around each slot. One for each thread.
pub struct Lender {
    slots: Vec<*mut u8>,
    beside: Vec<[u8; NEAR]>,
}

impl Lender {
    pub fn new() -> Lender {
        let mut slots = Vec::new();
        for _ in 0..SLOTS {
            // SAFETY: a fresh private anonymous mapping (PROT_NONE; MAP_PRIVATE | MAP_ANONYMOUS), its middle made read-write.
            unsafe {
                let at = mmap(std::ptr::null_mut(), ROOM + 2 * PAGE, 0, 0x22, -1, 0);
                assert!(at as isize != -1, "mmap failed");
                let middle = (at as *mut u8).add(PAGE);
                assert_eq!(mprotect(middle as *mut c_void, ROOM, 3), 0, "mprotect failed");
                slots.push(middle);
            }
        }
        let alone = BESIDE.iter().map(|&b| [b; NEAR]);
        let in_turn = (0..BESIDE.len()).map(|first| std::array::from_fn(|i| BESIDE[(first + i) % BESIDE.len()]));
        Lender { slots, beside: alone.chain(in_turn).collect() }
    }

    /// What stands beside the slice of a slot.
    fn beside(&self, slot: usize, place: Place) -> [u8; NEAR] {
        self.beside[(place.turn + slot) % self.beside.len()]
    }

    /// Of a slot: what stands before a slice of this length, the slice, and what stands after it.
    fn parts(&mut self, slot: usize, length: usize, place: Place) -> [&mut [u8]; 3] {
        assert!(length + 2 * NEAR + BOUNDARY <= ROOM, "a slice too long for the lender");
        let step = if slot == TABLE { std::mem::align_of::<Entry>() } else { 1 };
        let start = match place.side {
            Side::Open(offset) => NEAR + (offset + place.turn * slot) % BOUNDARY / step * step,
            Side::BeforeGuard => ROOM - length,
            Side::AfterGuard => 0,
        };
        let end = start + length;
        // SAFETY: the slot has ROOM bytes, and the library keeps no pointer into it.
        let room = unsafe { std::slice::from_raw_parts_mut(self.slots[slot], ROOM) };
        let (front, after) = room[..(end + NEAR).min(ROOM)].split_at_mut(end);
        let (before, slice) = front.split_at_mut(start);
        [&mut before[start.saturating_sub(NEAR)..], slice, after]
    }

    /// The pointer for a slice: NULL, or a copy in the slot.
    fn lend(&mut self, slot: usize, s: &[u8], place: Place) -> *mut u8 {
        if place.is_null(s.len()) {
            return std::ptr::null_mut();
        }
        let beside = self.beside(slot, place);
        let [before, slice, after] = self.parts(slot, s.len(), place);
        before.copy_from_slice(&beside[..before.len()]);
        slice.copy_from_slice(s);
        after.copy_from_slice(&beside[..after.len()]);
        slice.as_mut_ptr()
    }

    /// Panics if the lent copy no longer holds the slice, or a byte beside it has changed.
    fn check(&mut self, slot: usize, s: &[u8], place: Place) {
        if place.is_null(s.len()) {
            return;
        }
        let beside = self.beside(slot, place);
        let [before, slice, after] = self.parts(slot, s.len(), place);
        assert!(slice == s, "an input was changed by the call");
        let same = *before == beside[..before.len()] && *after == beside[..after.len()];
        assert!(same, "a byte beside a slice was changed by the call");
    }

    /// The output is copied back.
    pub fn read_txt(&mut self, rdatas: &[u8], lengths: &[u8], output: &mut [u8], place: Place) -> TxtAnswer {
        let (r, o, l) = (self.lend(0, rdatas, place), self.lend(1, output, place), self.lend(2, lengths, place));
        // SAFETY: valid slices that don't overlap.
        let a = unsafe { tweedstork_read_txt(r, rdatas.len(), l, lengths.len(), o, output.len()) };
        output.copy_from_slice(self.parts(1, output.len(), place)[1]);
        self.check(0, rdatas, place);
        self.check(1, output, place);
        self.check(2, lengths, place);
        (a.number, a.id_start, a.id_length)
    }

    pub fn read_policy(&mut self, body: &[u8], place: Place) -> PolicyAnswer {
        let b = self.lend(0, body, place);
        // SAFETY: a valid slice.
        let a = unsafe { tweedstork_read_policy(b, body.len()) };
        self.check(0, body, place);
        a
    }

    pub fn judge_host(&mut self, c: &HostCall, place: Place) -> HostAnswer {
        let slices: [&[u8]; HOST_SLICES] = [
            &c.next_hop, &c.expanded_next_hop, &c.host, &c.expanded, &c.policy, &c.tlsa[0].lengths, &c.tlsa[0].records,
            &c.tlsa[1].lengths, &c.tlsa[1].records, &c.certificates, &c.certificate_lengths, &c.key_places, &c.digests, &c.paths,
            &c.dns_ids, &c.dns_id_lengths, &c.common_name,
        ];
        let mut p = [std::ptr::null_mut(); HOST_SLICES];
        for (i, s) in slices.iter().enumerate() {
            p[i] = self.lend(i, s, place);
        }
        // SAFETY: valid slices.
        #[rustfmt::skip]
        let a = unsafe {
            tweedstork_judge_host(
                c.clock, p[0], c.next_hop.len(), c.expanded_next_hop_given, p[1], c.expanded_next_hop.len(), c.origin,
                p[2], c.host.len(), c.address, p[3], c.expanded.len(),
                c.policy_given, p[4], c.policy.len(), c.fetched, c.tlsa_answers,
                c.tlsa[0].result, p[5], c.tlsa[0].lengths.len(), p[6], c.tlsa[0].records.len(),
                c.tlsa[1].result, p[7], c.tlsa[1].lengths.len(), p[8], c.tlsa[1].records.len(),
                c.starttls, c.handshake, c.tls_version, c.certificates_given,
                p[9], c.certificates.len(), p[10], c.certificate_lengths.len(), p[11], c.key_places.len(),
                p[12], c.digests.len(), p[13], c.paths.len(), c.trusted_root,
                p[14], c.dns_ids.len(), p[15], c.dns_id_lengths.len(), c.common_name_given, p[16], c.common_name.len())
        };
        for (i, s) in slices.iter().enumerate() {
            self.check(i, s, place);
        }
        (a.number, a.tlsa_questions)
    }

    pub fn next_host(&mut self, mx_lookup: u64, preferences: &[u8], verdicts: &[u8], place: Place) -> MessageAnswer {
        let (p, v) = (self.lend(0, preferences, place), self.lend(1, verdicts, place));
        // SAFETY: valid slices.
        let a = unsafe { tweedstork_next_host(mx_lookup, p, preferences.len(), v, verdicts.len()) };
        self.check(0, preferences, place);
        self.check(1, verdicts, place);
        (a.number, a.position)
    }

    /// Table and texts are copied back.
    pub fn cache_store(&mut self, c: &StoreCall, table: &mut [Entry], texts: &mut [u8], place: Place) -> StoreAnswer {
        let slices = [&c.domain[..], &c.id, &c.policy];
        let [d, i, p] = [0, 1, 2].map(|slot| self.lend(slot, slices[slot], place));
        let (t, x) = (self.lend(TABLE, bytes_of(table), place) as *mut Entry, self.lend(3, texts, place));
        // SAFETY: valid slices that don't overlap, the table aligned.
        #[rustfmt::skip]
        let a = unsafe {
            tweedstork_cache_store(
                c.clock, d, c.domain.len(), i, c.id.len(), p, c.policy.len(), t, table.len(), x, texts.len())
        };
        let length = bytes_of(table).len();
        bytes_of_mut(table).copy_from_slice(self.parts(TABLE, length, place)[1]);
        texts.copy_from_slice(self.parts(3, texts.len(), place)[1]);
        self.check(TABLE, bytes_of(table), place);
        self.check(3, texts, place);
        (0..3).for_each(|slot| self.check(slot, slices[slot], place));
        (a.number, a.length)
    }

    pub fn cache_lookup(&mut self, clock: u64, domain: &[u8], table: &[Entry], texts: &[u8], place: Place) -> LookupAnswer {
        let slices = [(0, domain), (TABLE, bytes_of(table)), (3, texts)];
        let [d, t, x] = slices.map(|(slot, s)| self.lend(slot, s, place));
        // SAFETY: valid slices, the table aligned.
        let a = unsafe { tweedstork_cache_lookup(clock, d, domain.len(), t as *const Entry, table.len(), x, texts.len()) };
        slices.iter().for_each(|(slot, s)| self.check(*slot, s, place));
        a
    }

    /// The output is copied back.
    pub fn write_txt(&mut self, id: &[u8], output: &mut [u8], place: Place) -> WriteAnswer {
        let (i, o) = (self.lend(0, id, place), self.lend(1, output, place));
        // SAFETY: valid slices that don't overlap.
        let a = unsafe { tweedstork_write_txt(i, id.len(), o, output.len()) };
        self.take_back(1, output, place);
        self.check(0, id, place);
        (a.number, a.length)
    }

    /// The output is copied back.
    pub fn write_policy(&mut self, c: &PolicyCall, output: &mut [u8], place: Place) -> WriteAnswer {
        let (p, o, l) = (self.lend(0, &c.patterns, place), self.lend(1, output, place), self.lend(2, &c.pattern_lengths, place));
        // SAFETY: valid slices that don't overlap.
        #[rustfmt::skip]
        let a = unsafe {
            tweedstork_write_policy(
                c.mode, c.lifetime, p, c.patterns.len(), l, c.pattern_lengths.len(), o, output.len())
        };
        self.take_back(1, output, place);
        self.check(0, &c.patterns, place);
        self.check(2, &c.pattern_lengths, place);
        (a.number, a.length)
    }

    /// The output is copied back.
    pub fn rewrite_policy(&mut self, body: &[u8], output: &mut [u8], place: Place) -> WriteAnswer {
        let (b, o) = (self.lend(0, body, place), self.lend(1, output, place));
        // SAFETY: valid slices that don't overlap.
        let a = unsafe { tweedstork_rewrite_policy(b, body.len(), o, output.len()) };
        self.take_back(1, output, place);
        self.check(0, body, place);
        (a.number, a.length)
    }

    /// The places are copied back.
    pub fn read_certificate(&mut self, certificate: &[u8], places: &mut [u8], place: Place) -> CertificateAnswer {
        let (c, p) = (self.lend(0, certificate, place), self.lend(1, places, place));
        // SAFETY: valid slices that don't overlap.
        let a = unsafe { tweedstork_read_certificate(c, certificate.len(), p, places.len()) };
        self.take_back(1, places, place);
        self.check(0, certificate, place);
        a
    }

    /// For a certificate that is longer than the lender has room: it is lent as it is.
    pub fn read_long_certificate(&mut self, certificate: &[u8], places: &mut [u8]) -> CertificateAnswer {
        // SAFETY: valid slices that don't overlap.
        unsafe { tweedstork_read_certificate(certificate.as_ptr(), certificate.len(), places.as_mut_ptr(), places.len()) }
    }

    /// The names of the call are not lent, and its key places have no pair for the leaf.
    pub fn judge_host_certificate(&mut self, c: &HostCall, place: Place) -> HostAnswer {
        let slices: [&[u8]; LEAF_HOST_SLICES] = [
            &c.next_hop, &c.expanded_next_hop, &c.host, &c.expanded, &c.policy, &c.tlsa[0].lengths, &c.tlsa[0].records,
            &c.tlsa[1].lengths, &c.tlsa[1].records, &c.certificates, &c.certificate_lengths, &c.key_places, &c.digests, &c.paths,
        ];
        let mut p = [std::ptr::null_mut(); LEAF_HOST_SLICES];
        for (i, s) in slices.iter().enumerate() {
            p[i] = self.lend(i, s, place);
        }
        // SAFETY: valid slices.
        #[rustfmt::skip]
        let a = unsafe {
            tweedstork_judge_host_certificate(
                c.clock, p[0], c.next_hop.len(), c.expanded_next_hop_given, p[1], c.expanded_next_hop.len(), c.origin,
                p[2], c.host.len(), c.address, p[3], c.expanded.len(),
                c.policy_given, p[4], c.policy.len(), c.fetched, c.tlsa_answers,
                c.tlsa[0].result, p[5], c.tlsa[0].lengths.len(), p[6], c.tlsa[0].records.len(),
                c.tlsa[1].result, p[7], c.tlsa[1].lengths.len(), p[8], c.tlsa[1].records.len(),
                c.starttls, c.handshake, c.tls_version, c.certificates_given,
                p[9], c.certificates.len(), p[10], c.certificate_lengths.len(), p[11], c.key_places.len(),
                p[12], c.digests.len(), p[13], c.paths.len(), c.trusted_root)
        };
        for (i, s) in slices.iter().enumerate() {
            self.check(i, s, place);
        }
        (a.number, a.tlsa_questions)
    }

    /// The output becomes what stands in its copy. Panics if a byte beside that has changed.
    fn take_back(&mut self, slot: usize, output: &mut [u8], place: Place) {
        output.copy_from_slice(self.parts(slot, output.len(), place)[1]);
        self.check(slot, output, place);
    }
}

/// The arguments of a policy that is to be written, but for the output.
#[derive(Clone, Debug)]
pub struct PolicyCall {
    pub mode: u64,
    pub lifetime: u64,
    pub patterns: Vec<u8>,
    pub pattern_lengths: Vec<u8>,
}

/// The arguments of a store, but for table and texts.
#[derive(Clone, Debug)]
pub struct StoreCall {
    pub clock: u64,
    pub domain: Vec<u8>,
    pub id: Vec<u8>,
    pub policy: Vec<u8>,
}

/// A table as bytes: an entry has no other padding than the one that it names.
fn bytes_of(table: &[Entry]) -> &[u8] {
    // SAFETY: the memory of the entries, each byte of which is some field's.
    unsafe { std::slice::from_raw_parts(table.as_ptr() as *const u8, std::mem::size_of_val(table)) }
}

fn bytes_of_mut(table: &mut [Entry]) -> &mut [u8] {
    // SAFETY: as above, and any bytes are an entry.
    unsafe { std::slice::from_raw_parts_mut(table.as_mut_ptr() as *mut u8, std::mem::size_of_val(table)) }
}

const _: () = assert!(std::mem::size_of::<Entry>() == 253 + 32 + 3 + 8 + 8);
const _: () = assert!(std::mem::size_of::<PolicyAnswer>() == 6 * 8);
const _: () = assert!(std::mem::size_of::<CertificateAnswer>() == 9 * 8);
