//! The arguments of a call in words, for the report on a difference.

use crate::boundary::PolicyCall;
use crate::caches::{Cache, Call};
use independent_rules::cache::{Entry, ROOM};
use independent_rules::rules::HostCall;

fn hex(s: &[u8]) -> String {
    let mut out = format!("[{}] ", s.len());
    for b in s {
        out.push_str(&format!("{b:02x}"));
    }
    out
}

pub fn txt(rdatas: &[u8], lengths: &[u8], output: &[u8]) -> String {
    format!("  rdatas {}\n  lengths {}\n  output {}", hex(rdatas), hex(lengths), hex(output))
}

pub fn policy(body: &[u8]) -> String {
    format!("  body {}\n  {:?}", hex(body), String::from_utf8_lossy(body))
}

pub fn host(c: &HostCall) -> String {
    let n = |name: &str, number: u64| format!("  {name} {number}\n");
    let s = |name: &str, slice: &[u8]| format!("  {name} {} {:?}\n", hex(slice), String::from_utf8_lossy(slice));
    [
        n("clock", c.clock),
        s("next_hop", &c.next_hop),
        n("expanded_next_hop_given", c.expanded_next_hop_given),
        s("expanded_next_hop", &c.expanded_next_hop),
        n("origin", c.origin),
        s("host", &c.host),
        n("address", c.address),
        s("expanded", &c.expanded),
        n("policy_given", c.policy_given),
        s("policy", &c.policy),
        n("fetched", c.fetched),
        n("tlsa_answers", c.tlsa_answers),
        n("tlsa1_result", c.tlsa[0].result),
        s("tlsa1_lengths", &c.tlsa[0].lengths),
        s("tlsa1_records", &c.tlsa[0].records),
        n("tlsa2_result", c.tlsa[1].result),
        s("tlsa2_lengths", &c.tlsa[1].lengths),
        s("tlsa2_records", &c.tlsa[1].records),
        n("starttls", c.starttls),
        n("handshake", c.handshake),
        n("tls_version", c.tls_version),
        n("certificates_given", c.certificates_given),
        s("certificates", &c.certificates),
        s("certificate_lengths", &c.certificate_lengths),
        s("key_places", &c.key_places),
        s("digests", &c.digests),
        s("paths", &c.paths),
        n("trusted_root", c.trusted_root),
        s("dns_ids", &c.dns_ids),
        s("dns_id_lengths", &c.dns_id_lengths),
        n("common_name_given", c.common_name_given),
        s("common_name", &c.common_name),
    ]
    .concat()
}

/// Without the names.
pub fn host_certificate(c: &HostCall) -> String {
    let all = host(c);
    all.split_inclusive('\n').take_while(|line| !line.starts_with("  dns_ids")).collect()
}

pub fn certificate(certificate: &[u8], places: &[u8]) -> String {
    format!("  certificate {}\n  places {}", hex(certificate), hex(places))
}

pub fn message(lookup: u64, preferences: &[u8], verdicts: &[u8]) -> String {
    format!("  mx_lookup {lookup}\n  preferences {}\n  verdicts {}", hex(preferences), hex(verdicts))
}

/// Bytes that are shown as text.
#[derive(PartialEq)]
pub struct Shown(pub Vec<u8>);

impl std::fmt::Debug for Shown {
    fn fmt(&self, f: &mut std::fmt::Formatter) -> std::fmt::Result {
        write!(f, "[{}] \"{}\"", self.0.len(), self.0.escape_ascii())
    }
}

/// A slice by its name.
pub fn shown(name: &str, s: &[u8]) -> String {
    format!("  {name} [{}] \"{}\"\n", s.len(), s.escape_ascii())
}

pub fn policy_call(c: &PolicyCall) -> String {
    let numbers = format!("  mode {}\n  lifetime {}\n", c.mode, c.lifetime);
    [numbers, shown("patterns", &c.patterns), format!("  pattern_lengths {}\n", hex(&c.pattern_lengths))].concat()
}

/// Long ones are cut.
fn words(s: &[u8]) -> String {
    let shown = &s[..s.len().min(300)];
    let more = if shown.len() < s.len() { " and so on" } else { "" };
    format!("[{}] \"{}\"{more}", s.len(), shown.escape_ascii())
}

pub fn cache_call(call: &Call) -> String {
    match call {
        Call::Lookup { clock, domain } => format!("lookup clock {clock} domain {}", words(domain)),
        Call::Store(c) => {
            format!("store clock {} domain {} id {} policy {}", c.clock, words(&c.domain), words(&c.id), words(&c.policy))
        }
    }
}

/// Zeros at the end of domain and id are left out.
pub fn entry(e: &Entry) -> String {
    let part = |field: &[u8]| words(&field[..field.iter().rposition(|&b| b != 0).map_or(0, |last| last + 1)]);
    format!("domain {} id {} padding {:?} fetched {} length {}", part(&e.domain), part(&e.id), e.padding, e.fetched, e.length)
}

pub fn cache(cache: &Cache) -> String {
    let mut out = format!("  {} entries, texts of {} bytes\n", cache.table.len(), cache.texts.len());
    for (i, e) in cache.table.iter().enumerate() {
        let text = cache.texts.get(ROOM * i..).unwrap_or(b"");
        let shown = &text[..text.len().min(e.length.min(ROOM as u64) as usize)];
        out.push_str(&format!("  {i}: {} text {}\n", entry(e), words(shown)));
    }
    out
}
