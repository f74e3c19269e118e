//! The rules of document 01 ("What is being built, with exact rules"), and what document 02's No. 2 ("Say what is wrong with a
//! policy"), No. 3 ("The third reference name"), No. 6 ("Old TLS") and No. 8 ("Strongest digest only") make of them, written a
//! second time and independently of the library: plain safe Rust over whole values, with no thought for speed. Comments quote
//! document 01, or 02 where they name it; "reading n" is the list of readings in docs/DECISIONS.md.

use std::ops::Deref;

/// The answers, as (number, other fields).
pub type TxtAnswer = (u64, u64, u64);
pub type HostAnswer = (u64, u64);
pub type MessageAnswer = (u64, u64);

/// `line` and `offset` are those of the first line that offends, under 53 to 57; what an answer doesn't speak of is zero.
#[repr(C)]
#[derive(Clone, Copy, PartialEq, Debug, Default)]
pub struct PolicyAnswer {
    pub number: u64,
    pub mode: u64,
    pub lifetime: u64,
    pub mx_count: u64,
    pub line: u64,
    pub offset: u64,
}

/// "Lists of numbers are bytes, four each, high first"; the flag says that there are left-over bytes.
fn numbers(list: &[u8]) -> (Vec<u64>, bool) {
    let whole = list.chunks_exact(4);
    let left_over = !whole.remainder().is_empty();
    (whole.map(|c| u32::from_be_bytes([c[0], c[1], c[2], c[3]]) as u64).collect(), left_over)
}

/// "lengths that sum": the parts of the bytes, or None if there are left-over bytes in the list or the lengths don't sum.
pub(crate) fn parts<'a>(bytes: &'a [u8], lengths: &[u8]) -> Option<Vec<&'a [u8]>> {
    let (lengths, left_over) = numbers(lengths);
    let sum: u128 = lengths.iter().map(|&n| n as u128).sum();
    if left_over || sum != bytes.len() as u128 {
        return None;
    }
    let mut rest = bytes;
    let mut out = Vec::with_capacity(lengths.len());
    for n in lengths {
        let (part, after) = rest.split_at(n as usize);
        out.push(part);
        rest = after;
    }
    Some(out)
}

// ------------------------------------------------------------------------------------------------------------ field names

/// "Name: a letter or digit, then up to 31 of letter, digit, `_ - .`."
fn is_field_name(name: &[u8]) -> bool {
    match name.split_first() {
        Some((first, rest)) => {
            first.is_ascii_alphanumeric()
                && rest.len() <= 31
                && rest.iter().all(|b| b.is_ascii_alphanumeric() || b"_-.".contains(b))
        }
        None => false,
    }
}

fn is_blank(b: u8) -> bool {
    b == b' ' || b == b'\t'
}

fn trim_blanks(mut s: &[u8]) -> &[u8] {
    while let [first, rest @ ..] = s {
        if !is_blank(*first) {
            break;
        }
        s = rest;
    }
    while let [rest @ .., last] = s {
        if !is_blank(*last) {
            break;
        }
        s = rest;
    }
    s
}

// ---------------------------------------------------------------------------------------------------------------- TXT record

pub fn read_txt(rdatas: &[u8], lengths: &[u8], output: &mut [u8]) -> TxtAnswer {
    // "43: the lengths don't sum to the bytes, an RDATA is empty, or a character string (...) runs past its RDATA."
    let texts: Option<Vec<Vec<u8>>> = parts(rdatas, lengths).and_then(|records| records.into_iter().map(joined).collect());
    let Some(texts) = texts else { return (43, 0, 0) };
    // "A record whose joined text doesn't begin with `v=STSv1;` is dropped"
    let candidates: Vec<&Vec<u8>> = texts.iter().filter(|t| t.starts_with(b"v=STSv1;")).collect();
    let text = match candidates[..] {
        [] => return (40, 0, 0),
        [one] => one,
        _ => return (41, 0, 0),
    };
    // "Output shorter than the joined text: 44. Then the text fills the front of the output, the rest stays"
    if output.len() < text.len() {
        return (44, 0, 0);
    }
    output[..text.len()].copy_from_slice(text);
    match id_of(text) {
        Some((start, length)) => (6, start as u64, length as u64),
        None => (42, 0, 0),
    }
}

/// "Each record's strings are joined without spaces." None is the wire form broken.
fn joined(rdata: &[u8]) -> Option<Vec<u8>> {
    if rdata.is_empty() {
        return None;
    }
    let mut text = Vec::new();
    let mut rest = rdata;
    while let Some((&n, after)) = rest.split_first() {
        let n = n as usize;
        if n > after.len() {
            return None;
        }
        text.extend_from_slice(&after[..n]);
        rest = &after[n..];
    }
    Some(text)
}

/// "`v=STSv1`, then one or more of (delimiter, field), then optionally one delimiter." No field and no blank holds a `;`, so the
/// text is cut at each `;`: the first piece is the version, a last piece of blanks only is the closing delimiter, and every other
/// piece is a field between blanks. Blanks before a `;` are its delimiter's; blanks at the text's end belong to no delimiter
/// unless the last piece is blank.
fn id_of(text: &[u8]) -> Option<(usize, usize)> {
    let mut pieces: Vec<(usize, &[u8])> = Vec::new();
    let mut start = 0;
    for piece in text.split(|&b| b == b';') {
        pieces.push((start, piece));
        start += piece.len() + 1;
    }
    let (_, version) = pieces.remove(0);
    // Blanks may stand before a delimiter's `;`, so after the version too; a candidate has none there.
    if version.strip_prefix(b"v=STSv1").map_or(true, |rest| !rest.iter().all(|&b| is_blank(b))) {
        return None;
    }
    let (_, last) = *pieces.last()?;
    if trim_blanks(last).is_empty() {
        pieces.pop();
    } else if is_blank(last[last.len() - 1]) {
        return None;
    }
    if pieces.is_empty() {
        return None;
    }
    let mut first_id = None;
    for (at, piece) in pieces {
        let field = trim_blanks(piece);
        let field_at = at + piece.iter().take_while(|&&b| is_blank(b)).count();
        // "Field: name, `=`, value."
        let equals = field.iter().position(|&b| b == b'=')?;
        let (name, value) = (&field[..equals], &field[equals + 1..]);
        // "Value: one or more bytes 21 to 7E hex except `=` and `;`."
        let good_value = !value.is_empty() && value.iter().all(|b| (0x21..=0x7e).contains(b) && *b != b'=' && *b != b';');
        if !is_field_name(name) || !good_value {
            return None;
        }
        if name == b"id" && first_id.is_none() {
            first_id = Some((field_at + equals + 1, value));
        }
    }
    // "At least one field is named `id` (lower case), and the first such has 1 to 32 letters or digits."
    let (at, id) = first_id?;
    is_id(id).then_some((at, id.len()))
}

/// "1 to 32 letters or digits"
pub(crate) fn is_id(id: &[u8]) -> bool {
    (1..=32).contains(&id.len()) && id.iter().all(|b| b.is_ascii_alphanumeric())
}

// ------------------------------------------------------------------------------------------------------------------- names

/// "A name: 1 to 253 bytes, labels of 1 to 63 letters, digits and hyphens, joined by single dots, no hyphen at either end of a
/// label, no final dot."
pub fn is_name(s: &[u8]) -> bool {
    (1..=253).contains(&s.len())
        && s.split(|&b| b == b'.').all(|label| {
            (1..=63).contains(&label.len())
                && label.iter().all(|b| b.is_ascii_alphanumeric() || *b == b'-')
                && label[0] != b'-'
                && label[label.len() - 1] != b'-'
        })
}

/// "every `mx` is a name or `*.` and a name"; reading 8: the limit of 253 is N's.
pub(crate) fn is_pattern(s: &[u8]) -> bool {
    is_name(s) || s.strip_prefix(b"*.").map_or(false, is_name)
}

/// "Comparison ignores ASCII case. A plain name matches the equal name only; `*.N` matches exactly the names made of one label, a
/// dot and N." A presented name that is neither form matches nothing. `name` is a name.
fn matches(presented: &[u8], name: &[u8]) -> bool {
    if is_name(presented) {
        return presented.eq_ignore_ascii_case(name);
    }
    match presented.strip_prefix(b"*.") {
        Some(n) if is_name(n) => match name.iter().position(|&b| b == b'.') {
            Some(dot) => name[dot + 1..].eq_ignore_ascii_case(n),
            None => false,
        },
        _ => false,
    }
}

// ----------------------------------------------------------------------------------------------------------------- policy

pub(crate) struct Policy<'a> {
    pub mode: u64,
    pub lifetime: u64,
    pub patterns: Vec<&'a [u8]>,
}

pub fn read_policy(body: &[u8]) -> PolicyAnswer {
    match policy(body) {
        Ok(Policy { mode, lifetime, patterns }) => {
            PolicyAnswer { number: 7, mode, lifetime, mx_count: patterns.len() as u64, ..Default::default() }
        }
        Err(refusal) => refusal,
    }
}

/// "Order: 50, 51, 52." Document 02: "53 to 57 stand wherever 51 stood; the set of accepted policies stays the same, and 52 still
/// comes after them."
pub(crate) fn policy(body: &[u8]) -> Result<Policy<'_>, PolicyAnswer> {
    let refusal = |number| PolicyAnswer { number, ..Default::default() };
    if body.len() > 65_536 {
        return Err(refusal(50));
    }
    let lines = policy_lines(body);
    let fields: Vec<Option<Field>> = lines.iter().map(|(_, line)| policy_field(line)).collect();
    if let Some((i, number)) = first_offending(&fields) {
        // "the first line that offends, counted from 1, and the byte offset where it begins"
        return Err(PolicyAnswer { line: i as u64 + 1, offset: lines[i].0 as u64, ..refusal(number) });
    }
    let first = |wanted| first_named(&fields, wanted).map(|(_, value)| value);
    let (version, mode, max_age) = (first("version"), first("mode").and_then(mode_of), first("max_age").and_then(seconds_of));
    let patterns: Vec<&[u8]> = fields.iter().flatten().filter(|(name, _)| *name == b"mx").map(|(_, value)| *value).collect();
    // "52: version, mode or max_age absent, or no `mx` unless the mode is none."
    let (Some(_), Some(mode), Some(max_age)) = (version, mode, max_age) else { return Err(refusal(52)) };
    if patterns.is_empty() && mode != 3 {
        return Err(refusal(52));
    }
    // "A max_age above 31,557,600 counts as 31,557,600 (house)."
    Ok(Policy { mode, lifetime: max_age.min(31_557_600), patterns })
}

/// "Lines end in LF or CRLF, the last end optional." The offset where each line begins, and the line without its end.
fn policy_lines(body: &[u8]) -> Vec<(usize, &[u8])> {
    // Document 02: "A body of zero bytes is 53 at line 1." It is one line, which is empty.
    if body.is_empty() {
        return vec![(0, body)];
    }
    let mut lines = Vec::new();
    let mut offset = 0;
    for whole in body.split_inclusive(|&b| b == b'\n') {
        // A CR belongs to an end only before an LF.
        let line = whole.strip_suffix(b"\n").map_or(whole, |line| line.strip_suffix(b"\r").unwrap_or(line));
        lines.push((offset, line));
        offset += whole.len();
    }
    lines
}

/// Name and value.
type Field<'a> = (&'a [u8], &'a [u8]);

/// "Each line: name, `:`, blanks, value, blanks." None is a line of another form.
fn policy_field(line: &[u8]) -> Option<Field<'_>> {
    let colon = line.iter().position(|&b| b == b':')?;
    let name = &line[..colon];
    let value = trim_blanks(&line[colon + 1..]);
    // "A value begins and ends with a byte 21 to 7E or a well-formed UTF-8 sequence of 2 to 4 bytes (RFC 3629); spaces may stand
    // inside, tabs may not." Blanks at its ends are trimmed off, so an inside is anything that is left.
    let text = std::str::from_utf8(value).ok()?;
    let good = !text.is_empty() && text.chars().all(|c| !c.is_ascii() || (' '..='~').contains(&c));
    (is_field_name(name) && good).then_some((name, value))
}

/// The first line of this name, counted from 0, and its value. "Names of fields are case-sensitive."
fn first_named<'a>(fields: &[Option<Field<'a>>], wanted: &str) -> Option<(usize, &'a [u8])> {
    let i = fields.iter().position(|field| field.is_some_and(|(name, _)| name == wanted.as_bytes()))?;
    fields[i].map(|(_, value)| (i, value))
}

/// Document 02: "53 line form, 54 bad version, 55 bad mode, 56 bad max_age, 57 bad mx." For each of the five the first line that
/// has it is looked for; the first of these offends. Its place, counted from 0, and its number. "within a line, form comes before
/// content": what is not of a line's form has neither name nor value here.
fn first_offending(fields: &[Option<Field>]) -> Option<(usize, u64)> {
    let first_unless = |wanted: &str, is_good: &dyn Fn(&[u8]) -> bool| {
        first_named(fields, wanted).filter(|(_, value)| !is_good(value)).map(|(i, _)| i)
    };
    // "The first `version` is `STSv1`; the first `mode` is `enforce`, `testing` or `none`; the first `max_age` is 1 to 10 digits;
    // every `mx` is a name or `*.` and a name."
    let faults = [
        (53, fields.iter().position(|field| field.is_none())),
        (54, first_unless("version", &|value| value == b"STSv1")),
        (55, first_unless("mode", &|value| mode_of(value).is_some())),
        (56, first_unless("max_age", &|value| seconds_of(value).is_some())),
        (57, fields.iter().position(|field| matches!(field, Some((b"mx", value)) if !is_pattern(value)))),
    ];
    faults.into_iter().filter_map(|(number, place)| Some((place?, number))).min()
}

fn mode_of(value: &[u8]) -> Option<u64> {
    match value {
        b"enforce" => Some(1),
        b"testing" => Some(2),
        b"none" => Some(3),
        _ => None,
    }
}

/// "1 to 10 digits"
fn seconds_of(value: &[u8]) -> Option<u64> {
    let digits = (1..=10).contains(&value.len()) && value.iter().all(|b| b.is_ascii_digit());
    digits.then(|| value.iter().fold(0, |n, b| n * 10 + (b - b'0') as u64))
}

// -------------------------------------------------------------------------------------------------------------------- host

#[derive(Clone, PartialEq, Debug, Default)]
pub struct TlsaAnswer<B = Vec<u8>> {
    pub result: u64,
    pub lengths: B,
    pub records: B,
}

/// The arguments of a host call, named as in the header; the bytes owned, or lent.
#[derive(Clone, PartialEq, Debug, Default)]
pub struct HostCall<B = Vec<u8>> {
    pub clock: u64,
    pub next_hop: B,
    pub expanded_next_hop_given: u64,
    pub expanded_next_hop: B,
    pub origin: u64,
    pub host: B,
    pub address: u64,
    pub expanded: B,
    pub policy_given: u64,
    pub policy: B,
    pub fetched: u64,
    pub tlsa_answers: u64,
    pub tlsa: [TlsaAnswer<B>; 2],
    pub starttls: u64,
    pub handshake: u64,
    pub tls_version: u64,
    pub certificates_given: u64,
    pub certificates: B,
    pub certificate_lengths: B,
    pub key_places: B,
    pub digests: B,
    pub paths: B,
    pub trusted_root: u64,
    pub dns_ids: B,
    pub dns_id_lengths: B,
    pub common_name_given: u64,
    pub common_name: B,
}

/// One certificate with what is known of it.
struct Certificate<'a> {
    whole: &'a [u8],
    key_info: &'a [u8],
    digests: &'a [u8], // 32 and 64 bytes of the certificate, 32 and 64 of the key info
    path_verifies: bool,
}

impl Certificate<'_> {
    /// "Compared: certificate (selector 0) or key info (1), as bytes (type 0), SHA-256 (1) or SHA-512 (2)."
    fn form(&self, selector: u8, matching_type: u8) -> &[u8] {
        match (selector, matching_type) {
            (0, 0) => self.whole,
            (0, 1) => &self.digests[..32],
            (0, 2) => &self.digests[32..96],
            (1, 0) => self.key_info,
            (1, 1) => &self.digests[96..128],
            (1, 2) => &self.digests[128..192],
            _ => unreachable!("not a usable record"),
        }
    }
}

struct CertificateFacts<'a> {
    certificates: Vec<Certificate<'a>>,
    trusted_root: bool,
    dns_ids: Vec<&'a [u8]>,
    common_name: Option<&'a [u8]>,
}

/// "A clock reading is seconds since 1970, at most 253,402,300,799"
pub(crate) fn is_clock(reading: u64) -> bool {
    reading <= 253_402_300_799
}

/// "Time left = fetch reading + max_age − present reading, a signed number (...). A policy is live exactly when time left is above
/// zero."
pub(crate) fn is_live(fetched: u64, lifetime: u64, present: u64) -> bool {
    fetched as i128 + lifetime as i128 - present as i128 > 0
}

pub fn judge_host<B: Deref<Target = [u8]>>(call: &HostCall<B>) -> HostAnswer {
    match judged(call) {
        Ok(answer) => answer,
        Err(refusal) => (refusal, 0),
    }
}

/// A verdict or question with the count, or the number of a refusal.
fn judged<B: Deref<Target = [u8]>>(call: &HostCall<B>) -> Result<HostAnswer, u64> {
    // "Argument checks come first: 67, 62, 60, 61 (...), 50 to 52, 64, 65 for everything supplied"; document 02 puts 53 to 57
    // where 51 stood.
    if !codes_are_choices(call) {
        return Err(67);
    }
    // Reading 4.
    if !is_clock(call.clock) || (call.policy_given == 1 && !is_clock(call.fetched)) {
        return Err(62);
    }
    if !is_name(&call.next_hop) {
        return Err(60);
    }
    // Document 02, No. 3: "an expanded next-hop name, or none, checked right after the next-hop with refusal 60".
    if call.expanded_next_hop_given == 1 && !is_name(&call.expanded_next_hop) {
        return Err(60);
    }
    // "With no MX the host must equal the next-hop, else 61."
    if !is_name(&call.host) || (call.origin == 3 && !call.host.eq_ignore_ascii_case(&call.next_hop)) {
        return Err(61);
    }
    // "then the expanded name under any of the three alias results"
    if matches!(call.address, 3 | 4 | 5) && !is_name(&call.expanded) {
        return Err(61);
    }
    let policy = if call.policy_given == 1 { Some(policy(&call.policy).map_err(|refusal| refusal.number)?) } else { None };
    let mut answers = Vec::new();
    for given in &call.tlsa[..call.tlsa_answers as usize] {
        answers.push(tlsa_answer(given).ok_or(64u64)?);
    }
    let facts = if call.certificates_given == 1 { Some(certificate_facts(call).ok_or(65u64)?) } else { None };

    // "Failed: 20. No address: 21."
    let names: Vec<(u64, &[u8])> = match call.address {
        1 => vec![(14, &call.host)],
        2 => vec![],
        3 => vec![(13, &call.expanded), (14, &call.host)],
        4 => vec![(14, &call.host)],
        5 => vec![],
        6 => return Ok((20, 0)),
        _ => return Ok((21, 0)),
    };

    let enforced = policy.filter(|p| p.mode == 1 && is_live(call.fetched, p.lifetime, call.clock));
    // "23 only under a live enforce policy, when none of its patterns matches the host."
    if let Some(p) = &enforced {
        if !p.patterns.iter().any(|pattern| matches(pattern, &call.host)) {
            return Ok((23, 0));
        }
    }

    // TLSA names in order, until a set is found.
    let later_than_tlsa = call.starttls != 0 || call.handshake != 0 || facts.is_some();
    let mut questions = 0;
    let mut set: Option<(&[u8], Vec<&[u8]>)> = None; // the base domain and the records
    for (i, (question, name)) in names.iter().enumerate() {
        let Some(answer) = answers.get(i) else {
            return if later_than_tlsa { Err(66) } else { Ok((*question, questions)) };
        };
        questions += 1;
        match answer {
            // "Failed, or a secure record under 3 bytes: 22."
            TlsaFact::Failed => return Ok((22, questions)),
            TlsaFact::Secure(records) if records.iter().any(|r| r.len() < 3) => return Ok((22, questions)),
            // "Secure with a record: that set is taken and no more is asked."
            TlsaFact::Secure(records) if !records.is_empty() => {
                set = Some((name, records.clone()));
                break;
            }
            // "Insecure, absent, or secure with no record: next name"
            TlsaFact::Secure(_) | TlsaFact::Nothing => {}
        }
    }

    // "Needs: a set with a usable record needs DANE authentication; a set with none needs TLS; a live enforce policy needs the
    // MTA-STS check."
    let needs_dane = set.as_ref().map_or(false, |(_, records)| records.iter().any(|r| is_usable(r)));
    let needs_sts = enforced.is_some();
    let needs_tls = set.is_some() || needs_sts;

    match call.starttls {
        0 if call.handshake != 0 || facts.is_some() => return Err(66),
        0 => return Ok((10, questions)),
        2 => return Ok((if needs_tls { 24 } else { 1 }, questions)),
        _ => {}
    }
    match call.handshake {
        0 if facts.is_some() => return Err(66),
        0 => return Ok((11, questions)),
        2 => return Ok((if needs_tls { 25 } else { 1 }, questions)),
        _ => {}
    }
    if !needs_dane && !needs_sts {
        return Ok((2, questions));
    }
    // Document 02, No. 6: "Where authentication is needed and the version is below 03 03 hex, the verdict is the new 28, before 26.
    // It is final at the handshake stage, where the walk then stops." Reading 1 there: authentication is DANE or the MTA-STS check.
    if wire_bytes(call.tls_version) < [0x03, 0x03] {
        return Ok((28, questions));
    }
    let Some(facts) = facts else { return Ok((12, questions)) };

    // "Established: 26, then 27, then 5, 3, 4 or 2 by what was needed; where both are needed, both must pass (house)."
    if needs_dane {
        let (base, records) = set.expect("a set needs DANE");
        // "References: the TLSA base domain; with secure MX or no MX also the next-hop."
        let mut references = vec![base];
        if call.origin != 2 {
            references.push(&call.next_hop);
        }
        // Document 02, No. 3: "the fully expanded next-hop as a further reference when it differs from the next-hop and MX was
        // secure".
        let differs = !call.expanded_next_hop.eq_ignore_ascii_case(&call.next_hop);
        if call.origin == 1 && call.expanded_next_hop_given == 1 && differs {
            references.push(&call.expanded_next_hop);
        }
        if !dane_passes(&records, &facts, &references) {
            return Ok((26, questions));
        }
    }
    if let Some(p) = &enforced {
        if !sts_passes(p, &facts, &call.host) {
            return Ok((27, questions));
        }
    }
    let verdict = match (needs_dane, needs_sts) {
        (true, true) => 5,
        (true, false) => 3,
        (false, true) => 4,
        (false, false) => 2,
    };
    Ok((verdict, questions))
}

/// "an input code or yes/no number outside its named choices, or over two TLSA answers"; what isn't supplied is not looked at.
fn codes_are_choices<B: Deref<Target = [u8]>>(call: &HostCall<B>) -> bool {
    let always = (1..=2).contains(&call.expanded_next_hop_given)
        && (1..=3).contains(&call.origin)
        && (1..=7).contains(&call.address)
        && (1..=2).contains(&call.policy_given)
        && call.tlsa_answers <= 2
        && call.starttls <= 2
        && call.handshake <= 2
        && call.certificates_given <= 1;
    if !always {
        return false;
    }
    let tlsa = call.tlsa.iter().take(call.tlsa_answers as usize).all(|a| (1..=4).contains(&a.result));
    // Document 02, No. 6: an established handshake carries the version "as its two wire bytes (ignored after a failed one)".
    let version = call.handshake != 1 || call.tls_version <= 65_535;
    // Reading 3: each whole number of `paths`.
    let certificates = call.certificates_given == 0
        || ((1..=2).contains(&call.trusted_root)
            && (1..=2).contains(&call.common_name_given)
            && numbers(&call.paths).0.iter().all(|n| (1..=2).contains(n)));
    tlsa && version && certificates
}

/// The high byte first; there are no more than two.
fn wire_bytes(version: u64) -> [u8; 2] {
    [(version / 256) as u8, (version % 256) as u8]
}

enum TlsaFact<'a> {
    Secure(Vec<&'a [u8]>),
    Nothing,
    Failed,
}

/// "Limits: 32 records, 4,096 bytes each, lengths that sum, else 64." The records count only in a secure answer.
fn tlsa_answer<B: Deref<Target = [u8]>>(given: &TlsaAnswer<B>) -> Option<TlsaFact<'_>> {
    match given.result {
        1 => {
            let records = parts(&given.records, &given.lengths)?;
            (records.len() <= 32 && records.iter().all(|r| r.len() <= 4096)).then_some(TlsaFact::Secure(records))
        }
        4 => Some(TlsaFact::Failed),
        _ => Some(TlsaFact::Nothing),
    }
}

/// "Usable: usage 2 or 3, selector 0 or 1, and type 0 with at least 1 byte, type 1 with 32, or type 2 with 64."
fn is_usable(record: &[u8]) -> bool {
    match record {
        [2 | 3, 0 | 1, matching_type, data @ ..] => match matching_type {
            0 => !data.is_empty(),
            1 => data.len() == 32,
            2 => data.len() == 64,
            _ => false,
        },
        _ => false,
    }
}

/// "up to 8 certificates, leaf first, each up to 16,384 bytes and 65,536 in all; (...) up to 64 DNS-IDs and one CN (or none), each
/// of at most 255 bytes; (...) Places must lie inside and lengths must sum. Else 65."
fn certificate_facts<B: Deref<Target = [u8]>>(call: &HostCall<B>) -> Option<CertificateFacts<'_>> {
    let wholes = parts(&call.certificates, &call.certificate_lengths)?;
    if wholes.len() > 8 || wholes.iter().any(|c| c.len() > 16_384) || call.certificates.len() > 65_536 {
        return None;
    }
    let (places, places_left_over) = numbers(&call.key_places);
    let (paths, paths_left_over) = numbers(&call.paths);
    if places_left_over || paths_left_over {
        return None;
    }
    let n = wholes.len();
    if places.len() != 2 * n || paths.len() != n || call.digests.len() != 192 * n {
        return None;
    }
    let mut certificates = Vec::new();
    for (i, whole) in wholes.into_iter().enumerate() {
        let (start, length) = (places[2 * i] as usize, places[2 * i + 1] as usize);
        let key_info = whole.get(start..start + length)?;
        certificates.push(Certificate {
            whole,
            key_info,
            digests: &call.digests[192 * i..192 * (i + 1)],
            path_verifies: paths[i] == 1,
        });
    }
    let dns_ids = parts(&call.dns_ids, &call.dns_id_lengths)?;
    if dns_ids.len() > 64 || dns_ids.iter().any(|d| d.len() > 255) {
        return None;
    }
    let common_name = (call.common_name_given == 1).then_some(&call.common_name[..]);
    if common_name.map_or(false, |c| c.len() > 255) {
        return None;
    }
    Some(CertificateFacts { certificates, trusted_root: call.trusted_root == 1, dns_ids, common_name })
}

/// The usable records of a set that are not ignored. Document 02, No. 8: "among usable records of the same usage and selector, type
/// 1 is ignored if a type 2 is present; type 0 always counts".
fn counting<'a>(records: &[&'a [u8]]) -> Vec<&'a [u8]> {
    let usable = || records.iter().copied().filter(|r| is_usable(r));
    let with_type_2: Vec<(u8, u8)> = usable().filter(|r| r[2] == 2).map(|r| (r[0], r[1])).collect();
    usable().filter(|r| r[2] != 1 || !with_type_2.contains(&(r[0], r[1]))).collect()
}

/// "DANE passes when one usable record matches: usage 3 against the leaf alone, without name or date checks; usage 2 against a
/// certificate after the leaf whose path flag holds, with the leaf naming a reference." Document 02, No. 8: that rule reads "usable
/// record that is not ignored".
fn dane_passes(records: &[&[u8]], facts: &CertificateFacts, references: &[&[u8]]) -> bool {
    // "With zero certificates (allowed) neither check below passes"
    let Some((leaf, after)) = facts.certificates.split_first() else { return false };
    // "DNS-IDs count; the CN counts only where there is no DNS-ID."
    let presented: Vec<&[u8]> =
        if facts.dns_ids.is_empty() { facts.common_name.into_iter().collect() } else { facts.dns_ids.clone() };
    let named = presented.iter().any(|p| references.iter().any(|r| matches(p, r)));
    counting(records).iter().any(|r| {
        let (usage, selector, matching_type, data) = (r[0], r[1], r[2], &r[3..]);
        if usage == 3 {
            leaf.form(selector, matching_type) == data
        } else {
            named && after.iter().any(|c| c.path_verifies && c.form(selector, matching_type) == data)
        }
    })
}

/// "MTA-STS passes when a policy pattern matches the host, the trusted-root flag holds and a DNS-ID matches the host."
fn sts_passes(policy: &Policy, facts: &CertificateFacts, host: &[u8]) -> bool {
    !facts.certificates.is_empty()
        && policy.patterns.iter().any(|p| matches(p, host))
        && facts.trusted_root
        && facts.dns_ids.iter().any(|d| matches(d, host))
}

// ----------------------------------------------------------------------------------------------------------------- message

pub fn next_host(mx_lookup: u64, preferences: &[u8], verdicts: &[u8]) -> MessageAnswer {
    match mx_lookup {
        1 => {}
        2 => return (30, 0), // "MX lookup failed (30, before anything else)"
        _ => return (67, 0),
    }
    let (preferences, left_over_1) = numbers(preferences);
    let (verdicts, left_over_2) = numbers(verdicts);
    let good = !left_over_1
        && !left_over_2
        && (1..=32).contains(&preferences.len())
        && preferences.len() == verdicts.len()
        && preferences.iter().all(|&p| p <= 65_535)
        // Document 02, No. 6: "28 joins the "next host" verdicts that a message's host list accepts."
        && verdicts.iter().all(|v| matches!(v, 9 | 1..=5 | 20..=28));
    if !good {
        return (63, 0);
    }
    // "Order: lower preference first, equal ones as given." (The sort is stable.)
    let mut order: Vec<usize> = (0..preferences.len()).collect();
    order.sort_by_key(|&i| preferences[i]);
    // "The first host that is not a "next host" decides"
    match order.into_iter().find(|&i| verdicts[i] < 20) {
        Some(i) if verdicts[i] == 9 => (8, i as u64),
        Some(i) => (verdicts[i], i as u64),
        None => (31, 0),
    }
}
