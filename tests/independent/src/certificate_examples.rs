//! Certificates worked by hand, with their answers written down from RFC 5280, X.690 and document 02, No. 7: they hold the rules
//! here and the library to the papers themselves, not only to each other.

use crate::arguments::Shown;
use crate::certificates::nested;
use crate::examples::{one_record, plain, Check, BEFORE_GUARD, MIDDLE, WEEK};
use crate::inputs::list;
use crate::trees::{leaf, node, shortest, Node};
use independent_rules::certificate::{self, CertificateAnswer};
use independent_rules::rules::{HostCall, TlsaAnswer};

/// Start and length.
type Part = (u64, u64);
/// The key info, the DNS-IDs and the common name; or the refusal's number and offset.
type Wanted<'a> = Result<(Part, &'a [Part], Option<Part>), (u64, u64)>;

/// Bytes in hexadecimal digits, with blanks between them.
fn hex(text: &str) -> Vec<u8> {
    text.split_whitespace().map(|two| u8::from_str_radix(two, 16).expect("two digits")).collect()
}

fn answer(wanted: Wanted, room: usize) -> CertificateAnswer {
    match wanted {
        Err((number, offset)) => CertificateAnswer { number, offset, ..Default::default() },
        Ok((_, dns_ids, _)) if room < 16 * dns_ids.len() => CertificateAnswer { number: 83, ..Default::default() },
        Ok(((key_start, key_length), dns_ids, name)) => CertificateAnswer {
            number: 15,
            length: 16 * dns_ids.len() as u64,
            key_start,
            key_length,
            dns_id_count: dns_ids.len() as u64,
            common_name_given: if name.is_some() { 1 } else { 2 },
            common_name_start: name.map_or(0, |(start, _)| start),
            common_name_length: name.map_or(0, |(_, length)| length),
            ..Default::default()
        },
    }
}

impl Check<'_> {
    /// With places of several sizes, which stay as they are but for what is wanted.
    fn certificate(&mut self, what: &str, bytes: &[u8], wanted: Wanted) {
        let needed = wanted.map_or(16, |(_, dns_ids, _)| 16 * dns_ids.len());
        for room in [0, needed.saturating_sub(1), needed, needed + 1, 1024 + 16] {
            let (expected, mut places) = (answer(wanted, room), vec![0xee; room]);
            if let (15, Ok((_, dns_ids, _))) = (expected.number, wanted) {
                let numbers = dns_ids.iter().flat_map(|&(start, length)| [start, length]);
                let bytes: Vec<u8> = numbers.flat_map(u64::to_be_bytes).collect();
                places[..bytes.len()].copy_from_slice(&bytes);
            }
            let (mut a, mut b) = (vec![0xee; room], vec![0xee; room]);
            let ours = certificate::read_certificate(bytes, &mut a);
            let theirs = self.lender.read_certificate(bytes, &mut b, BEFORE_GUARD);
            self.same(what, (expected, Shown(places)), (ours, Shown(a)), (theirs, Shown(b)));
        }
    }

    fn refused(&mut self, what: &str, text: &str, offset: u64) {
        self.certificate(what, &hex(text), Err((90, offset)));
    }

    pub fn host_certificate(&mut self, what: &str, call: &HostCall, wanted: (u64, u64)) {
        let ours = certificate::judge_host_certificate(call);
        let theirs = self.lender.judge_host_certificate(call, MIDDLE);
        self.same(what, wanted, ours, theirs);
    }
}

// ---------------------------------------------------------------------------------------------------------------- the reader

/// TBSCertificate at 2; serialNumber at 4, signature, issuer, validity, subject at 12, key info at 14; signatureAlgorithm at 16 and
/// signatureValue at 18.
const LEAST: &str = "30 12 30 0c 02 00 30 00 30 00 30 00 30 00 30 00 30 00 03 00";

fn least(c: &mut Check) {
    c.certificate("the least certificate", &hex(LEAST), Ok(((14, 2), &[], None)));
    c.refused("no byte", "", 0);
    c.refused("a tag alone", "30", 0);
    c.refused("nothing in it", "30 00", 2);
    c.refused("a SET", &LEAST.replacen("30", "31", 1), 0);
    c.refused("a byte after it", &format!("{LEAST} 00"), 20);
    c.refused("another after it", &format!("{LEAST} {LEAST}"), 20);
    c.refused("the last byte is not there", LEAST.strip_suffix(" 00").unwrap(), 0);
    // "the first element (...) that overruns what holds it": here that is not the certificate.
    c.refused("the last byte is not in it", &LEAST.replacen("30 12", "30 11", 1), 18);
    c.refused("signatureValue is not there", "30 10 30 0c 02 00 30 00 30 00 30 00 30 00 30 00 30 00", 18);
    c.refused("signatureValue is constructed", &LEAST.replace("03 00", "23 00"), 18);
    c.refused("signatureValue twice", "30 14 30 0c 02 00 30 00 30 00 30 00 30 00 30 00 30 00 03 00 03 00", 20);
    c.refused("the key info is not there", "30 10 30 0a 02 00 30 00 30 00 30 00 30 00 30 00 03 00", 14);
    c.refused("serialNumber is not there", "30 10 30 0a 30 00 30 00 30 00 30 00 30 00 30 00 03 00", 4);
    c.refused("validity is a SET", &LEAST.replace("02 00 30 00 30 00 30", "02 00 30 00 30 00 31"), 10);
    c.refused("a tag of two bytes", &LEAST.replace("02 00", "1f 02"), 4);
}

/// "definite, shortest lengths only", of the certificate and of serialNumber.
fn lengths(c: &mut Check) {
    for (long, at) in [("30 81 12", 0), ("30 82 00 12", 0), ("30 80", 0), ("30 ff", 0), ("30 84 00 00 00 12", 0), ("30 88", 0)] {
        c.refused(long, &LEAST.replacen("30 12", long, 1), at);
    }
    let largest = "02 88 ff ff ff ff ff ff ff ff";
    for (long, size) in [("02 81 00", 1), ("02 82 00 00", 2), ("02 80", 0), ("02 84 ff ff ff ff", 4), (largest, 8)] {
        let text = LEAST.replace("02 00", long).replace("30 12", &format!("30 {:02x}", 0x12 + size));
        c.refused(long, &text.replace("30 0c", &format!("30 {:02x}", 0x0c + size)), 4);
    }
    // The signature fills the certificate up to lengths at which another byte is needed.
    for filler in [0x7d_usize, 0x7e, 0x7f, 0x80, 0xfe, 0xff, 0x100, 0xff00, 0xfff0, 0xffff, 0x1_0000] {
        let fields = &hex(LEAST)[2..18];
        let contents = [fields, &[0x03], &shortest(filler), &vec![9; filler]].concat();
        let bytes = [&[0x30], &shortest(contents.len())[..], &contents].concat();
        let key = bytes.len() as u64 - contents.len() as u64 + 12;
        c.certificate("a long signature", &bytes, Ok(((key, 2), &[], None)));
        c.certificate("a long signature, less its last byte", &bytes[..bytes.len() - 1], Err((90, 0)));
        // A byte of zero before the length, and lengths that are right but for a bit above 32 or 64 others.
        let digits = (contents.len() as u64).to_be_bytes();
        for length in [&[0x89, 0][..], &[0x89, 1], &[0x88], &[0x8a, 1, 0]].map(|front| [front, &digits].concat()) {
            c.certificate("a long length", &[&[0x30], &length[..], &contents].concat(), Err((90, 0)));
        }
        c.certificate("a length of 33 bits", &[&[0x30, 0x85, 1], &digits[4..], &contents].concat(), Err((90, 0)));
    }
}

/// The boundary: "The reader has no limit of size of its own." A length of four bytes, and places beyond what three can say.
fn long_certificate(c: &mut Check) {
    let issuer = leaf(0x04, &vec![7; 0x100_0000]);
    let name = vec![node(0x04, vec![node(0x30, vec![leaf(0x82, b"a.example")])])];
    let extension = node(0x30, [vec![leaf(0x06, &[0x55, 0x1d, 0x11])], name].concat());
    let empty = || node(0x30, vec![]);
    let extensions = node(0xa3, vec![node(0x30, vec![extension])]);
    let fields = vec![leaf(0x02, b""), empty(), node(0x30, vec![issuer]), empty(), empty(), empty(), extensions];
    let bytes = node(0x30, vec![node(0x30, fields), empty(), leaf(0x03, b"")]).bytes();
    let start = bytes.windows(9).rposition(|part| part == b"a.example").expect("the DNS-ID") as u64;
    let key = start - 19;
    let place = [start.to_be_bytes(), 9_u64.to_be_bytes()].concat();
    let accepted = (answer(Ok(((key, 2), &[(start, 9)], None)), 16), place);
    let refused = (answer(Err((90, 0)), 16), vec![0xee; 16]);
    for (wanted, bytes) in [(accepted, &bytes[..]), (refused, &bytes[..bytes.len() - 1])] {
        let (mut a, mut b) = (vec![0xee; 16], vec![0xee; 16]);
        let ours = certificate::read_certificate(bytes, &mut a);
        let theirs = c.lender.read_long_certificate(bytes, &mut b);
        c.same("16 MiB in the issuer", wanted, (ours, a), (theirs, b));
    }
}

/// Every field: version at 4, subject at 18 with "a" and then "b" as common names, key info at 44, extensions at 55, with
/// subjectAltName's Extension at 59, its OCTET STRING at 69, GeneralNames at 71 and the DNS-IDs "x.y" and "" at 73 and 78.
const FIELDS: &str = "30 52 30 4c a0 03 02 01 02 02 01 07 30 00 30 00 30 00 \
    30 18 31 0a 30 08 06 03 55 04 03 0c 01 61 31 0a 30 08 06 03 55 04 03 13 01 62 30 03 03 01 00 81 01 00 82 01 00 \
    a3 17 30 15 30 13 06 03 55 1d 11 01 01 ff 04 09 30 07 82 03 78 2e 79 82 00 30 00 03 00";

fn fields(c: &mut Check) {
    c.certificate("every field", &hex(FIELDS), Ok(((44, 5), &[(75, 3), (80, 0)], Some((43, 1)))));
    let mut change = |what: &str, old: &str, new: &str, offset: u64| {
        let text = FIELDS.replacen(old, new, 1);
        assert!(text != FIELDS && text.len() == FIELDS.len(), "a change of the same length");
        c.refused(what, &text, offset);
    };
    change("version holds no INTEGER", "a0 03 02", "a0 03 04", 6);
    change("version holds two elements", "a0 03 02 01 02", "a0 03 02 00 02", 8);
    change("version is empty", "a0 03 02 01 02 02 01 07", "a0 00 02 04 02 02 01 07", 6);
    change("version is primitive", "a0 03", "80 03", 4);
    change("a SEQUENCE in the subject", "31 0a", "30 0a", 20);
    change("a SET in a SET", "31 0a 30", "31 0a 31", 22);
    change("no type of the attribute", "06 03 55 04 03 0c", "05 03 55 04 03 0c", 24);
    change("no value of the attribute", "06 03 55 04 03 0c 01 61", "06 06 55 04 03 0c 01 61", 32);
    change("three elements in the attribute", "0c 01 61 31 0a 30 08", "0c 00 61 31 0a 30 08", 31);
    change("issuerUniqueID is constructed", "81 01 00", "a1 01 00", 49);
    change("subjectUniqueID first", "81 01 00 82", "82 01 00 81", 52);
    change("extensions hold a SET", "a3 17 30", "a3 17 31", 57);
    change("an Extension that is a SET", "30 15 30", "30 15 31", 59);
    change("extnID of another tag", "06 03 55 1d", "05 03 55 1d", 61);
    change("critical of another tag", "01 01 ff", "02 01 ff", 66);
    change("extnValue is constructed", "04 09", "24 09", 69);
    change("the value is a SET", "04 09 30", "04 09 31", 71);
    change("bytes left over in the value", "30 07 82 03 78 2e 79 82 00", "30 05 82 03 78 2e 79 82 00", 78);
    change("a name that overruns", "82 03 78", "82 06 78", 73);
    change("a constructed DNS-ID", "82 03 78", "a2 03 78", 73);
    change("a name of the tag 89", "82 00 30", "89 00 30", 78);
    change("a directoryName that is empty", "82 00 30", "a4 00 30", 80);
    // Where the OID is another, the value is not looked into, and there is no DNS-ID.
    let other = FIELDS.replace("55 1d 11", "55 1d 12").replace("04 09 30", "04 09 3f");
    c.certificate("another extension", &hex(&other), Ok(((44, 5), &[], Some((43, 1)))));
    let one_name = FIELDS.replacen("55 04 03 13", "55 04 04 13", 1);
    c.certificate("one common name", &hex(&one_name), Ok(((44, 5), &[(75, 3), (80, 0)], Some((31, 1)))));
}

/// The least certificate with extensions; their list begins at 20 where all lengths take one byte.
fn with_extensions(list: Vec<Node>) -> Vec<u8> {
    let empty = || node(0x30, vec![]);
    let extensions = node(0xa3, vec![node(0x30, list)]);
    let fields = vec![leaf(0x02, b""), empty(), empty(), empty(), empty(), empty(), extensions];
    node(0x30, vec![node(0x30, fields), empty(), leaf(0x03, b"")]).bytes()
}

/// A subjectAltName whose extnID is followed by these.
fn alternative(more: Vec<Node>) -> Node {
    node(0x30, [vec![leaf(0x06, &[0x55, 0x1d, 0x11])], more].concat())
}

fn general_names(names: Vec<Node>) -> Node {
    alternative(vec![node(0x04, vec![node(0x30, names)])])
}

/// "a second subjectAltName at its extension", whatever is in it; "whose lists may be empty".
fn alternative_names(c: &mut Check) {
    c.certificate("no extension", &with_extensions(vec![]), Ok(((14, 2), &[], None)));
    let none = general_names(vec![]);
    c.certificate("no name", &with_extensions(vec![none.clone()]), Ok(((14, 2), &[], None)));
    let one = general_names(vec![leaf(0x82, b"a")]);
    c.certificate("one name", &with_extensions(vec![one.clone()]), Ok(((14, 2), &[(33, 1)], None)));
    let empty = alternative(vec![leaf(0x04, b"")]);
    c.certificate("no GeneralNames", &with_extensions(vec![empty.clone()]), Err((90, 29)));
    let broken = alternative(vec![leaf(0x04, b"\x30\x80")]);
    c.certificate("an indefinite length in the value", &with_extensions(vec![broken.clone()]), Err((90, 29)));
    for second in [none, one.clone(), empty, broken, alternative(vec![])] {
        c.certificate("a second one", &with_extensions(vec![one.clone(), second.clone()]), Err((90, 34)));
        c.certificate("a second and a third", &with_extensions(vec![one.clone(), second.clone(), second]), Err((90, 34)));
    }
    c.certificate("a first without a value", &with_extensions(vec![alternative(vec![]), one]), Err((90, 27)));
}

/// RFC 5280, 4.2.1.6: the nine kinds of GeneralName, and no other tag; and the object identifiers, byte by byte.
fn every_tag(c: &mut Check) {
    for tag in 0..=255 {
        let wanted: Wanted = match tag {
            0x82 => Ok(((14, 2), &[(33, 0)], None)),
            0x81 | 0x86 | 0x87 | 0x88 | 0xa0 | 0xa3 | 0xa5 => Ok(((14, 2), &[], None)),
            0xa4 => Err((90, 33)),
            _ => Err((90, 31)),
        };
        c.certificate("a general name", &with_extensions(vec![general_names(vec![leaf(tag, b"")])]), wanted);
    }
    for (kind, bytes) in [(0x11, 3), (0x10, 3), (0x91, 3), (0x11, 2), (0x11, 4)] {
        let identifier = leaf(0x06, &[0x55, 0x1d, kind, 0x00][..bytes]);
        let extension = node(0x30, vec![identifier, leaf(0x04, b"\x30\x03\x82\x01a")]);
        let names: &[Part] = if (kind, bytes) == (0x11, 3) { &[(33, 1)] } else { &[] };
        c.certificate("an extension of another kind", &with_extensions(vec![extension]), Ok(((14, 2), names, None)));
    }
}

/// "elements nest at most 16 deep, the certificate being 1"; "91, after 90, when there are over 64 DNS-IDs".
fn limits(c: &mut Check) {
    c.certificate("16 levels", &nested(16), Ok(((59, 8), &[], Some((57, 2)))));
    c.certificate("17 levels", &nested(17), Err((90, 42)));
    // otherName stands at level 8, at 31.
    let mut other = leaf(0x05, b"");
    for deepest in 9..=17 {
        let wanted: Wanted = if deepest == 17 { Err((90, 49)) } else { Ok(((14, 2), &[], None)) };
        let name = node(0xa0, vec![other.clone()]);
        c.certificate("otherName", &with_extensions(vec![general_names(vec![name])]), wanted);
        other = node(0x30, vec![other]);
    }
    for count in [64, 65, 66, 256 + 1] {
        let names = || vec![leaf(0x82, b""); count];
        // The lengths of the seven elements around take two bytes each.
        let places: Vec<Part> = (0..count as u64).map(|i| (33 + 7 + 2 * i, 0)).collect();
        let wanted = if count == 64 { Ok(((16, 2), &places[..], None)) } else { Err((91, 0)) };
        let bytes = with_extensions(vec![general_names(names())]);
        c.certificate("many DNS-IDs", &bytes, wanted);
        let malformed = [&bytes[..], &[0]].concat();
        c.certificate("many DNS-IDs, and a byte left over", &malformed, Err((90, bytes.len() as u64)));
    }
}

// ----------------------------------------------------------------------------------------------------------------- the host's call

/// A plain host with a live policy and the record `3 1 0` of the leaf's key info, and a leaf with these names, all given.
pub fn shown(dns_ids: &[&[u8]], common_name: Option<&[u8]>) -> HostCall {
    let names = dns_ids.iter().map(|name| leaf(0x82, name)).collect();
    let common_name = common_name.map(|name| node(0x31, vec![node(0x30, vec![leaf(0x06, &[0x55, 0x04, 0x03]), leaf(0x0c, name)])]));
    let empty = || node(0x30, vec![]);
    let key_info = node(0x30, vec![leaf(0x03, b"\0key")]);
    let extensions = node(0xa3, vec![node(0x30, vec![general_names(names)])]);
    let subject = node(0x30, common_name.into_iter().collect());
    let fields = vec![leaf(0x02, b""), empty(), empty(), empty(), subject, key_info.clone(), extensions];
    let leaf = node(0x30, vec![node(0x30, fields), empty(), leaf(0x03, b"")]).bytes();
    HostCall {
        policy_given: 1,
        policy: WEEK.to_vec(),
        fetched: 605_799,
        tlsa: [one_record(&[&[3, 1, 0][..], &key_info.bytes()].concat()), TlsaAnswer::default()],
        starttls: 1,
        handshake: 1,
        certificates_given: 1,
        certificate_lengths: list(&[leaf.len() as u64, 6]),
        certificates: [&leaf[..], b"anchor"].concat(),
        key_places: list(&[2, 3]),
        digests: [[1; 192], [6; 192]].concat(),
        paths: list(&[1, 1]),
        trusted_root: 1,
        ..plain()
    }
}

/// "the new one answers as it does on the facts read"
fn judged(c: &mut Check) {
    let host: &[u8] = b"mail.example.com";
    let both = shown(&[b"x", host], None);
    c.host_certificate("both", &both, (5, 1));
    c.host_certificate("DANE alone", &HostCall { policy_given: 2, ..shown(&[], None) }, (3, 1));
    c.host_certificate("no DNS-ID for the host", &shown(&[b"x"], Some(host)), (27, 1));
    let with_record = |record: &[u8], call: HostCall| HostCall { tlsa: [one_record(record), TlsaAnswer::default()], ..call };
    c.host_certificate("another key info", &with_record(&[3, 1, 0, 5], both.clone()), (26, 1));
    // The key info of the certificate "anchor".
    let anchored = |call: HostCall| with_record(b"\x02\x01\x00cho", HostCall { policy_given: 2, ..call });
    c.host_certificate("usage 2 by a DNS-ID", &anchored(both.clone()), (3, 1));
    c.host_certificate("usage 2 by the common name", &anchored(shown(&[], Some(host))), (3, 1));
    c.host_certificate("the common name beside a DNS-ID", &anchored(shown(&[b""], Some(host))), (26, 1));
    c.host_certificate("no name", &anchored(shown(&[], None)), (26, 1));
    // "without a leaf nothing is read"
    let mut none = both.clone();
    (none.certificates, none.certificate_lengths, none.key_places, none.digests, none.paths) = Default::default();
    c.host_certificate("no certificate", &none, (26, 1));
    c.host_certificate("no certificate, a key place", &HostCall { key_places: list(&[0, 0]), ..none }, (65, 0));
    c.host_certificate("not given", &HostCall { certificates_given: 0, certificates: vec![0], ..both.clone() }, (12, 1));
    let alone = |leaf: &[u8]| HostCall {
        certificates: leaf.to_vec(),
        certificate_lengths: list(&[leaf.len() as u64]),
        key_places: vec![],
        digests: vec![1; 192],
        paths: list(&[1]),
        ..both.clone()
    };
    c.host_certificate("a leaf of no byte", &alone(b""), (90, 0));
    c.host_certificate("a leaf alone", &HostCall { policy_given: 2, tlsa_answers: 0, address: 2, ..alone(&hex(LEAST)) }, (2, 0));
}

/// "There 90 and 91 stand between 65 for the certificates and 65 for names".
fn order(c: &mut Check) {
    let (many, long) = (vec![&b""[..]; 65], [b'a'; 256]);
    let mut malformed = shown(&[&long], Some(&long));
    malformed.certificates[0] = 0x31;
    let leaves = [(90, malformed), (91, shown(&many, Some(&long))), (65, shown(&[&long], None)), (65, shown(&[], Some(&long)))];
    for (number, call) in leaves {
        let mut with = |what: &str, wanted: u64, change: &dyn Fn(&mut HostCall)| {
            let mut call = call.clone();
            change(&mut call);
            c.host_certificate(what, &call, (wanted, 0));
        };
        with("as it is", number, &|_| {});
        // The leaf is read even where no rule comes to it, and 66 comes last.
        with("address lookup failed", number, &|c| c.address = 6);
        with("not offered", number, &|c| c.starttls = 2);
        with("handshake failed", number, &|c| c.handshake = 2);
        with("TLS 1.0", number, &|c| c.tls_version = 0x0301);
        with("TLSA lookup failed", number, &|c| c.tlsa[0].result = 4);
        with("STARTTLS not given", number, &|c| c.starttls = 0);
        with("a TLSA answer not given", number, &|c| c.tlsa_answers = 0);
        with("a path flag of 3", 67, &|c| c.paths[7] = 3);
        with("no trusted-root code", 67, &|c| c.trusted_root = 0);
        with("a bad clock", 62, &|c| c.clock = u64::MAX);
        with("a bad next-hop", 60, &|c| c.next_hop.clear());
        with("a bad host", 61, &|c| c.host.clear());
        with("a bad policy", 53, &|c| c.policy.clear());
        with("a bad TLSA answer", 64, &|c| c.tlsa[0].lengths.push(0));
        with("lengths that do not sum", 65, &|c| c.certificates.push(0));
        with("a key place for the leaf too", 65, &|c| c.key_places = list(&[0, 1, 2, 3]));
        with("no key place", 65, &|c| c.key_places.clear());
        with("a key place that overruns", 65, &|c| c.key_places = list(&[2, 5]));
        with("digests of one byte less", 65, &|c| _ = c.digests.pop());
        with("a path flag too many", 65, &|c| c.paths.extend([0, 0, 0, 1]));
    }
    let good = shown(&[&[b'a'; 255]], Some(&[b'b'; 255]));
    c.host_certificate("names of 255 bytes", &good, (27, 1));
    c.host_certificate("66", &HostCall { starttls: 0, ..good }, (66, 0));
    c.host_certificate("64 DNS-IDs", &shown(&many[..64], None), (27, 1));
}

pub fn run(c: &mut Check) {
    least(c);
    lengths(c);
    long_certificate(c);
    fields(c);
    alternative_names(c);
    every_tag(c);
    limits(c);
    judged(c);
    order(c);
}
