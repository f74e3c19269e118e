//! Document 02, No. 7 ("Read the certificate ourselves"), written independently of the library, from RFC 5280 (4.1 and 4.2.1.6) and
//! X.690's DER: a function for each production. Every fault is noted where it stands, and in the end the first of them counts;
//! what comes after a fault in the same holder lies further on and is not read. Comments quote document 02, or the page of the C
//! boundary where they name it; "reading n" is that page's list of readings.

use crate::rules::{self, parts, HostAnswer, HostCall, TlsaAnswer};
use std::ops::{Deref, Range};

/// What an answer doesn't speak of is zero.
#[repr(C)]
#[derive(Clone, Copy, PartialEq, Debug, Default)]
pub struct CertificateAnswer {
    pub number: u64,
    pub length: u64,
    pub offset: u64,
    pub key_start: u64,
    pub key_length: u64,
    pub dns_id_count: u64,
    pub common_name_given: u64,
    pub common_name_start: u64,
    pub common_name_length: u64,
}

/// Places in a certificate: of its SubjectPublicKeyInfo with its header, and of the contents of its names.
#[derive(Clone, PartialEq, Debug, Default)]
pub struct Found {
    pub key_info: Range<usize>,
    pub dns_ids: Vec<Range<usize>>,
    pub common_name: Option<Range<usize>>,
}

/// What is wrong with an element. The first two are headers "of another form".
#[derive(Clone, Copy, PartialEq, Eq, PartialOrd, Ord, Debug)]
pub enum What {
    Tag,
    Length,
    Overrun,
    Deep,
    Misplaced,
    Missing,
    LeftOver,
    Second,
}

/// Where the element begins or should begin, what is wrong with it, and what holds it.
#[derive(Clone, Copy, PartialEq, Eq, PartialOrd, Ord, Debug)]
pub struct Fault {
    pub at: usize,
    pub what: What,
    pub inside: &'static str,
}

/// "elements nest at most 16 deep, the certificate being 1"
const DEEPEST: usize = 16;
/// "91, after 90, when there are over 64 DNS-IDs"
const MOST_DNS_IDS: usize = 64;
/// Start and length of a DNS-ID, "eight bytes each".
const PLACE: usize = 16;

const BOOLEAN: u8 = 0x01;
const INTEGER: u8 = 0x02;
const BIT_STRING: u8 = 0x03;
const OCTET_STRING: u8 = 0x04;
const OBJECT_IDENTIFIER: u8 = 0x06;
const SEQUENCE: u8 = 0x30;
const SET: u8 = 0x31;

/// 2.5.4.3 and 2.5.29.17.
const COMMON_NAME: [u8; 3] = [0x55, 0x04, 0x03];
const SUBJECT_ALT_NAME: [u8; 3] = [0x55, 0x1d, 0x11];

// ----------------------------------------------------------------------------------------------------------------- elements

/// What is left of the contents of a holder, and the level of the elements there.
struct Rest {
    at: usize,
    end: usize,
    level: usize,
    inside: &'static str,
}

struct Element {
    at: usize,
    tag: u8,
    contents: Range<usize>,
    level: usize,
}

impl Element {
    fn is_constructed(&self) -> bool {
        self.tag & 0x20 != 0
    }

    fn holds(&self, inside: &'static str) -> Rest {
        Rest { at: self.contents.start, end: self.contents.end, level: self.level + 1, inside }
    }
}

/// How many bytes the length takes, and what it is. "definite, shortest lengths only"
fn length_of(bytes: &[u8]) -> Result<(usize, u64), What> {
    let &first = bytes.first().ok_or(What::Overrun)?;
    if first < 0x80 {
        return Ok((1, first as u64));
    }
    let count = (first & 0x7f) as usize;
    // X.690, 8.1.3.5 and 8.1.3.6: 80 hex is the indefinite form, and FF hex is not used.
    if count == 0 || count == 0x7f {
        return Err(What::Length);
    }
    let digits = bytes.get(1..1 + count).ok_or(What::Overrun)?;
    if digits[0] == 0 {
        return Err(What::Length);
    }
    // More than eight bytes, the first of them not zero, are more than any memory holds.
    if count > 8 {
        return Err(What::Overrun);
    }
    let length = digits.iter().fold(0, |number, &digit| number << 8 | digit as u64);
    if length < 0x80 { Err(What::Length) } else { Ok((1 + count, length)) }
}

struct Reader<'a> {
    bytes: &'a [u8],
    faults: Vec<Fault>,
    found: Found,
    alternative_names: usize,
}

/// Functions that answer an Option answer None after a fault, which they have noted.
impl Reader<'_> {
    fn fault<T>(&mut self, at: usize, what: What, inside: &'static str) -> Option<T> {
        self.faults.push(Fault { at, what, inside });
        None
    }

    fn next_tag(&self, rest: &Rest) -> Option<u8> {
        self.bytes[rest.at..rest.end].first().copied()
    }

    /// The next element, of any tag.
    fn element(&mut self, rest: &mut Rest) -> Option<Element> {
        let (at, level, inside) = (rest.at, rest.level, rest.inside);
        let Some(tag) = self.next_tag(rest) else { return self.fault(at, What::Missing, inside) };
        if level > DEEPEST {
            return self.fault(at, What::Deep, inside);
        }
        // "One-byte tags": the low five bits all ones announce more bytes.
        if tag & 0x1f == 0x1f {
            return self.fault(at, What::Tag, inside);
        }
        let (size, length) = match length_of(&self.bytes[at + 1..rest.end]) {
            Ok(length) => length,
            Err(what) => return self.fault(at, what, inside),
        };
        let start = at + 1 + size;
        if length > (rest.end - start) as u64 {
            return self.fault(at, What::Overrun, inside);
        }
        let contents = start..start + length as usize;
        rest.at = contents.end;
        Some(Element { at, tag, contents, level })
    }

    /// The next element, which has to be there and to have this tag.
    fn required(&mut self, rest: &mut Rest, tag: u8) -> Option<Element> {
        match self.next_tag(rest) {
            Some(found) if found != tag => self.fault(rest.at, What::Misplaced, rest.inside),
            _ => self.element(rest),
        }
    }

    /// The next element if it has this tag.
    fn optional(&mut self, rest: &mut Rest, tag: u8) -> Option<Option<Element>> {
        if self.next_tag(rest) == Some(tag) { self.element(rest).map(Some) } else { Some(None) }
    }

    /// "bytes left over where they begin"
    fn ended(&mut self, rest: &Rest) -> Option<()> {
        if rest.at < rest.end { self.fault(rest.at, What::LeftOver, rest.inside) } else { Some(()) }
    }

    /// "All constructed elements are walked"; "elsewhere nothing is misplaced".
    fn free(&mut self, mut rest: Rest) -> Option<()> {
        while rest.at < rest.end {
            let element = self.element(&mut rest)?;
            if element.is_constructed() {
                self.free(element.holds(rest.inside));
            }
        }
        Some(())
    }

    /// A required SEQUENCE with any contents.
    fn free_sequence(&mut self, rest: &mut Rest, name: &'static str) -> Option<Element> {
        let sequence = self.required(rest, SEQUENCE)?;
        self.free(sequence.holds(name));
        Some(sequence)
    }
}

// -------------------------------------------------------------------------------------------------------------- productions

impl Reader<'_> {
    fn whole(&mut self) -> Option<()> {
        let mut rest = Rest { at: 0, end: self.bytes.len(), level: 1, inside: "the bytes" };
        let certificate = self.required(&mut rest, SEQUENCE)?;
        self.certificate(certificate.holds("Certificate"));
        self.ended(&rest)
    }

    /// Certificate ::= SEQUENCE { tbsCertificate, signatureAlgorithm, signatureValue }
    fn certificate(&mut self, mut rest: Rest) -> Option<()> {
        let tbs_certificate = self.required(&mut rest, SEQUENCE)?;
        self.tbs_certificate(tbs_certificate.holds("TBSCertificate"));
        self.free_sequence(&mut rest, "signatureAlgorithm")?;
        self.required(&mut rest, BIT_STRING)?;
        self.ended(&rest)
    }

    /// TBSCertificate ::= SEQUENCE { version [0] EXPLICIT DEFAULT v1, serialNumber, signature, issuer, validity, subject,
    /// subjectPublicKeyInfo, issuerUniqueID [1] IMPLICIT OPTIONAL, subjectUniqueID [2] IMPLICIT OPTIONAL, extensions [3] EXPLICIT
    /// OPTIONAL }
    fn tbs_certificate(&mut self, mut rest: Rest) -> Option<()> {
        if let Some(version) = self.optional(&mut rest, 0xa0)? {
            self.version(version.holds("version"));
        }
        self.required(&mut rest, INTEGER)?;
        self.free_sequence(&mut rest, "signature")?;
        self.free_sequence(&mut rest, "issuer")?;
        self.free_sequence(&mut rest, "validity")?;
        let subject = self.required(&mut rest, SEQUENCE)?;
        self.subject(subject.holds("subject"));
        let key_info = self.free_sequence(&mut rest, "subjectPublicKeyInfo")?;
        self.found.key_info = key_info.at..key_info.contents.end;
        self.optional(&mut rest, 0x81)?;
        self.optional(&mut rest, 0x82)?;
        if let Some(extensions) = self.optional(&mut rest, 0xa3)? {
            self.extensions(extensions.holds("extensions"));
        }
        self.ended(&rest)
    }

    /// Reading 3: "Explicit tags hold exactly one element: version's [0] an INTEGER, extensions' [3] a SEQUENCE".
    fn version(&mut self, mut rest: Rest) -> Option<()> {
        self.required(&mut rest, INTEGER)?;
        self.ended(&rest)
    }

    /// Name ::= SEQUENCE OF RelativeDistinguishedName
    fn subject(&mut self, mut rest: Rest) -> Option<()> {
        while rest.at < rest.end {
            let names = self.required(&mut rest, SET)?;
            self.relative_distinguished_name(names.holds("RelativeDistinguishedName"));
        }
        Some(())
    }

    /// RelativeDistinguishedName ::= SET OF AttributeTypeAndValue
    fn relative_distinguished_name(&mut self, mut rest: Rest) -> Option<()> {
        while rest.at < rest.end {
            let attribute = self.required(&mut rest, SEQUENCE)?;
            self.attribute(attribute.holds("AttributeTypeAndValue"));
        }
        Some(())
    }

    /// AttributeTypeAndValue ::= SEQUENCE { type OBJECT IDENTIFIER, value ANY }. "Of several common names the last counts."
    fn attribute(&mut self, mut rest: Rest) -> Option<()> {
        let kind = self.required(&mut rest, OBJECT_IDENTIFIER)?;
        let value = self.element(&mut rest)?;
        if value.is_constructed() {
            self.free(value.holds("value"));
        }
        if self.bytes[kind.contents] == COMMON_NAME {
            self.found.common_name = Some(value.contents);
        }
        self.ended(&rest)
    }

    /// The one element in extensions' [3]: Extensions ::= SEQUENCE OF Extension
    fn extensions(&mut self, mut rest: Rest) -> Option<()> {
        let list = self.required(&mut rest, SEQUENCE)?;
        self.extension_list(list.holds("Extensions"));
        self.ended(&rest)
    }

    fn extension_list(&mut self, mut rest: Rest) -> Option<()> {
        while rest.at < rest.end {
            let extension = self.required(&mut rest, SEQUENCE)?;
            self.extension(extension);
        }
        Some(())
    }

    /// Extension ::= SEQUENCE { extnID OBJECT IDENTIFIER, critical BOOLEAN DEFAULT FALSE, extnValue OCTET STRING }
    fn extension(&mut self, extension: Element) -> Option<()> {
        let mut rest = extension.holds("Extension");
        let kind = self.required(&mut rest, OBJECT_IDENTIFIER)?;
        let is_alternative_name = self.bytes[kind.contents] == SUBJECT_ALT_NAME;
        if is_alternative_name {
            self.alternative_names += 1;
        }
        // "a second subjectAltName at its extension", reading 2: "even if its own value is broken or missing".
        if is_alternative_name && self.alternative_names == 2 {
            return self.fault(extension.at, What::Second, "Extensions");
        }
        self.optional(&mut rest, BOOLEAN)?;
        let value = self.required(&mut rest, OCTET_STRING)?;
        if is_alternative_name {
            self.alternative_name(value.holds("subjectAltName"));
        }
        self.ended(&rest)
    }

    /// "and subjectAltName's value a level below its string": the one element there is GeneralNames.
    fn alternative_name(&mut self, mut rest: Rest) -> Option<()> {
        let names = self.required(&mut rest, SEQUENCE)?;
        self.general_names(names.holds("GeneralNames"));
        self.ended(&rest)
    }

    /// GeneralNames ::= SEQUENCE OF GeneralName
    fn general_names(&mut self, mut rest: Rest) -> Option<()> {
        while rest.at < rest.end {
            let name = self.element(&mut rest)?;
            match name.tag {
                0x82 => self.found.dns_ids.push(name.contents),
                // rfc822Name, uniformResourceIdentifier, iPAddress, registeredID
                0x81 | 0x86 | 0x87 | 0x88 => {}
                // Reading 3: "A0, A3 and A5 are only walked".
                0xa0 => _ = self.free(name.holds("otherName")),
                0xa3 => _ = self.free(name.holds("x400Address")),
                0xa4 => _ = self.directory_name(name.holds("directoryName")),
                0xa5 => _ = self.free(name.holds("ediPartyName")),
                _ => return self.fault(name.at, What::Misplaced, rest.inside),
            }
        }
        Some(())
    }

    /// Reading 3: "directoryName is explicit too (a Name is a CHOICE): A4, then exactly one SEQUENCE with free contents".
    fn directory_name(&mut self, mut rest: Rest) -> Option<()> {
        self.free_sequence(&mut rest, "Name")?;
        self.ended(&rest)
    }
}

// ------------------------------------------------------------------------------------------------------------------ answers

/// What is found, or the first fault. Reading 2: "the first element" is the one at the lowest offset, over all faults.
pub fn read(certificate: &[u8]) -> Result<Found, Fault> {
    let mut reader = Reader { bytes: certificate, faults: Vec::new(), found: Found::default(), alternative_names: 0 };
    reader.whole();
    match reader.faults.into_iter().min() {
        Some(first) => Err(first),
        None => Ok(reader.found),
    }
}

/// What is found, or 90 with its offset, or 91.
fn read_or_refuse(certificate: &[u8]) -> Result<Found, CertificateAnswer> {
    let refusal = |number, offset| CertificateAnswer { number, offset, ..Default::default() };
    let found = read(certificate).map_err(|fault| refusal(90, fault.at as u64))?;
    if found.dns_ids.len() > MOST_DNS_IDS { Err(refusal(91, 0)) } else { Ok(found) }
}

/// The boundary: "on 15 its front holds for each DNS-ID start and length in the certificate, eight bytes each, high first (...);
/// too short is 83, after 90 and 91".
pub fn read_certificate(certificate: &[u8], places: &mut [u8]) -> CertificateAnswer {
    let found = match read_or_refuse(certificate) {
        Ok(found) => found,
        Err(refusal) => return refusal,
    };
    let length = PLACE * found.dns_ids.len();
    if places.len() < length {
        return CertificateAnswer { number: 83, ..Default::default() };
    }
    for (place, name) in places.chunks_exact_mut(PLACE).zip(&found.dns_ids) {
        place[..8].copy_from_slice(&(name.start as u64).to_be_bytes());
        place[8..].copy_from_slice(&(name.len() as u64).to_be_bytes());
    }
    let common_name = found.common_name.clone().unwrap_or(0..0);
    CertificateAnswer {
        number: 15,
        length: length as u64,
        offset: 0,
        key_start: found.key_info.start as u64,
        key_length: found.key_info.len() as u64,
        dns_id_count: found.dns_ids.len() as u64,
        common_name_given: if found.common_name.is_some() { 1 } else { 2 },
        common_name_start: common_name.start as u64,
        common_name_length: common_name.len() as u64,
    }
}

// ------------------------------------------------------------------------------------------------------------- the host's call

/// The call with its bytes lent, and no names.
fn without_names<B: Deref<Target = [u8]>>(call: &HostCall<B>) -> HostCall<&[u8]> {
    let tlsa = call.tlsa.each_ref().map(|a| TlsaAnswer { result: a.result, lengths: &*a.lengths, records: &*a.records });
    HostCall {
        clock: call.clock,
        next_hop: &call.next_hop,
        expanded_next_hop_given: call.expanded_next_hop_given,
        expanded_next_hop: &call.expanded_next_hop,
        origin: call.origin,
        host: &call.host,
        address: call.address,
        expanded: &call.expanded,
        policy_given: call.policy_given,
        policy: &call.policy,
        fetched: call.fetched,
        tlsa_answers: call.tlsa_answers,
        tlsa,
        starttls: call.starttls,
        handshake: call.handshake,
        tls_version: call.tls_version,
        certificates_given: call.certificates_given,
        certificates: &call.certificates,
        certificate_lengths: &call.certificate_lengths,
        key_places: &call.key_places,
        digests: &call.digests,
        paths: &call.paths,
        trusted_root: call.trusted_root,
        dns_ids: &[],
        dns_id_lengths: &[],
        common_name_given: 2,
        common_name: &[],
    }
}

/// The facts of a leaf as the plain entry takes them.
pub struct LeafFacts {
    pub key_place: Vec<u8>,
    pub dns_ids: Vec<u8>,
    pub dns_id_lengths: Vec<u8>,
    pub common_name: Option<Vec<u8>>,
}

/// What the plain entry is to be told of this leaf, or 90 or 91.
pub fn leaf_facts(leaf: &[u8]) -> Result<LeafFacts, u64> {
    let found = read_or_refuse(leaf).map_err(|refusal| refusal.number)?;
    let number = |n: usize| (n as u32).to_be_bytes();
    Ok(LeafFacts {
        key_place: [number(found.key_info.start), number(found.key_info.len())].concat(),
        dns_ids: found.dns_ids.iter().flat_map(|name| leaf[name.clone()].to_vec()).collect(),
        dns_id_lengths: found.dns_ids.iter().flat_map(|name| number(name.len())).collect(),
        common_name: found.common_name.map(|name| leaf[name].to_vec()),
    })
}

/// The first certificate, where certificate facts are given and the lengths of their list sum.
pub fn leaf_of<B: Deref<Target = [u8]>>(call: &HostCall<B>) -> Option<&[u8]> {
    if call.certificates_given != 1 {
        return None;
    }
    parts(&call.certificates, &call.certificate_lengths)?.first().copied()
}

/// The call without names, whose `key_places` have no pair for the leaf. "The plain entry with the relay's own facts stays; the new
/// one answers as it does on the facts read."
pub fn judge_host_certificate<B: Deref<Target = [u8]>>(call: &HostCall<B>) -> HostAnswer {
    let mut plain = without_names(call);
    // "without a leaf nothing is read"
    let Some(leaf) = leaf_of(call) else { return rules::judge_host(&plain) };
    // "There 90 and 91 stand between 65 for the certificates and 65 for names": what the plain entry refuses whatever the leaf has,
    // it refuses too of a leaf with an empty key info and no names. 66 comes last.
    let with_place = |place: &[u8]| [place, &call.key_places].concat();
    let key_places = with_place(&[0; 8]);
    plain.key_places = &key_places;
    let whatever = rules::judge_host(&plain);
    if whatever.0 >= 40 && whatever.0 != 66 {
        return whatever;
    }
    let facts = match leaf_facts(leaf) {
        Ok(facts) => facts,
        Err(refusal) => return (refusal, 0),
    };
    let key_places = with_place(&facts.key_place);
    plain.key_places = &key_places;
    (plain.dns_ids, plain.dns_id_lengths) = (&facts.dns_ids, &facts.dns_id_lengths);
    if let Some(name) = &facts.common_name {
        (plain.common_name_given, plain.common_name) = (1, name);
    }
    rules::judge_host(&plain)
}
