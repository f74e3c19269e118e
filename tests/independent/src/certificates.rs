//! The certificate reader (document 02, No. 7) against the rules: number, every field and all of the places are compared. First
//! random certificates, whole and damaged, with the ways in which the call comes to its answers counted; then small certificates
//! byte by byte.

use crate::arguments::{self, Shown};
use crate::boundary::{self, Lender, Place};
use crate::inputs;
use crate::publications;
use crate::publishing::{Way, Ways};
use crate::random::Random;
use crate::trees::{self, leaf, node, Made, Names, Node};
use crate::{outcome, Outcome, Table};
use independent_rules::certificate::{self, CertificateAnswer, Fault, Found, What};
use std::collections::BTreeMap;
use std::time::Instant;

/// Of so many free contents one goes down to the limit.
const RARE: usize = 40;

// ------------------------------------------------------------------------------------------------------------- random cases

/// One in two is damaged, a few in their bytes.
fn random_certificate(r: &mut Random) -> (Vec<u8>, Made) {
    let names = trees::names(r);
    let mut made = trees::certificate(r, &names, RARE);
    for _ in 0..*r.pick(&[0, 0, 0, 0, 1, 1, 1, 2]) {
        trees::damage(r, &mut made.tree);
        made.deep = None;
    }
    let mut bytes = made.tree.bytes();
    if r.once_in(20) {
        inputs::damage(r, &mut bytes);
        made.deep = None;
    }
    (bytes, made)
}

/// About as much room as the places take, filled with random bytes.
fn room(r: &mut Random, found: &Result<Found, Fault>) -> Vec<u8> {
    let needed = found.as_ref().map_or(32, |found| 16 * found.dns_ids.len());
    publications::output(r, needed)
}

/// The answer, and a copy of the places as the call leaves them.
fn asked(places: &[u8], read: impl FnOnce(&mut [u8]) -> CertificateAnswer) -> (CertificateAnswer, Shown) {
    let mut places = places.to_vec();
    (read(&mut places), Shown(places))
}

pub fn read_certificate(lender: &mut Lender, r: &mut Random, place: Place, seen: &mut Seen) -> Outcome {
    let (bytes, made) = random_certificate(r);
    let found = certificate::read(&bytes);
    let places = room(r, &found);
    let ours = asked(&places, |places| certificate::read_certificate(&bytes, places));
    let theirs = asked(&places, |places| lender.read_certificate(&bytes, places, place));
    seen.count(&found, &made);
    seen.ways.count(&ways(&bytes, &found, &made.tree, places.len(), ours.0.number));
    outcome(theirs.0.number, ours, theirs, move || arguments::certificate(&bytes, &places))
}

// -------------------------------------------------------------------------------------------------------------------- ways

/// How often each fault was the first, how deep each way down led without one, and the ways.
#[derive(Default)]
pub struct Seen {
    faults: BTreeMap<(&'static str, What), u64>,
    deepest: BTreeMap<&'static str, u64>,
    ways: Ways,
}

/// The holders whose elements are bound to a tag, with what may be wrong there; of free contents all of FREE may.
const BOUND: [(&str, &[What]); 14] = [
    ("the bytes", &[What::Length, What::Overrun, What::Misplaced, What::LeftOver]),
    ("Certificate", FIELDS),
    ("TBSCertificate", FIELDS),
    ("version", FIELDS),
    ("subject", &[What::Length, What::Overrun, What::Misplaced]),
    ("RelativeDistinguishedName", &[What::Length, What::Overrun, What::Misplaced]),
    ("AttributeTypeAndValue", &[What::Tag, What::Length, What::Overrun, What::Misplaced, What::Missing, What::LeftOver]),
    ("extensions", FIELDS),
    ("Extensions", &[What::Length, What::Overrun, What::Misplaced, What::Second]),
    ("Extension", FIELDS),
    ("subjectAltName", FIELDS),
    ("GeneralNames", &[What::Tag, What::Length, What::Overrun, What::Misplaced]),
    ("directoryName", FIELDS),
    ("Name", FREE),
];
const FIELDS: &[What] = &[What::Length, What::Overrun, What::Misplaced, What::Missing, What::LeftOver];
const FREE: &[What] = &[What::Tag, What::Length, What::Overrun, What::Deep];

impl Seen {
    fn count(&mut self, found: &Result<Found, Fault>, made: &Made) {
        if let Err(fault) = found {
            *self.faults.entry((fault.inside, fault.what)).or_insert(0) += 1;
        }
        if let Some((way, 16)) = made.deep.filter(|_| found.is_ok()) {
            *self.deepest.entry(way).or_insert(0) += 1;
        }
    }

    /// Every fault that has to come: those of the holders that are bound, and those of free contents.
    fn expected() -> impl Iterator<Item = (&'static str, What)> {
        let free = trees::WAYS_DOWN.into_iter().filter(|way| *way != "directoryName").map(|way| (way, FREE));
        BOUND.into_iter().chain(free).flat_map(|(inside, all)| all.iter().map(move |what| (inside, *what)))
    }

    pub fn report(&self) {
        let mut holders: BTreeMap<&str, Vec<String>> = BTreeMap::new();
        for ((inside, what), count) in &self.faults {
            holders.entry(inside).or_default().push(format!("{what:?} {count}"));
        }
        for (inside, counts) in holders {
            println!("  first fault in {inside}: {}", counts.join(", "));
        }
        let deepest: Vec<String> = self.deepest.iter().map(|(way, count)| format!("{way} {count}")).collect();
        println!("  accepted at level 16: {}", deepest.join(", "));
        self.ways.report();
    }

    /// A fault that came less than once in 50,000 cases, or a way less than once in 10,000.
    pub fn missing(&self, cases: u64) -> Option<String> {
        let rare = |count: Option<&u64>| count.copied().unwrap_or(0) * 50_000 < cases;
        let fault = Self::expected().find(|fault| rare(self.faults.get(fault))).map(|fault| format!("{fault:?}"));
        let deepest = trees::WAYS_DOWN.into_iter().find(|way| rare(self.deepest.get(way))).map(|way| format!("level 16 in {way}"));
        fault.or(deepest).or(self.ways.missing(cases))
    }
}

/// Whether there is an element of this tag in the first that the tree holds, the TBSCertificate where it was not damaged.
fn has_field(tree: &Node, tag: u8) -> bool {
    tree.inner().first().is_some_and(|first| first.inner().iter().any(|field| field.tag == tag))
}

/// Which ways the call is an example of; the number is what the rules answer.
fn ways(bytes: &[u8], found: &Result<Found, Fault>, tree: &Node, room: usize, number: u64) -> [Way; 27] {
    let (read, nothing) = (number == 15, Found::default());
    let found = found.as_ref().unwrap_or(&nothing);
    let (count, length) = (found.dns_ids.len(), 16 * found.dns_ids.len());
    let name = found.common_name.clone();
    let empty = |name: &std::ops::Range<usize>| name.is_empty();
    [
        ("no DNS-ID", read && count == 0),
        ("1 DNS-ID", read && count == 1),
        ("63 DNS-IDs", read && count == 63),
        ("64 DNS-IDs", read && count == 64),
        ("65 DNS-IDs", number == 91 && count == 65),
        ("66 DNS-IDs", number == 91 && count == 66),
        ("an empty DNS-ID", read && found.dns_ids.iter().any(empty)),
        ("an empty DNS-ID as the last", read && found.dns_ids.last().is_some_and(empty)),
        ("a DNS-ID of over 255 bytes", read && found.dns_ids.iter().any(|name| name.len() > 255)),
        ("no common name", read && name.is_none()),
        ("a common name", read && name.is_some()),
        ("an empty common name", read && name.as_ref().is_some_and(empty)),
        ("a common name of over 255 bytes", read && name.as_ref().is_some_and(|name| name.len() > 255)),
        ("an empty key info", read && found.key_info.len() == 2),
        ("a key info of over 127 bytes", read && found.key_info.len() > 129),
        ("no version", read && !has_field(tree, 0xa0)),
        ("issuerUniqueID", read && has_field(tree, 0x81)),
        ("subjectUniqueID", read && has_field(tree, 0x82)),
        ("no extensions", read && !has_field(tree, 0xa3)),
        ("a certificate of under 128 bytes", read && bytes.len() < 128),
        ("a certificate of over 255 bytes", read && bytes.len() > 259),
        ("places of just the length", read && room == length && count > 0),
        ("longer places", read && room > length && count > 0),
        ("83 by one byte", number == 83 && room + 1 == length),
        ("83 by no places", number == 83 && room == 0),
        ("91 before 83", number == 91 && room < length),
        ("90, and no places", number == 90 && room == 0),
    ]
}

// -------------------------------------------------------------------------------------------------------------- byte by byte

/// The least that is a certificate, and others with each field once or twice.
fn fixed() -> Vec<Vec<u8>> {
    let empty = || node(0x30, vec![]);
    let least = |more: Vec<Node>| {
        let fields = vec![leaf(0x02, b""), empty(), empty(), empty(), empty(), empty()];
        node(0x30, vec![node(0x30, [fields, more].concat()), empty(), leaf(0x03, b"")]).bytes()
    };
    let extension = |value: Node| node(0x30, vec![leaf(0x06, b"\x55\x1d\x11"), value]);
    let alone = |names: Vec<Node>| node(0xa3, vec![node(0x30, vec![extension(node(0x04, vec![node(0x30, names)]))])]);
    let kinds = vec![
        node(0xa0, vec![leaf(0x06, b"\x2a"), node(0xa0, vec![leaf(0x0c, b"x")])]),
        leaf(0x81, b"a@b"),
        leaf(0x82, b"a.example"),
        node(0xa3, vec![]),
        node(0xa4, vec![node(0x30, vec![node(0x31, vec![])])]),
        node(0xa5, vec![node(0xa1, vec![leaf(0x0c, b"y")])]),
        leaf(0x86, b"u:"),
        leaf(0x87, &[192, 0, 2, 1]),
        leaf(0x88, b"\x2a"),
        leaf(0x82, b""),
    ];
    let mut r = Random::new(0, 17, 0);
    let long = |r: &mut Random, names: Names| trees::certificate(r, &names, usize::MAX).tree.bytes();
    let dns_ids = vec![b"mail.example.com".to_vec(), b"*.example.net".to_vec()];
    let some = Names { dns_ids, common_names: vec![b"example.com".to_vec()] };
    let many = Names { dns_ids: vec![b"d".to_vec(); 64], common_names: vec![] };
    vec![
        least(vec![]),
        least(vec![leaf(0x81, b""), leaf(0x82, b"x"), node(0xa3, vec![node(0x30, vec![])])]),
        least(vec![alone(vec![])]),
        least(vec![alone(kinds)]),
        least(vec![alone((0..65).map(|_| leaf(0x82, b"")).collect())]),
        nested(16),
        nested(17),
        long(&mut r, some),
        long(&mut r, many),
    ]
}

/// A certificate with an element in its issuer at this level.
pub fn nested(level: usize) -> Vec<u8> {
    let mut inner = leaf(0x05, b"");
    for _ in 4..level {
        inner = node(0x30, vec![inner]);
    }
    let fields = vec![
        node(0xa0, vec![leaf(0x02, &[2])]),
        leaf(0x02, &[1]),
        node(0x30, vec![]),
        node(0x30, vec![inner]),
        node(0x30, vec![]),
        node(0x30, vec![node(0x31, vec![node(0x30, vec![leaf(0x06, b"\x55\x04\x03"), leaf(0x0c, b"cn")])])]),
        node(0x30, vec![leaf(0x03, b"\0key")]),
    ];
    node(0x30, vec![node(0x30, fields), node(0x30, vec![]), leaf(0x03, b"\0")]).bytes()
}

/// What a byte is changed to, and what is put in: tags and lengths at their edges.
const VALUES: [u8; 22] = [
    0x00, 0x01, 0x02, 0x03, 0x04, 0x06, 0x1f, 0x30, 0x31, 0x3f, 0x7f, 0x80, 0x81, 0x82, 0x83, 0x84, 0x88, 0x89, 0xa0, 0xa3, 0xa4,
    0xff,
];

/// Each byte changed to each value, by one, and in each bit; each truncation; a byte dropped or put in at each place.
fn near(bytes: &[u8], every: bool, mut f: impl FnMut(&[u8])) {
    f(bytes);
    for at in 0..=bytes.len() {
        f(&bytes[..at]);
        for value in VALUES {
            f(&[&bytes[..at], &[value], &bytes[at..]].concat());
        }
        if at == bytes.len() {
            break;
        }
        let mut other = bytes.to_vec();
        let bits = (0..8).map(|bit| bytes[at] ^ 1 << bit);
        let some = VALUES.into_iter().chain([bytes[at].wrapping_add(1), bytes[at].wrapping_sub(1)]).chain(bits);
        let values: Vec<u8> = if every { (0..=255).collect() } else { some.collect() };
        for value in values {
            other[at] = value;
            f(&other);
        }
        other.remove(at);
        f(&other);
    }
}

/// Every certificate near the fixed ones; small ones with every value of each byte. How many were asked.
pub fn run(lender: &mut Lender, seed: u64) -> u64 {
    let (begun, mut cases, mut table) = (Instant::now(), 0, Table::new());
    for bytes in fixed() {
        near(&bytes, bytes.len() < 120, |bytes| {
            let mut r = Random::new(seed, 16, cases);
            boundary::CURRENT.with(|c| c.set((seed, "certificates byte by byte", cases)));
            let place = Place::random(&mut r);
            let places = room(&mut r, &certificate::read(bytes));
            let ours = asked(&places, |places| certificate::read_certificate(bytes, places));
            let theirs = asked(&places, |places| lender.read_certificate(bytes, places, place));
            if ours != theirs {
                println!("DIFFERENCE\ncertificates byte by byte, case {cases}\n{}", arguments::certificate(bytes, &places));
                println!("  rules   {ours:?}\n  library {theirs:?}");
                std::process::exit(1);
            }
            *table.entry(ours.0.number).or_insert(0) += 1;
            cases += 1;
        });
    }
    let counts: Vec<String> = table.iter().map(|(number, count)| format!("{number}: {count}")).collect();
    println!("certificates byte by byte: {cases} cases in {:.1} s; answers {}", begun.elapsed().as_secs_f64(), counts.join(", "));
    if let Some(missing) = [15, 83, 90, 91].iter().find(|number| !table.contains_key(number)) {
        println!("FAILED: no certificate gave {missing}");
        std::process::exit(1);
    }
    cases
}
