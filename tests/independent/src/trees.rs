//! Random certificates as trees of DER elements, with every field of RFC 5280 and mostly as they should be, and damage done to a
//! tree: the lengths of all elements but the damaged one are right again. Levels count from the certificate, which is 1.

use crate::inputs;
use crate::random::Random;

/// How the header of an element is written.
#[derive(Clone, Debug)]
pub enum Form {
    Right,
    /// The length with so many bytes more than it needs.
    Long(usize),
    /// The length byte 80 hex, and two bytes of zero after the contents or not.
    Indefinite(bool),
    /// A tag of several bytes, of which these come after the first.
    LongTag(Vec<u8>),
    /// The length so much too large.
    Off(i64),
    /// A length of so many bytes and one more: right, were that one not looked at.
    Wraps(usize),
    /// These bytes in the place of the header.
    Bytes(Vec<u8>),
}

#[derive(Clone, Debug)]
pub enum Holds {
    Bytes(Vec<u8>),
    Nodes(Vec<Node>),
}

#[derive(Clone, Debug)]
pub struct Node {
    pub tag: u8,
    pub form: Form,
    pub holds: Holds,
}

pub fn leaf(tag: u8, bytes: &[u8]) -> Node {
    Node { tag, form: Form::Right, holds: Holds::Bytes(bytes.to_vec()) }
}

pub fn node(tag: u8, nodes: Vec<Node>) -> Node {
    Node { tag, form: Form::Right, holds: Holds::Nodes(nodes) }
}

/// Bytes that stand among elements as they are.
pub fn raw(bytes: &[u8]) -> Node {
    Node { tag: 0, form: Form::Bytes(vec![]), holds: Holds::Bytes(bytes.to_vec()) }
}

/// The bytes of a length, without zeros in front; at least one.
fn digits(length: usize) -> Vec<u8> {
    let zeros = (length.leading_zeros() / 8).min(7) as usize;
    length.to_be_bytes()[zeros..].to_vec()
}

/// The length in its shortest form.
pub fn shortest(length: usize) -> Vec<u8> {
    if length < 0x80 { vec![length as u8] } else { counted(&digits(length)) }
}

/// Bytes of a length with their count before them.
fn counted(digits: &[u8]) -> Vec<u8> {
    [&[0x80 | digits.len() as u8], digits].concat()
}

/// The length with so many bytes more than the shortest form has, from one on.
fn longer(length: usize, more: usize) -> Vec<u8> {
    let zeros = if length < 0x80 { more - 1 } else { more };
    counted(&[vec![0; zeros], digits(length)].concat())
}

impl Node {
    pub fn bytes(&self) -> Vec<u8> {
        let mut out = Vec::new();
        self.put(&mut out);
        out
    }

    /// The contents are put down first, and the header comes before them.
    fn put(&self, out: &mut Vec<u8>) {
        let start = out.len();
        match &self.holds {
            Holds::Bytes(bytes) => out.extend(bytes),
            Holds::Nodes(nodes) => nodes.iter().for_each(|node| node.put(out)),
        }
        let header = self.header(out.len() - start);
        out.splice(start..start, header);
        if let Form::Indefinite(true) = self.form {
            out.extend([0, 0]);
        }
    }

    fn header(&self, length: usize) -> Vec<u8> {
        let tagged = |length: Vec<u8>| [&[self.tag], &length[..]].concat();
        match &self.form {
            Form::Right => tagged(shortest(length)),
            Form::Long(more) => tagged(longer(length, *more)),
            Form::Indefinite(_) => vec![self.tag, 0x80],
            Form::LongTag(more) => [&[self.tag | 0x1f], &more[..], &shortest(length)].concat(),
            Form::Off(by) => tagged(shortest((length as i64 + by).max(0) as usize)),
            Form::Wraps(size) => {
                let digits = (length as u128).to_be_bytes();
                [&[self.tag, 0x81 + *size as u8, 1], &digits[digits.len() - size..]].concat()
            }
            Form::Bytes(header) => header.clone(),
        }
    }

    pub fn inner(&self) -> &[Node] {
        match &self.holds {
            Holds::Nodes(nodes) => nodes,
            Holds::Bytes(_) => &[],
        }
    }

    pub fn nodes(&mut self) -> Option<&mut Vec<Node>> {
        match &mut self.holds {
            Holds::Nodes(nodes) => Some(nodes),
            Holds::Bytes(_) => None,
        }
    }

    fn count(&self) -> usize {
        1 + self.inner().iter().map(Node::count).sum::<usize>()
    }

    /// The node of this number, in the order of their first bytes.
    fn numbered(&mut self, mut number: usize) -> &mut Node {
        if number == 0 {
            return self;
        }
        number -= 1;
        for inner in self.nodes().expect("a number below the count") {
            let count = inner.count();
            if number < count {
                return inner.numbered(number);
            }
            number -= count;
        }
        unreachable!("a number below the count")
    }
}

// ------------------------------------------------------------------------------------------------------------ free contents

/// Tags that may stand where nothing is misplaced: some of them are fields elsewhere.
const FREE_TAGS: [u8; 24] = [
    0x00, 0x01, 0x02, 0x03, 0x04, 0x05, 0x06, 0x0c, 0x13, 0x16, 0x17, 0x1e, 0x80, 0x81, 0x82, 0x9e, 0xc0, 0x24, 0x30, 0x31, 0xa0,
    0xa3, 0xa4, 0xe1,
];
const CONSTRUCTED: [u8; 8] = [0x20, 0x24, 0x30, 0x31, 0xa0, 0xa3, 0xbe, 0xfe];

/// Where an element may stand so deep that it is at the limit.
pub const WAYS_DOWN: [&str; 10] = [
    "signature", "issuer", "validity", "value", "subjectPublicKeyInfo", "otherName", "x400Address", "directoryName", "ediPartyName",
    "signatureAlgorithm",
];

/// What was made: the tree, and which way down came to which level, were it not damaged.
pub struct Made {
    pub tree: Node,
    pub deep: Option<(&'static str, usize)>,
}

struct Maker<'a> {
    r: &'a mut Random,
    deep: Option<(&'static str, usize)>,
    /// Once in so many free contents goes down to the limit.
    rare: usize,
}

impl Maker<'_> {
    /// Constructed elements, each the only one in the last, from a level to another; the last holds nothing or is primitive.
    fn chain(&mut self, level: usize, deepest: usize) -> Node {
        if level < deepest {
            let tag = *self.r.pick(&CONSTRUCTED);
            let mut nodes = vec![self.chain(level + 1, deepest)];
            if self.r.once_in(6) {
                nodes.insert(self.r.below(2), leaf(0x05, b""));
            }
            return node(tag, nodes);
        }
        let tag = *self.r.pick(&[0x02, 0x04, 0x05, 0x82, 0x30, 0xa0]);
        if tag & 0x20 != 0 { node(tag, vec![]) } else { leaf(tag, b"") }
    }

    /// Any elements for a holder whose own elements are at this level.
    fn free(&mut self, level: usize, way: &'static str) -> Vec<Node> {
        if self.r.once_in(self.rare) {
            let deepest = *self.r.pick(&[15, 16, 16, 16, 17, 17, 18]);
            self.deep = Some((way, deepest));
            let mut nodes = self.few(level, 2);
            let at = self.r.below(nodes.len() + 1);
            nodes.insert(at, self.chain(level, deepest));
            return nodes;
        }
        self.few(level, 3)
    }

    fn few(&mut self, level: usize, most: usize) -> Vec<Node> {
        (0..self.r.below(most + 1)).map(|_| self.any(level)).collect()
    }

    fn any(&mut self, level: usize) -> Node {
        let tag = *self.r.pick(&FREE_TAGS);
        if tag & 0x20 != 0 && level < 12 {
            return node(tag, self.few(level + 1, 2));
        }
        let n = if self.r.once_in(20) { *self.r.pick(&[126, 127, 128, 129, 255, 256]) } else { self.r.below(6) };
        leaf(tag & !0x20, &self.r.bytes(n))
    }
}

// ------------------------------------------------------------------------------------------------------------------- fields

const COMMON_NAME: &[u8] = &[0x55, 0x04, 0x03];
const SUBJECT_ALT_NAME: &[u8] = &[0x55, 0x1d, 0x11];
/// Near those, and others.
const OTHER_OIDS: [&[u8]; 14] = [
    b"", b"\x55", b"\x55\x04", b"\x55\x1d", b"\x55\x04\x0a", b"\x55\x1d\x12", b"\x55\x1d\x0f", b"\x55\x04\x03\x00",
    b"\x55\x1d\x11\x00", b"\x00\x55\x1d\x11", b"\x55\x1d\x91\x11", b"\x2a\x86\x48\x86\xf7\x0d\x01\x01\x0b", b"\x55\x05\x03",
    b"\x54\x1d\x11",
];

fn oid(bytes: &[u8]) -> Node {
    leaf(0x06, bytes)
}

/// The names that a certificate is to have. Without DNS-IDs it may have a subjectAltName or none.
pub struct Names {
    pub dns_ids: Vec<Vec<u8>>,
    pub common_names: Vec<Vec<u8>>,
}

impl Maker<'_> {
    fn attribute(&mut self, kind: &[u8], value: Node) -> Node {
        node(0x30, vec![oid(kind), value])
    }

    /// Mostly a string; also an element that holds others.
    fn other_value(&mut self) -> Node {
        if self.r.once_in(4) {
            return node(*self.r.pick(&CONSTRUCTED), self.free(7, "value"));
        }
        let n = self.r.below(12);
        leaf(*self.r.pick(&[0x0c, 0x13, 0x16, 0x1e, 0x82, 0x03]), &inputs::letters(self.r, n))
    }

    fn subject(&mut self, names: &[Vec<u8>]) -> Node {
        let mut attributes: Vec<Node> = Vec::new();
        for name in names {
            let tag = *self.r.pick(&[0x0c, 0x0c, 0x13, 0x16, 0x1e, 0x14, 0x82, 0x02]);
            attributes.push(self.attribute(COMMON_NAME, leaf(tag, name)));
        }
        for _ in 0..*self.r.pick(&[0, 0, 1, 2, 3]) {
            let (at, kind) = (self.r.below(attributes.len() + 1), *self.r.pick(&OTHER_OIDS));
            let value = self.other_value();
            attributes.insert(at, self.attribute(kind, value));
        }
        let mut sets: Vec<Node> = Vec::new();
        for attribute in attributes {
            match sets.last_mut().and_then(Node::nodes).filter(|_| self.r.once_in(4)) {
                Some(set) => set.push(attribute),
                None => sets.push(node(0x31, vec![attribute])),
            }
        }
        if self.r.once_in(12) {
            sets.insert(self.r.below(sets.len() + 1), node(0x31, vec![]));
        }
        node(0x30, sets)
    }

    fn other_general_name(&mut self) -> Node {
        let n = self.r.below(9);
        match self.r.below(8) {
            0 => node(0xa0, self.free(9, "otherName")),
            1 => node(0xa3, self.free(9, "x400Address")),
            2 | 3 => node(0xa4, vec![node(0x30, self.free(10, "directoryName"))]),
            4 => node(0xa5, self.free(9, "ediPartyName")),
            5 => leaf(*self.r.pick(&[0x86, 0x88]), &inputs::letters(self.r, n)),
            6 => leaf(0x87, &self.r.bytes(4)),
            _ => leaf(0x81, &inputs::letters(self.r, n)),
        }
    }

    fn general_names(&mut self, dns_ids: &[Vec<u8>]) -> Node {
        let mut names: Vec<Node> = dns_ids.iter().map(|name| leaf(0x82, name)).collect();
        for _ in 0..*self.r.pick(&[0, 0, 0, 1, 1, 2, 4]) {
            let (at, name) = (self.r.below(names.len() + 1), self.other_general_name());
            names.insert(at, name);
        }
        node(0x30, names)
    }

    fn extension(&mut self, kind: &[u8], value: Node) -> Node {
        let mut nodes = vec![oid(kind)];
        if self.r.once_in(3) {
            let byte = *self.r.pick(&[0xff, 0x00, 0x01]);
            nodes.push(leaf(0x01, &[byte][..self.r.below(2)]));
        }
        nodes.push(value);
        node(0x30, nodes)
    }

    /// Its value is not looked into, whatever it is.
    fn other_extension(&mut self) -> Node {
        let value = match self.r.below(5) {
            0 => vec![0x30, 0x80, 0x1f, 0xff],
            1 => node(0x30, vec![leaf(0x82, b"not.a.dns-id")]).bytes(),
            2 => self.chain(7, 20).bytes(),
            _ => {
                let n = if self.r.once_in(10) { self.r.between(100, 300) } else { self.r.below(20) };
                self.r.bytes(n)
            }
        };
        let kind = *self.r.pick(&OTHER_OIDS);
        self.extension(kind, leaf(0x04, &value))
    }

    /// None where there are no extensions.
    fn extensions(&mut self, dns_ids: &[Vec<u8>]) -> Option<Node> {
        let mut list: Vec<Node> = (0..*self.r.pick(&[0, 0, 1, 1, 2, 4])).map(|_| self.other_extension()).collect();
        if !dns_ids.is_empty() || self.r.once_in(3) {
            let value = node(0x04, vec![self.general_names(dns_ids)]);
            let at = self.r.below(list.len() + 1);
            list.insert(at, self.extension(SUBJECT_ALT_NAME, value));
        }
        (!list.is_empty() || self.r.once_in(3)).then(|| node(0xa3, vec![node(0x30, list)]))
    }

    fn certificate(&mut self, names: &Names) -> Node {
        let mut fields = Vec::new();
        if !self.r.once_in(4) {
            fields.push(node(0xa0, vec![leaf(0x02, &[2])]));
        }
        let n = self.r.below(21);
        fields.push(leaf(0x02, &self.r.bytes(n)));
        for way in ["signature", "issuer", "validity"] {
            fields.push(node(0x30, self.free(4, way)));
        }
        fields.push(self.subject(&names.common_names));
        fields.push(node(0x30, self.free(4, "subjectPublicKeyInfo")));
        for tag in [0x81, 0x82] {
            if self.r.once_in(8) {
                fields.push(leaf(tag, &[0, 1, 2]));
            }
        }
        fields.extend(self.extensions(&names.dns_ids));
        let n = self.r.below(9);
        let signature = leaf(0x03, &self.r.bytes(n));
        node(0x30, vec![node(0x30, fields), node(0x30, self.free(3, "signatureAlgorithm")), signature])
    }
}

/// A certificate with these names; once in so many of its free contents goes down to the limit.
pub fn certificate(r: &mut Random, names: &Names, rare: usize) -> Made {
    let mut maker = Maker { r, deep: None, rare };
    let tree = maker.certificate(names);
    Made { tree, deep: maker.deep }
}

/// A name of a certificate, of any bytes.
fn any_name(r: &mut Random) -> Vec<u8> {
    match r.below(12) {
        0 => vec![],
        1 => {
            let n = *r.pick(&[1, 126, 127, 128, 253, 254, 255, 256, 257]);
            r.bytes(n)
        }
        _ => inputs::name(r),
    }
}

pub fn names(r: &mut Random) -> Names {
    let dns_ids = match r.below(40) {
        0 => *r.pick(&[63, 64, 64, 65, 65, 66]),
        1 | 2 => r.between(4, 20),
        3..=9 => 0,
        _ => r.between(1, 3),
    };
    let short = dns_ids > 20;
    let dns_ids = (0..dns_ids).map(|i| if short { vec![b'a' + i as u8 % 26; i % 3] } else { any_name(r) }).collect();
    let common_names = *r.pick(&[0, 0, 1, 1, 1, 2, 3]);
    Names { dns_ids, common_names: (0..common_names).map(|_| any_name(r)).collect() }
}

// ------------------------------------------------------------------------------------------------------------------- damage

/// Tags that are a field's somewhere, and near ones.
const TAGS: [u8; 30] = [
    0x01, 0x02, 0x03, 0x04, 0x06, 0x0c, 0x10, 0x11, 0x20, 0x22, 0x23, 0x24, 0x26, 0x30, 0x31, 0x32, 0x80, 0x81, 0x82, 0x83, 0x84,
    0x86, 0x89, 0xa0, 0xa1, 0xa2, 0xa3, 0xa4, 0xa5, 0xa6,
];

fn bad_form(r: &mut Random, tag: u8) -> Form {
    match r.below(8) {
        0 => Form::Long(*r.pick(&[1, 1, 2, 3, 7, 8, 9, 120])),
        1 => Form::Indefinite(r.once_in(2)),
        2 => {
            let more = *r.pick(&[1, 1, 2]);
            Form::LongTag(r.bytes(more))
        }
        3 => Form::Off(*r.pick(&[-3, -2, -1, 1, 1, 2, 3, 127, 128, 256])),
        4 => {
            let count = *r.pick(&[1, 2, 3, 4, 7, 8, 9, 16, 126, 127]);
            let first = *r.pick(&[1, 0x7f, 0x80, 0xff]);
            Form::Bytes([&[tag, 0x80 | count as u8, first], &r.bytes(count - 1)[..]].concat())
        }
        5 => Form::Wraps(*r.pick(&[1, 2, 3, 4, 4, 5, 7, 8, 8, 9, 16])),
        6 => Form::Bytes(vec![tag]),
        _ => Form::Bytes(vec![]),
    }
}

/// A node: any one, or mostly one near the root.
fn some_node<'a>(r: &mut Random, tree: &'a mut Node) -> &'a mut Node {
    if r.once_in(2) {
        let number = r.below(tree.count());
        return tree.numbered(number);
    }
    let mut at = tree;
    while !r.once_in(5) && at.nodes().is_some_and(|nodes| !nodes.is_empty()) {
        let nodes = at.nodes().expect("it holds nodes");
        let i = r.below(nodes.len());
        at = &mut nodes[i];
    }
    at
}

fn left_over(r: &mut Random) -> Node {
    let bytes: &[&[u8]] = &[
        b"\0", b"\0\0", b"\x05\0", b"\x30\0", b"\x30", b"\x30\x80", b"\x82\0", b"\x82\x01", b"\x82\x01a", b"\x1f", b"\xff",
        b"\xa3\0", b"\x04\0",
    ];
    raw(*r.pick(bytes))
}

/// A change among the elements that a node holds.
fn damage_nodes(r: &mut Random, nodes: &mut Vec<Node>) {
    let (n, at) = (nodes.len(), r.below(nodes.len() + 1));
    if n == 0 || r.once_in(6) {
        let extra = if r.once_in(2) { left_over(r) } else { leaf(*r.pick(&TAGS), b"") };
        nodes.insert(if r.once_in(2) { n } else { at }, extra);
        return;
    }
    let at = at % n;
    match r.below(5) {
        0 => _ = nodes.remove(at),
        1 => nodes.insert(at, nodes[at].clone()),
        2 => {
            let copy = nodes[at].clone();
            nodes.insert(r.below(n + 1), copy);
        }
        3 => nodes.swap(at, r.below(n)),
        _ => nodes.truncate(at),
    }
}

/// A change of a node itself.
fn damage_node(r: &mut Random, node: &mut Node) {
    match r.below(9) {
        0 => node.tag = *r.pick(&TAGS),
        1 => node.tag ^= *r.pick(&[0x20, 0x20, 0x01, 0x80, 0x1f]),
        2 | 7 | 8 => node.form = bad_form(r, node.tag),
        3 => {
            let (tag, inner) = (*r.pick(&TAGS), node.clone());
            *node = Node { tag: if r.once_in(2) { inner.tag } else { tag }, form: Form::Right, holds: Holds::Nodes(vec![inner]) };
        }
        4 => node.holds = Holds::Bytes(vec![]),
        5 => match &mut node.holds {
            Holds::Nodes(nodes) if nodes.len() == 1 => *node = nodes.remove(0),
            Holds::Nodes(_) => node.form = Form::Bytes(vec![]),
            Holds::Bytes(bytes) => inputs::damage(r, bytes),
        },
        _ => {
            let n = r.below(8);
            node.holds = Holds::Bytes(r.bytes(n));
        }
    }
}

/// Another subjectAltName, often with nothing right in it but its object identifier, or an extension moved.
fn damage_extensions(r: &mut Random, tree: &mut Node) {
    let fields = tree.nodes().and_then(|nodes| nodes.first_mut()).and_then(Node::nodes);
    let list = fields.and_then(|fields| fields.last_mut()).filter(|last| last.tag == 0xa3).and_then(Node::nodes);
    let Some(list) = list.and_then(|holder| holder.first_mut()).and_then(Node::nodes) else { return };
    let mut parts = vec![oid(SUBJECT_ALT_NAME)];
    match r.below(5) {
        0 => {}
        1 => parts.push(left_over(r)),
        2 => parts.push(leaf(0x04, b"")),
        3 => parts.push(leaf(0x04, b"\x30\x80")),
        _ => parts.push(node(0x04, vec![node(0x30, vec![leaf(0x82, b"second.example")])])),
    }
    let at = r.below(list.len() + 1);
    list.insert(at, node(0x30, parts));
}

/// One change to a tree.
pub fn damage(r: &mut Random, tree: &mut Node) {
    match r.below(12) {
        0 => damage_extensions(r, tree),
        1..=6 => {
            for _ in 0..4 {
                if let Some(nodes) = some_node(r, tree).nodes() {
                    return damage_nodes(r, nodes);
                }
            }
            damage_node(r, tree);
        }
        _ => {
            let node = some_node(r, tree);
            damage_node(r, node);
        }
    }
}
