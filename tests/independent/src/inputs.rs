//! Structured random inputs: mostly plausible, then damaged, and at the limits.

use crate::random::Random;
use independent_rules::rules::{HostCall, TlsaAnswer};

pub fn list(numbers: &[u64]) -> Vec<u8> {
    numbers.iter().flat_map(|&n| (n as u32).to_be_bytes()).collect()
}

pub fn lengths_of(parts: &[Vec<u8>]) -> Vec<u64> {
    parts.iter().map(|p| p.len() as u64).collect()
}

/// Bytes at the edges of the classes that the rules speak of.
pub const EDGES: &[u8] = b"\0\x01\t\n\r\x1f !\"*+,-./09:;<=>?@AZ[\\_`az{|~\x7f\x80\xa0\xbf\xc0\xc1\xc2\xdf\xe0\xed\xef\xf0\xf4\xf5\xff";

pub const LETTERS: &[u8] = b"abcdefghijklmnopqrstuvwxyzABCDEFGHIJKLMNOPQRSTUVWXYZ0123456789";

pub fn letters(r: &mut Random, n: usize) -> Vec<u8> {
    (0..n).map(|_| *r.pick(LETTERS)).collect()
}

/// A few byte-level changes.
pub fn damage(r: &mut Random, s: &mut Vec<u8>) {
    for _ in 0..r.between(1, 2) {
        let at = r.below(s.len() + 1);
        match r.below(6) {
            0 => s.insert(at, *r.pick(EDGES)),
            1 => s.insert(at, r.byte()),
            2 if at < s.len() => s[at] = *r.pick(EDGES),
            3 if at < s.len() => {
                s.remove(at);
            }
            4 if at + 1 < s.len() => s.swap(at, at + 1),
            5 if at < s.len() => s[at] ^= 1 << r.below(8),
            _ => s.push(*r.pick(EDGES)),
        }
    }
}

// -------------------------------------------------------------------------------------------------------------------- names

fn label(r: &mut Random, n: usize) -> Vec<u8> {
    let mut l = letters(r, n);
    if n > 2 && r.once_in(4) {
        let at = r.between(1, n - 2);
        l[at] = b'-';
    }
    l
}

/// A name of exactly this many bytes (1 or more), with labels of 63 where it goes.
pub fn name_of_length(r: &mut Random, total: usize) -> Vec<u8> {
    let mut s = Vec::new();
    loop {
        let left = total - s.len();
        let n = if left <= 63 { left } else if left == 64 { 62 } else { 63 };
        s.extend(label(r, n));
        if s.len() == total {
            return s;
        }
        s.push(b'.');
        if s.len() == total {
            s.pop();
            s.push(b'a');
            return s;
        }
    }
}

pub fn name(r: &mut Random) -> Vec<u8> {
    match r.below(40) {
        0 => {
            let n = *r.pick(&[253, 252, 251, 250, 128, 64, 65, 63, 62]);
            name_of_length(r, n)
        }
        1 => {
            let n = *r.pick(&[1, 62, 63]);
            label(r, n)
        }
        2 => letters(r, 1),
        3 => (0..r.between(1, 126)).flat_map(|_| *b"a.").chain(*b"z").collect(),
        _ => {
            let mut s = Vec::new();
            for i in 0..r.between(1, 4) {
                if i > 0 {
                    s.push(b'.');
                }
                let n = r.between(1, 7);
                s.extend(label(r, n));
            }
            s
        }
    }
}

pub fn bad_name(r: &mut Random, good: &[u8]) -> Vec<u8> {
    let mut s = good.to_vec();
    match r.below(14) {
        0 => s.clear(),
        1 => s.push(b'.'),
        2 => s.insert(0, b'.'),
        3 => s.push(b'-'),
        4 => s.insert(0, b'-'),
        5 => {
            let n = *r.pick(&[254, 255, 256, 300]);
            s = name_of_length(r, n);
        }
        6 => {
            s.push(b'.');
            let n = *r.pick(&[64, 65, 100]);
            s.extend(label(r, n));
        }
        7 => {
            let at = r.below(s.len() + 1);
            s.splice(at..at, *b"..");
        }
        8 => {
            let at = r.below(s.len() + 1);
            s.splice(at..at, *b"-.");
        }
        9 => {
            let at = r.below(s.len() + 1);
            s.splice(at..at, *b".-");
        }
        10 => s.splice(0..0, *b"*.").for_each(drop),
        11 => {
            let mut t = label(r, 64);
            t.push(b'.');
            t.extend(s);
            s = t;
        }
        _ => damage(r, &mut s),
    }
    s
}

pub fn other_case(r: &mut Random, s: &[u8]) -> Vec<u8> {
    let every = r.once_in(2);
    s.iter().map(|b| if b.is_ascii_alphabetic() && (every || r.once_in(3)) { b ^ 0x20 } else { *b }).collect()
}

/// The same name, sometimes in other case.
fn same(r: &mut Random, s: &[u8]) -> Vec<u8> {
    if r.once_in(3) { other_case(r, s) } else { s.to_vec() }
}

pub fn starred(s: &[u8]) -> Vec<u8> {
    [b"*.", s].concat()
}

fn parent(s: &[u8]) -> Option<&[u8]> {
    s.iter().position(|&b| b == b'.').map(|dot| &s[dot + 1..])
}

/// A pattern that matches the name, if there is one of the sort chosen.
fn matching_pattern(r: &mut Random, s: &[u8]) -> Vec<u8> {
    match parent(s) {
        Some(p) if r.once_in(2) => {
            let p = same(r, p);
            starred(&p)
        }
        _ => same(r, s),
    }
}

/// A pattern near the name that doesn't match it (mostly).
fn near_pattern(r: &mut Random, s: &[u8]) -> Vec<u8> {
    match r.below(9) {
        0 => starred(s),
        1 => parent(s).unwrap_or(b"x").to_vec(),
        2 => parent(s).and_then(parent).map_or(b"*.y".to_vec(), starred),
        3 => [b"a.", s].concat(),
        4 => [s, b"a"].concat(),
        5 => s[..s.len() - 1].to_vec(),
        6 => {
            let mut t = s.to_vec();
            let at = r.below(t.len());
            t[at] = *r.pick(LETTERS);
            t
        }
        7 => {
            let n = name_of_length(r, 253);
            starred(&n)
        }
        _ => name(r),
    }
}

// ---------------------------------------------------------------------------------------------------------------------- TXT

fn blanks(r: &mut Random) -> Vec<u8> {
    match r.below(4) {
        0 | 1 => vec![],
        2 => b" ".to_vec(),
        _ => (0..r.between(1, 4)).map(|_| *r.pick(b" \t")).collect(),
    }
}

fn field_name(r: &mut Random) -> Vec<u8> {
    let n = if r.once_in(10) { *r.pick(&[1, 31, 32, 33, 40]) } else { r.between(1, 12) };
    let mut s = letters(r, n);
    for b in s.iter_mut().skip(1) {
        if r.once_in(8) {
            *b = *r.pick(b"_-.");
        }
    }
    s
}

fn txt_text(r: &mut Random) -> Vec<u8> {
    let mut t = b"v=STSv1".to_vec();
    let fields = if r.once_in(12) { r.below(12) } else { r.between(1, 3) };
    let id_at = r.below(fields.max(1));
    for i in 0..fields {
        if i > 0 || r.once_in(40) {
            t.extend(blanks(r));
        }
        t.push(b';');
        t.extend(blanks(r));
        if (i == id_at && !r.once_in(30)) || r.once_in(8) {
            t.extend(if r.once_in(30) { *r.pick(&[b"Id", b"ID", b"iD", b"i_"]) } else { b"id" });
            t.push(b'=');
            let n = if r.once_in(6) { *r.pick(&[0, 1, 31, 32, 33, 34, 64]) } else { r.between(1, 20) };
            let mut id = letters(r, n);
            if r.once_in(20) && n > 0 {
                let at = r.below(n);
                id[at] = *r.pick(EDGES);
            }
            t.extend(id);
        } else {
            t.extend(field_name(r));
            t.push(b'=');
            let n = match r.below(40) {
                0 => 0,
                1 => r.between(200, 700),
                _ => r.between(1, 12),
            };
            for _ in 0..n {
                let b = r.between(0x21, 0x7e) as u8;
                t.push(if (b == b'=' || b == b';') && !r.once_in(40) { b'x' } else { b });
            }
        }
    }
    match r.below(5) {
        0 | 1 => {}
        2 => t.push(b';'),
        3 => {
            t.extend(blanks(r));
            t.push(b';');
            t.extend(blanks(r));
        }
        _ => {
            if r.once_in(3) {
                t.extend(*r.pick(&[b"; ;", b";; ", b" \t ", b"\t; "]));
            }
        }
    }
    t
}

/// A record's text as character strings.
fn strings(r: &mut Random, text: &[u8]) -> Vec<u8> {
    let mut out = Vec::new();
    let mut rest = text;
    let whole = r.once_in(2);
    loop {
        if r.once_in(20) {
            out.push(0);
        }
        if rest.is_empty() {
            break;
        }
        let most = rest.len().min(255);
        let n = if whole { most } else { r.between(1, most) };
        out.push(n as u8);
        out.extend_from_slice(&rest[..n]);
        rest = &rest[n..];
    }
    if out.is_empty() && !r.once_in(4) {
        out.push(0);
    }
    out
}

/// RDATAs, lengths, output.
pub fn txt(r: &mut Random) -> (Vec<u8>, Vec<u8>, Vec<u8>) {
    let mut records: Vec<Vec<u8>> = Vec::new();
    let mut longest = 0;
    let mut chosen = 0;
    let candidates = match r.below(24) {
        0 | 1 => 0,
        2 | 3 => 2,
        4 => 3,
        _ => 1,
    };
    for _ in 0..candidates {
        let mut t = txt_text(r);
        if r.once_in(6) {
            damage(r, &mut t);
        }
        if r.once_in(400) {
            let n = r.between(1000, 20_000);
            t.extend(b"; long=");
            t.extend(letters(r, n));
        }
        chosen = t.len();
        longest = longest.max(t.len());
        records.push(strings(r, &t));
    }
    let others = if r.once_in(3) { r.between(1, 3) } else { 0 };
    for _ in 0..others {
        let t: Vec<u8> = match r.below(7) {
            0 => b"v=spf1 -all".to_vec(),
            1 => b"v=STSv1 ;id=a".to_vec(),
            2 => b"v=STSv1".to_vec(),
            3 => b"v=stsv1;id=a".to_vec(),
            4 => b" v=STSv1;id=a".to_vec(),
            5 => {
                let n = r.below(40);
                r.bytes(n)
            }
            _ => b"v=STSv2; id=1;".to_vec(),
        };
        let s = strings(r, &t);
        let at = r.below(records.len() + 1);
        records.insert(at, s);
    }
    if r.once_in(300) {
        let n = r.between(20, 200);
        for _ in 0..n {
            records.push(vec![1, b'x']);
        }
    }
    let mut numbers = lengths_of(&records);
    let mut rdatas = records.concat();
    let mut lengths;
    if r.once_in(9) {
        lengths = Vec::new();
        match r.below(10) {
            0 => rdatas.push(r.byte()),
            1 => {
                rdatas.pop();
            }
            2 => lengths = r.bytes(1),
            3 => {
                if let Some(n) = numbers.first_mut() {
                    *n += 1;
                }
            }
            4 => {
                numbers.insert(0, 0);
            }
            5 => {
                numbers.push(*r.pick(&[0, 1, 0xffff_ffff, 0x8000_0000]));
            }
            6 => {
                // the last length wraps a 32-bit sum
                numbers.push(0xffff_ffff);
                numbers.push(1);
            }
            7 if numbers.len() > 1 => {
                // moved between two records: the sum stays
                let d = r.between(1, 3) as u64;
                if numbers[1] >= d {
                    numbers[0] += d;
                    numbers[1] -= d;
                }
            }
            8 if !rdatas.is_empty() => {
                let at = r.below(rdatas.len());
                rdatas[at] = rdatas[at].wrapping_add(1);
            }
            _ if !rdatas.is_empty() => {
                let step = if r.once_in(2) { 1 } else { 255 };
                rdatas[0] = rdatas[0].wrapping_add(step);
            }
            _ => {}
        }
        let extra = lengths;
        lengths = list(&numbers);
        lengths.extend(extra);
        if r.once_in(12) && !lengths.is_empty() {
            let n = r.between(1, 3.min(lengths.len()));
            lengths.truncate(lengths.len() - n);
        }
    } else {
        lengths = list(&numbers);
    }
    let room = match r.below(12) {
        0 => chosen.saturating_sub(1),
        1 => chosen,
        2 => chosen + 1,
        3 => r.below(chosen + 1),
        4 => 0,
        5 => longest,
        _ => longest + r.below(100),
    };
    let output = r.bytes(room);
    (rdatas, lengths, output)
}

// ------------------------------------------------------------------------------------------------------------------- policy

/// The edges of RFC 3629, on both sides.
pub const UTF8_EDGES: &[&[u8]] = &[
    b"\xc2\x80", b"\xdf\xbf", b"\xc1\xbf", b"\xc0\x80", b"\xe0\xa0\x80", b"\xe0\x9f\xbf", b"\xed\x9f\xbf", b"\xed\xa0\x80",
    b"\xee\x80\x80", b"\xef\xbf\xbf", b"\xf0\x90\x80\x80", b"\xf0\x8f\xbf\xbf", b"\xf4\x8f\xbf\xbf", b"\xf4\x90\x80\x80",
    b"\xf5\x80\x80\x80", b"\xc2", b"\xe1\x80", b"\xf1\x80\x80", b"\x80", b"\xbf", b"\xc2\x7f", b"\xc2\xc0", b"\xe1\x80\xc0",
    b"\xe1\x7f\x80", b"\xf1\x80\x80\x7f", b"\xf1\x80\xc0\x80", b"\xf3\xbf\xbf\xbf", b"\xec\xbf\xbf", b"\xf8\x88\x80\x80\x80",
];

fn utf8_piece(r: &mut Random) -> Vec<u8> {
    if r.once_in(4) {
        return r.pick(UTF8_EDGES).to_vec();
    }
    loop {
        let code = match r.below(3) {
            0 => r.between(0x80, 0x7ff),
            1 => r.between(0x800, 0xffff),
            _ => r.between(0x1_0000, 0x10_ffff),
        };
        if let Some(c) = char::from_u32(code as u32) {
            return c.to_string().into_bytes();
        }
    }
}

fn extension_value(r: &mut Random) -> Vec<u8> {
    let mut v = Vec::new();
    let pieces = if r.once_in(6) { r.between(7, 72) } else { r.between(1, 6) };
    for _ in 0..pieces {
        match r.below(if pieces > 6 { 40 } else { 8 }) {
            0 => v.extend(utf8_piece(r)),
            1 => v.push(b' '),
            2 if r.once_in(20) => v.push(b'\t'),
            _ => v.push(r.between(0x21, 0x7e) as u8),
        }
    }
    v
}

pub fn max_age(r: &mut Random) -> Vec<u8> {
    match r.below(30) {
        0 => b"0".to_vec(),
        1 => b"31557600".to_vec(),
        2 => b"31557601".to_vec(),
        3 => b"31557599".to_vec(),
        4 => b"9999999999".to_vec(),
        5 => b"0000604800".to_vec(),
        6 => b"4294967297".to_vec(),
        7 if r.once_in(3) => r.pick(&[&b"00000604800"[..], b"10000000000", b"1 2", b"-1", b"+1", b"1a", b"0x10", b"1:", b"/", b"18446744073709551617"]).to_vec(),
        8 => b"1".to_vec(),
        _ => {
            let digits = r.between(1, 8);
            (0..digits).map(|_| *r.pick(b"0123456789")).collect()
        }
    }
}

/// The name and value of each line, then the whole.
pub fn policy_body(r: &mut Random, patterns: &[Vec<u8>], mode: &[u8], age: &[u8], clean: bool) -> Vec<u8> {
    let mut lines: Vec<(Vec<u8>, Vec<u8>)> = vec![
        (b"version".to_vec(), b"STSv1".to_vec()),
        (b"mode".to_vec(), mode.to_vec()),
        (b"max_age".to_vec(), age.to_vec()),
    ];
    for p in patterns {
        lines.push((b"mx".to_vec(), p.clone()));
    }
    if r.once_in(3) {
        for _ in 0..r.between(1, 3) {
            lines.push((field_name(r), extension_value(r)));
        }
    }
    if clean {
        lines.retain(|(n, v)| n.len() <= 32 && std::str::from_utf8(v).is_ok() && !v.contains(&b'\t') && !v.iter().all(|b| *b == b' '));
    }
    if r.once_in(2) {
        r.shuffle(&mut lines);
    }
    if r.once_in(10) {
        // a second one of a known field counts for nothing, unless it is an mx
        let n: &[u8] = *r.pick(&[&b"version"[..], b"mode", b"max_age", b"Mode", b"MX", b"versio"]);
        lines.push((n.to_vec(), extension_value(r)));
        if clean && std::str::from_utf8(&lines[lines.len() - 1].1).is_err() {
            lines.pop();
        }
    }
    if !clean {
        match r.below(24) {
            0 | 1 => {
                let at = r.below(lines.len());
                lines.remove(at);
            }
            2 => {
                let at = r.below(lines.len());
                damage(r, &mut lines[at].1);
            }
            3 => {
                let at = r.below(lines.len());
                damage(r, &mut lines[at].0);
            }
            4 => {
                let at = r.below(lines.len());
                lines[at].1 = r.pick(&[&b""[..], b"STSv2", b"stsv1", b"STSv1 x", b"STSv11", b"STSv", b"Enforce", b"nonee", b"non", b"testin", b"enforced", b" "]).to_vec();
            }
            5 => {
                let at = r.below(lines.len());
                lines[at].0 = other_case(r, &lines[at].0);
            }
            6 => {
                // moved behind a damaged twin: the first counts
                let at = r.below(lines.len());
                let mut twin = lines[at].clone();
                damage(r, &mut twin.1);
                lines.insert(at, twin);
            }
            7 => {
                let good = name(r);
                lines.push((b"mx".to_vec(), bad_name(r, &good)));
            }
            _ => {}
        }
    }
    let ends = r.below(3);
    let plain = r.once_in(2);
    let mut body = Vec::new();
    let count = lines.len();
    for (i, (n, v)) in lines.into_iter().enumerate() {
        body.extend(n);
        body.push(b':');
        body.extend(if plain { b" ".to_vec() } else { blanks(r) });
        body.extend(v);
        if !plain {
            body.extend(blanks(r));
        }
        let crlf = ends == 1 || (ends == 2 && r.once_in(2));
        if i + 1 < count || !r.once_in(4) {
            body.extend(if crlf { &b"\r\n"[..] } else { b"\n" });
        }
    }
    if !clean {
        match r.below(30) {
            0 => body.extend(b"\n"),
            1 => body.extend(b"\r"),
            2 => body.insert(0, b'\n'),
            3 | 4 => damage(r, &mut body),
            5 => {
                let n = r.below(body.len() + 1);
                body.truncate(n);
            }
            6 => body.extend(b"\r\n"),
            7 => {
                let at = r.below(body.len() + 1);
                let piece: &[u8] = *r.pick(&[&b"\r"[..], b"\n", b"\r\n", b"\r\r\n", b" ", b"\t", b":", b"\n ", b"\xef\xbb\xbf"]);
                body.splice(at..at, piece.iter().copied());
            }
            8..=15 => {
                let faults = *r.pick(&[1, 1, 2, 3]);
                (0..faults).for_each(|_| offend(r, &mut body));
            }
            _ => {}
        }
    }
    body
}

/// Values of a line's form that the first line of the name, or every one for mx, may not have.
const BAD_VALUES: [(&[u8], &[&[u8]]); 4] = [
    (b"version", &[b"STSv2", b"stsv1", b"STSv1 x", b"STSv11", b"STSv", b"STSv1;", b"STSv1\xc2\xa0"]),
    (b"mode", &[b"Enforce", b"nonee", b"non", b"testin", b"enforced", b"none none", b"report", b"none\xe2\x80\x8b"]),
    (b"max_age", &[b"00000604800", b"10000000000", b"1 2", b"-1", b"+1", b"1a", b"0x10", b"1:", b"/", b"604,800"]),
    (b"mx", &[b"a..b", b".", b"*", b"*.", b"*.*.a", b"a.b.", b"-a", b"a b", b"a:25", b"_a.b", b"a,b", b"\xc3\xa9.example"]),
];

/// Where the lines of a body begin.
fn line_starts(body: &[u8]) -> Vec<usize> {
    let later = (1..body.len()).filter(|&i| body[i - 1] == b'\n');
    [0].into_iter().chain(later).collect()
}

/// Where the first line begins, the last, or any.
fn some_line(r: &mut Random, body: &[u8]) -> usize {
    let starts = line_starts(body);
    match r.below(3) {
        0 => 0,
        1 => starts[starts.len() - 1],
        _ => *r.pick(&starts),
    }
}

fn line_end(r: &mut Random) -> &'static [u8] {
    if r.once_in(2) { b"\n" } else { b"\r\n" }
}

/// A further line before some line, or after the last, where it may have no end.
pub fn put_line(r: &mut Random, body: &mut Vec<u8>, line: &[u8]) {
    if !r.once_in(3) {
        let at = some_line(r, body);
        body.splice(at..at, [line, line_end(r)].concat());
        return;
    }
    if !body.is_empty() && !body.ends_with(b"\n") {
        body.extend(line_end(r));
    }
    body.extend(line);
    if r.once_in(2) {
        body.extend(line_end(r));
    }
}

/// Some line loses its form, whatever it says; a few keep it.
fn break_line(r: &mut Random, body: &mut Vec<u8>) {
    let start = some_line(r, body);
    let end = start + body[start..].iter().take_while(|&b| !b"\r\n".contains(b)).count();
    let colon = (start + body[start..].iter().take_while(|&&b| b != b':').count()).min(end);
    let value = (colon + 1).min(end);
    let (from, to, piece): (usize, usize, &[u8]) = match r.below(8) {
        0 => (start, start, line_end(r)),
        1 => (colon, value, b""),
        2 => (value, end, b""),
        3 => {
            let at = r.between(start, end);
            (at, at, b"\r")
        }
        4 => (colon, colon, *r.pick(&[b" ", b"\t"])),
        5 => (start, start, *r.pick(&[&b" "[..], b"-", b":", b"_", b"\xef\xbb\xbf"])),
        6 => {
            let at = r.between(value, end);
            (at, at, *r.pick(&[&b"a\tb"[..], b"\0", b"\x1f", b"\x7f", b"\x80"]))
        }
        _ => (end, end, *r.pick(UTF8_EDGES)),
    };
    body.splice(from..to, piece.iter().copied());
}

/// Every line of this name gets another, which no rule knows.
fn rename(body: &mut [u8], name: &[u8]) {
    for start in line_starts(body) {
        if body[start..].starts_with(name) && body[start + name.len()..].starts_with(b":") {
            body[start] = b'x';
        }
    }
}

/// A fault of 53 to 57, in the first line, the last or any. Where the field is there already, it is mostly renamed, so that the
/// line that offends is the first of its name.
pub fn offend(r: &mut Random, body: &mut Vec<u8>) {
    let Some(&(name, values)) = BAD_VALUES.get(r.below(5)) else { return break_line(r, body) };
    if !r.once_in(3) {
        rename(body, name);
    }
    let line = [name, b":", &blanks(r)[..], *r.pick(values), &blanks(r)].concat();
    put_line(r, body, &line);
}

/// Over 1,000 further lines before some line, all of them good.
fn lengthen(r: &mut Random, body: &mut Vec<u8>) {
    let pieces: [&[u8]; 5] = [b"x:y\n", b"x: y\r\n", b"mx:a.b\n", b"note: \xc3\xa9\r\n", b"mx: *.c \n"];
    let count = *r.pick(&[1000, 1023, 1024, 1025, 4096, 6000]);
    let lines: Vec<&[u8]> = (0..count).map(|_| *r.pick(&pieces)).collect();
    let at = some_line(r, body);
    body.splice(at..at, lines.concat());
}

/// Padded with an extension line (or several) to an exact size.
pub fn padded(r: &mut Random, body: &mut Vec<u8>, size: usize) {
    if !body.ends_with(b"\n") {
        body.push(b'\n');
    }
    let many = r.once_in(2);
    while body.len() + 100 < size && many {
        let n = name(r);
        let line = if r.once_in(2) { [b"mx: ", &n[..], b"\n"].concat() } else { b"x: y\r\n".to_vec() };
        if body.len() + line.len() + 8 < size {
            body.extend(line);
        }
    }
    body.extend(b"p:");
    while body.len() < size {
        body.push(b'q');
    }
}

pub fn policy(r: &mut Random) -> Vec<u8> {
    let patterns: Vec<Vec<u8>> = (0..if r.once_in(10) { 0 } else { r.between(1, 4) })
        .map(|_| {
            let n = name(r);
            if r.once_in(2) { starred(&n) } else { n }
        })
        .collect();
    let mode: &[u8] = *r.pick(&[&b"enforce"[..], b"testing", b"none"]);
    let age = max_age(r);
    let clean = r.once_in(3);
    let mut body = policy_body(r, &patterns, mode, &age, clean);
    match r.below(1500) {
        0 | 1 | 2 => {
            let size = *r.pick(&[65_536, 65_537, 65_538, 65_535, 70_000]);
            padded(r, &mut body, size);
        }
        3..=20 => {
            let size = r.between(400, 4000);
            padded(r, &mut body, size);
        }
        21..=24 => body.clear(),
        25..=35 => {
            let n = r.below(200);
            body = (0..n).map(|_| *r.pick(b"mx:a.\r\n \tmode: none\n")).collect();
        }
        36..=39 => {
            offend(r, &mut body);
            lengthen(r, &mut body);
        }
        _ => {}
    }
    body
}

// --------------------------------------------------------------------------------------------------------------------- host

pub const LAST_CLOCK: u64 = 253_402_300_799;

struct Chain {
    certificates: Vec<Vec<u8>>,
    places: Vec<u64>,
    digests: Vec<u8>,
    paths: Vec<u64>,
}

fn chain(r: &mut Random) -> Chain {
    let n = match r.below(40) {
        0 | 1 => 0,
        2 => 8,
        3 => 7,
        4..=12 => 1,
        _ => r.between(2, 4),
    };
    let mut c = Chain { certificates: vec![], places: vec![], digests: vec![], paths: vec![] };
    let huge = r.once_in(800);
    for i in 0..n {
        let size = if huge {
            *r.pick(&[16_384, 16_383, 8192, 8192, 100])
        } else if r.once_in(30) {
            r.below(3)
        } else {
            r.between(4, 80)
        };
        let bytes = if i > 0 && r.once_in(12) { c.certificates[0].clone() } else { r.bytes(size) };
        let size = bytes.len();
        let (start, length) = match r.below(8) {
            0 => (0, size),
            1 => (size, 0),
            2 => (r.below(size + 1), 0),
            _ => {
                let start = r.below(size + 1);
                (start, r.between(0, size - start))
            }
        };
        c.certificates.push(bytes);
        c.places.extend([start as u64, length as u64]);
        c.digests.extend(r.bytes(192));
        c.paths.push(if r.once_in(4) { 2 } else { 1 });
    }
    c
}

/// A record, mostly made of what one of the certificates holds.
fn record(r: &mut Random, c: &Chain) -> Vec<u8> {
    let usage = *r.pick(&[3, 3, 3, 3, 3, 2, 2, 2, 2, 2, 2, 0, 1, 4, 255]);
    let selector = *r.pick(&[0, 0, 0, 0, 1, 1, 1, 1, 1, 2, 255]);
    let kind = *r.pick(&[0, 0, 0, 1, 1, 1, 1, 2, 2, 2, 3, 255]);
    record_of(r, c, [usage, selector, kind])
}

/// The same, of this usage, selector and matching type.
fn record_of(r: &mut Random, c: &Chain, [usage, selector, kind]: [u8; 3]) -> Vec<u8> {
    let mut s: Vec<u8> = vec![usage, selector, kind];
    let from = match c.certificates.len() {
        0 => None,
        _ if r.once_in(4) => None,
        n => Some(if usage == 3 && !r.once_in(6) { 0 } else if n > 1 && !r.once_in(8) { r.between(1, n - 1) } else { r.below(n) }),
    };
    match from {
        None => {
            let n = match r.below(5) {
                0 => *r.pick(&[0, 1, 31, 33, 63, 65, 96]),
                1 => 64,
                _ => 32,
            };
            s.extend(r.bytes(n));
        }
        Some(i) => {
            let d = &c.digests[192 * i..192 * (i + 1)];
            let key = if r.once_in(15) { 1 - selector.min(1) } else { selector };
            let sha = if r.once_in(15) { *r.pick(&[0, 1, 2]) } else { kind };
            let (start, length) = (c.places[2 * i] as usize, c.places[2 * i + 1] as usize);
            match (key, sha) {
                (1, 0) => s.extend(&c.certificates[i][start..start + length]),
                (_, 0) => s.extend(&c.certificates[i]),
                (1, 1) => s.extend(&d[96..128]),
                (_, 1) => s.extend(&d[..32]),
                (1, _) => s.extend(&d[128..]),
                (_, _) => s.extend(&d[32..96]),
            }
        }
    }
    if r.once_in(12) && s.len() > 3 {
        match r.below(4) {
            0 => {
                s.pop();
            }
            1 => s.push(0),
            2 => {
                let last = s.len() - 1;
                s[last] ^= 1;
            }
            _ => s[3] ^= 0x80,
        }
    }
    if s.len() > 4096 && !r.once_in(20) {
        s.truncate(4096);
    }
    s
}

/// The head of a record of this usage, selector and matching type; in some, one of them is another.
fn near_head(r: &mut Random, [usage, selector, kind]: [u8; 3]) -> [u8; 3] {
    match r.below(16) {
        0 | 1 => [5 - usage, selector, kind],
        2 | 3 => [usage, 1 - selector, kind],
        4 => [*r.pick(&[0, 1, 4, 4, 4]), selector, kind],
        5 => [usage, *r.pick(&[2, 3, 255]), kind],
        6 => [usage, selector, *r.pick(&[3, 4, 255])],
        _ => [usage, selector, kind],
    }
}

/// Records of one usage and selector, or in most of the shorter sets nearly all, so that a type 2 decides on what a type 1 is worth
/// (document 02, No. 8). In a third of the sets it is the last record alone. All records of a type have a bit changed, or none has.
fn digests_set(r: &mut Random, c: &Chain) -> Vec<Vec<u8>> {
    let n = match r.below(16) {
        0 | 1 => 32,
        2 => r.between(5, 31),
        _ => r.between(2, 4),
    };
    let (usage, selector, last) = (r.between(2, 3) as u8, r.below(2) as u8, r.once_in(3));
    let (differs, near) = ([r.once_in(2), r.once_in(2), r.once_in(2)], n <= 4 && !r.once_in(3));
    let mut set = Vec::new();
    for i in 0..n {
        let kind = if last { *r.pick(&[0, 1, 1, 1]) } else { *r.pick(&[0, 1, 1, 1, 2, 2]) };
        let head = [usage, selector, if last && i + 1 == n { 2 } else { kind }];
        let head = if near { near_head(r, head) } else { head };
        let mut record = record_of(r, c, head);
        if differs.get(head[2] as usize) == Some(&true) && record.len() > 3 {
            let at = r.between(3, record.len() - 1);
            record[at] ^= 1 << r.below(8);
        }
        if near && r.once_in(6) {
            record.resize(3 + *r.pick(&[0, 63, 65]), 0);
        }
        set.push(record);
    }
    set
}

fn tlsa_set(r: &mut Random, c: &Chain) -> Vec<Vec<u8>> {
    if r.once_in(4) {
        return digests_set(r, c);
    }
    let n = match r.below(60) {
        0..=8 => 0,
        9 => 31,
        10 => 32,
        11 => r.between(5, 20),
        12..=40 => 1,
        _ => r.between(2, 4),
    };
    let unusable = r.once_in(6);
    (0..n)
        .map(|_| {
            let mut s = record(r, c);
            if unusable && s[0] >= 2 {
                s[0] -= 2;
            }
            if r.once_in(40) {
                let n = r.below(4);
                s.truncate(n);
            }
            if r.once_in(2000) {
                let size = *r.pick(&[4096, 4097, 4095]);
                s.resize(size, 7);
            }
            s
        })
        .collect()
}

/// A type 2 that matches nothing joins an answer: mostly of the usage and selector of a first record, there or in the other answer.
fn join_digest(r: &mut Random, c: &mut HostCall) {
    let front = c.tlsa[r.below(2)].records.get(..2).map_or([3, 1], |front| [front[0].clamp(2, 3), front[1].min(1)]);
    let [usage, selector, _] = near_head(r, [front[0], front[1], 2]);
    let data = r.bytes(64);
    let size = *r.pick(&[64, 64, 64, 64, 63, 0]);
    let answer = &mut c.tlsa[r.below(2)];
    answer.lengths.extend(list(&[3 + size as u64]));
    answer.records.extend([&[usage, selector, 2], &data[..size]].concat());
}

fn tlsa(r: &mut Random, c: &Chain) -> TlsaAnswer {
    let result = *r.pick(&[1, 1, 1, 1, 1, 1, 1, 1, 1, 1, 1, 1, 2, 3, 3, 4]);
    let set = tlsa_set(r, c);
    TlsaAnswer { result, lengths: list(&lengths_of(&set)), records: set.concat() }
}

/// A presented name: one for the names given, near them, or none.
fn presented(r: &mut Random, wanted: &[&[u8]]) -> Vec<u8> {
    let w = *r.pick(wanted);
    match r.below(10) {
        0 | 1 if !w.is_empty() => near_pattern(r, w),
        2 => match r.below(6) {
            0 => vec![],
            1 => starred(&starred(w)),
            2 => [b"*", w].concat(),
            3 => b"*".to_vec(),
            4 => [w, b"."].concat(),
            _ => bad_name(r, w),
        },
        _ => matching_pattern(r, w),
    }
}

/// Half of the next-hops are aliases, mostly of another name, sometimes of themselves in some case.
fn expand_next_hop(r: &mut Random, c: &mut HostCall) {
    c.expanded_next_hop_given = r.between(1, 2) as u64;
    c.expanded_next_hop = match r.below(10) {
        0 => other_case(r, &c.next_hop),
        1 => c.next_hop.clone(),
        2 => parent(&c.next_hop).unwrap_or(b"x").to_vec(),
        _ => name(r),
    };
    if c.expanded_next_hop_given == 2 && r.once_in(3) {
        c.expanded_next_hop = bad_name(r, b"x"); // not looked at
    }
}

/// Versions of TLS at the edges: below 03 03 hex, from there on, and of more than two bytes. Some of the last would be a version,
/// were only their low bytes looked at.
pub const OLD_VERSIONS: [u64; 10] = [0, 1, 0x0003, 0x00ff, 0x0203, 0x0204, 0x02ff, 0x0300, 0x0301, 0x0302];
pub const NEW_VERSIONS: [u64; 10] = [0x0303, 0x0304, 0x0305, 0x03ff, 0x0400, 0x0402, 0x7f00, 0x8000, 0xff02, 0xffff];
pub const NO_VERSIONS: [u64; 10] = [
    0x1_0000, 0x1_0001, 0x1_0301, 0x1_0303, 0x0303_0000, 1 << 32, (1 << 32) + 0x0301, (1 << 32) + 0x0303, 1 << 63, u64::MAX,
];

pub fn old_version(r: &mut Random) -> u64 {
    if r.once_in(8) { r.below(0x0303) as u64 } else { *r.pick(&OLD_VERSIONS) }
}

pub fn new_version(r: &mut Random) -> u64 {
    if r.once_in(8) { r.between(0x0303, 65_535) as u64 } else { *r.pick(&NEW_VERSIONS) }
}

pub fn no_version(r: &mut Random) -> u64 {
    if r.once_in(8) { (r.next() >> r.below(48)).max(65_536) } else { *r.pick(&NO_VERSIONS) }
}

/// A version of two bytes.
pub fn wire_version(r: &mut Random) -> u64 {
    if r.once_in(2) { old_version(r) } else { new_version(r) }
}

fn any_version(r: &mut Random) -> u64 {
    if r.once_in(4) { no_version(r) } else { wire_version(r) }
}

/// A record of usage 2 for a certificate after the leaf, and a leaf that names the expanded next-hop, and perhaps the host.
fn name_expanded_next_hop(r: &mut Random, c: &mut HostCall, chain: &Chain) {
    if chain.certificates.len() < 2 {
        return;
    }
    let i = r.between(1, chain.certificates.len() - 1);
    c.paths[4 * i..4 * i + 4].copy_from_slice(&[0, 0, 0, 1]);
    let (selector, kind, start, size) = *r.pick(&[(0, 1, 0, 32), (0, 2, 32, 64), (1, 1, 96, 32), (1, 2, 128, 64)]);
    let record = [&[2, selector, kind], &chain.digests[192 * i + start..192 * i + start + size]].concat();
    let answer = TlsaAnswer { result: 1, lengths: list(&[record.len() as u64]), records: record };
    c.tlsa = [answer.clone(), answer];
    c.address = if c.address == 3 { 3 } else { 1 };
    c.tlsa_answers = if c.address == 3 { 2 } else { 1 };
    if c.address == 3 && r.once_in(2) {
        c.tlsa[0].result = 3;
    }
    c.policy_given = if r.once_in(3) { 2 } else { c.policy_given };
    let mut ids = vec![matching_pattern(r, &c.expanded_next_hop)];
    if r.once_in(2) {
        ids.push(matching_pattern(r, &c.host));
    }
    if r.once_in(4) {
        (c.common_name_given, c.common_name) = (1, ids.swap_remove(0));
        ids.clear();
    }
    (c.dns_ids, c.dns_id_lengths) = (ids.concat(), list(&lengths_of(&ids)));
}

/// A type 1 that matches, and a type 2 that mostly doesn't, or what is near one: in the same set, in a few as the last of 32, or in
/// the other answer of an alias. Under usage 2 the leaf names the host.
fn hang_on_digests(r: &mut Random, c: &mut HostCall, chain: &Chain) {
    let Some(last) = chain.certificates.len().checked_sub(1) else { return };
    let (usage, selector) = (if last == 0 { 3 } else { r.between(2, 3) as u8 }, r.below(2) as u8);
    let i = if usage == 3 { 0 } else { r.between(1, last) };
    c.paths[4 * i..4 * i + 4].copy_from_slice(&[0, 0, 0, 1]);
    let digests = &chain.digests[192 * i + 96 * selector as usize..][..96];
    let one = [&[usage, selector, 1], &digests[..32]].concat();
    let mut two = [&near_head(r, [usage, selector, 2]), &digests[32..]].concat();
    two[3] ^= !r.once_in(4) as u8;
    two.resize(3 + *r.pick(&[64, 64, 64, 0, 63, 65]), 0);
    let mut both = vec![one.clone(), two.clone()];
    r.shuffle(&mut both);
    c.address = *r.pick(&[1, 3]);
    let sets = match r.below(8) {
        0 => [[vec![one; 31], vec![two]].concat(), both],
        1..=3 if c.address == 3 => [vec![both.remove(0)], both],
        _ => [both.clone(), both],
    };
    c.tlsa = sets.map(|set| TlsaAnswer { result: 1, lengths: list(&lengths_of(&set)), records: set.concat() });
    c.tlsa_answers = if c.address == 3 { 2 } else { 1 };
    if c.address == 3 && r.once_in(2) {
        c.tlsa[0].result = *r.pick(&[2, 3]);
    }
    (c.dns_ids, c.dns_id_lengths) = (c.host.clone(), list(&[c.host.len() as u64]));
}

pub fn host(r: &mut Random) -> HostCall {
    let mut c = HostCall::default();
    // Half of the scenarios come to the certificate checks, unless a mutation stops them before.
    let far = r.once_in(2);
    // names
    c.next_hop = name(r);
    c.origin = *r.pick(&[1, 1, 2, 3]);
    expand_next_hop(r, &mut c);
    let of_alias = c.expanded_next_hop_given == 1 && r.once_in(2);
    let domain = if of_alias { c.expanded_next_hop.clone() } else { c.next_hop.clone() };
    c.host = match r.below(5) {
        _ if c.origin == 3 => same(r, &c.next_hop),
        0 => name(r),
        1 => same(r, &domain),
        _ => {
            let n = r.between(1, 6);
            let mut h = label(r, n);
            h.push(b'.');
            h.extend(&domain);
            if h.len() > 253 { domain.clone() } else { h }
        }
    };
    c.expanded = match r.below(8) {
        0 => same(r, &c.host),
        1 => same(r, &domain),
        _ => name(r),
    };
    c.address = if far { *r.pick(&[1, 1, 3, 3, 3, 4, 2, 5]) } else { *r.pick(&[1, 1, 1, 1, 1, 2, 2, 3, 3, 3, 3, 3, 4, 4, 5, 6, 7]) };
    if r.once_in(5) && !(3..=5).contains(&c.address) {
        c.expanded = bad_name(r, b"x"); // not looked at
    }
    // policy and clocks
    c.clock = match r.below(12) {
        0 => *r.pick(&[0, 1, LAST_CLOCK, LAST_CLOCK - 1]),
        _ => r.between(1_000_000_000, 2_000_000_000) as u64,
    };
    c.policy_given = if r.once_in(3) { 2 } else { 1 };
    let mode: &[u8] = if far { b"enforce" } else { *r.pick(&[&b"enforce"[..], b"enforce", b"testing", b"none"]) };
    let age = if r.once_in(3) { max_age(r) } else { b"604800".to_vec() };
    let mut patterns = Vec::new();
    for _ in 0..r.between(1, 3) {
        patterns.push(match if far { r.between(1, 6) } else { r.below(7) } {
            0 => near_pattern(r, &c.host),
            1 => {
                let n = name(r);
                if r.once_in(2) { starred(&n) } else { n }
            }
            _ => matching_pattern(r, &c.host),
        });
    }
    if r.once_in(if far { 40 } else { 8 }) {
        patterns.truncate(1);
        patterns[0] = near_pattern(r, &c.host);
    }
    if c.policy_given == 1 {
        let clean = far || !r.once_in(10);
        c.policy = policy_body(r, &patterns, mode, &age, clean);
        if r.once_in(1200) {
            let size = *r.pick(&[65_536, 65_537]);
            let mut body = std::mem::take(&mut c.policy);
            padded(r, &mut body, size);
            c.policy = body;
        }
        let seconds = std::str::from_utf8(&age).ok().and_then(|a| a.parse::<u64>().ok()).unwrap_or(0).min(31_557_600);
        c.fetched = match if far { r.between(1, 12) } else { r.below(6) } {
            // time left of -1, 0, 1, 2
            0 => (c.clock + r.below(4) as u64).wrapping_sub(seconds + 1),
            1 => c.clock + r.below(3) as u64,
            2 => r.below(LAST_CLOCK as usize + 1) as u64,
            _ => c.clock.saturating_sub(r.below(seconds.max(1) as usize) as u64),
        };
        if c.fetched > LAST_CLOCK && !r.once_in(4) {
            c.fetched = c.clock;
        }
    } else if r.once_in(2) {
        c.policy = r.bytes(9);
        c.fetched = r.next();
    }
    // certificates, and the TLSA answers that speak of them
    let chain = chain(r);
    c.certificates = chain.certificates.concat();
    c.certificate_lengths = list(&lengths_of(&chain.certificates));
    c.key_places = list(&chain.places);
    c.digests = chain.digests.clone();
    c.paths = list(&chain.paths);
    c.trusted_root = if r.once_in(6) { 2 } else { 1 };
    let wanted: Vec<Vec<u8>> =
        vec![c.host.clone(), c.host.clone(), c.next_hop.clone(), c.expanded.clone(), c.expanded_next_hop.clone()];
    let wanted: Vec<&[u8]> = wanted.iter().filter(|w| !w.is_empty()).map(|w| &w[..]).collect();
    let ids: Vec<Vec<u8>> = (0..match r.below(60) {
        0 => 64,
        1 => 63,
        2..=10 => 0,
        _ => r.between(1, 3),
    })
        .map(|_| presented(r, &wanted))
        .map(|mut p| {
            p.truncate(255);
            p
        })
        .collect();
    c.dns_ids = ids.concat();
    c.dns_id_lengths = list(&lengths_of(&ids));
    c.common_name_given = if r.once_in(3) { 2 } else { 1 };
    c.common_name = presented(r, &wanted);
    if c.common_name_given == 1 {
        c.common_name.truncate(255);
    }
    // how far the facts go
    c.tlsa_answers = match c.address {
        _ if r.once_in(10) => r.below(3) as u64,
        1 | 4 => 1,
        3 => *r.pick(&[1, 2, 2, 2]),
        _ => 0,
    };
    c.tlsa = [tlsa(r, &chain), tlsa(r, &chain)];
    if c.address == 3 && c.tlsa_answers == 2 && r.once_in(2) {
        c.tlsa[0].result = *r.pick(&[2, 3]);
    }
    if c.address == 3 && r.once_in(4) {
        c.tlsa[0].result = 1;
        c.tlsa[0].lengths.clear();
        c.tlsa[0].records.clear();
    }
    for i in 0..2 {
        if c.tlsa[i].result != 1 && r.once_in(3) {
            c.tlsa[i].lengths = r.bytes(3); // not looked at
        }
        if c.tlsa_answers <= i as u64 && r.once_in(4) {
            c.tlsa[i].result = r.byte() as u64;
        }
    }
    if r.once_in(12) {
        join_digest(r, &mut c);
    }
    let depth = if far { 12 } else { r.below(12) };
    c.starttls = if depth == 1 { 2 } else { 1 };
    c.handshake = if depth == 2 { 2 } else { 1 };
    c.certificates_given = 1;
    match depth {
        3 => {
            c.tlsa_answers = c.tlsa_answers.saturating_sub(1);
            c.starttls = 0;
            c.handshake = 0;
            c.certificates_given = 0;
        }
        4 => {
            c.starttls = 0;
            c.handshake = 0;
            c.certificates_given = 0;
        }
        5 => {
            c.handshake = 0;
            c.certificates_given = 0;
        }
        6 => c.certificates_given = 0,
        _ => {}
    }
    // Mostly a version with which the certificates count; without an established handshake it is not looked at.
    c.tls_version = if c.handshake == 1 && !r.once_in(6) { *r.pick(&[0x0303, 0x0304]) } else { any_version(r) };
    if c.certificates_given == 0 && r.once_in(2) {
        // not looked at
        c.paths = r.bytes(7);
        c.trusted_root = r.next();
        c.common_name_given = 0;
        let n = r.below(9);
        c.dns_id_lengths = r.bytes(n);
    }
    if far && r.once_in(4) {
        name_expanded_next_hop(r, &mut c, &chain);
    } else if far && r.once_in(8) {
        hang_on_digests(r, &mut c, &chain);
    }
    let mutations = match r.below(10) {
        0..=5 => 0,
        6..=8 => 1,
        _ if far => 0,
        _ => 2,
    };
    for _ in 0..mutations {
        mutate_host(r, &mut c);
    }
    c
}

/// Fewer facts than the generator gives, mostly.
pub fn drop_facts(r: &mut Random, c: &mut HostCall) {
    match r.below(6) {
        0 => (c.tlsa_answers, c.starttls, c.handshake, c.certificates_given) = (c.tlsa_answers.min(1), 0, 0, 0),
        1 => (c.tlsa_answers, c.starttls, c.handshake, c.certificates_given) = (0, 0, 0, 0),
        2 => (c.starttls, c.handshake, c.certificates_given) = (0, 0, 0),
        3 => (c.handshake, c.certificates_given) = (0, 0),
        4 => c.certificates_given = 0,
        _ => {}
    }
}

pub fn bad_code(r: &mut Random) -> u64 {
    *r.pick(&[0, 1, 2, 3, 4, 5, 7, 8, 9, 255, 256, 257, 258, 1 << 32, (1 << 32) + 1, (1 << 32) + 2, (1 << 63) + 1, u64::MAX])
}

/// A change to a list of numbers.
pub fn mutate_list(r: &mut Random, l: &mut Vec<u8>) {
    match r.below(8) {
        0 => l.push(0),
        1 => l.extend([0, 0, 0]),
        2 => {
            l.pop();
        }
        3 => l.extend([0, 0, 0, *r.pick(&[0, 1, 2, 3])]),
        4 if l.len() >= 4 => {
            l.truncate(l.len() - 4);
        }
        5 if l.len() >= 4 => {
            let at = 4 * r.below(l.len() / 4);
            l[at] = *r.pick(&[1, 0x80, 0xff]);
        }
        6 if l.len() >= 4 => {
            let at = 4 * r.below(l.len() / 4) + 3;
            l[at] = l[at].wrapping_add(*r.pick(&[1, 255]));
        }
        7 if l.len() >= 8 => {
            let at = 4 * r.below(l.len() / 4 - 1) + 3;
            l[at] = l[at].wrapping_add(1);
            l[at + 4] = l[at + 4].wrapping_sub(1);
        }
        _ => l.push(r.byte()),
    }
}

fn mutate_bytes(r: &mut Random, s: &mut Vec<u8>) {
    match r.below(4) {
        0 => s.push(r.byte()),
        1 => {
            s.pop();
        }
        2 if !s.is_empty() => {
            let at = r.below(s.len());
            s[at] ^= 1 << r.below(8);
        }
        _ => s.clear(),
    }
}

fn mutate_host(r: &mut Random, c: &mut HostCall) {
    let clock = |r: &mut Random| *r.pick(&[0, LAST_CLOCK, LAST_CLOCK + 1, LAST_CLOCK + 2, 1 << 38, u64::MAX, 1 << 63]);
    match r.below(45) {
        0 => c.clock = clock(r),
        1 => c.fetched = clock(r),
        2 => c.next_hop = bad_name(r, &c.next_hop.clone()),
        3 => c.host = bad_name(r, &c.host.clone()),
        4 => c.expanded = bad_name(r, &c.expanded.clone()),
        5 => c.origin = 3,
        6 => {
            let code = bad_code(r);
            match r.below(12) {
                0 => c.origin = code,
                1 => c.address = code,
                2 => c.policy_given = code,
                3 => c.tlsa_answers = code,
                4 => c.tlsa[0].result = code,
                5 => c.tlsa[1].result = code,
                6 => c.starttls = code,
                7 => c.handshake = code,
                8 => c.certificates_given = code,
                9 => c.trusted_root = code,
                10 => c.expanded_next_hop_given = code,
                _ => c.common_name_given = code,
            }
        }
        7 => c.starttls = 0,
        8 => c.handshake = 0,
        9 => c.certificates_given = 1 - c.certificates_given.min(1),
        10 => c.starttls = 2,
        11 => c.handshake = 2,
        12 => c.tlsa_answers = r.below(4) as u64,
        13 => c.address = r.between(1, 7) as u64,
        14 | 15 => {
            let i = r.below(2);
            mutate_list(r, &mut c.tlsa[i].lengths);
        }
        16 => {
            let i = r.below(2);
            mutate_bytes(r, &mut c.tlsa[i].records);
        }
        17 => mutate_bytes(r, &mut c.certificates),
        18 => mutate_list(r, &mut c.certificate_lengths),
        19 => mutate_list(r, &mut c.key_places),
        20 => {
            // a place that ends at or one past the certificate's end, or wraps
            if c.key_places.len() >= 8 && c.certificate_lengths.len() * 2 == c.key_places.len() {
                let i = r.below(c.key_places.len() / 8);
                let l = &c.certificate_lengths[4 * i..4 * i + 4];
                let size = u32::from_be_bytes([l[0], l[1], l[2], l[3]]);
                let (start, length) = match r.below(6) {
                    0 => (size, 0),
                    1 => (size, 1),
                    2 => (size.wrapping_add(1), 0),
                    3 => (0, size.wrapping_add(1)),
                    4 => (1, size),
                    _ => (u32::MAX, 2),
                };
                c.key_places[8 * i..8 * i + 4].copy_from_slice(&start.to_be_bytes());
                c.key_places[8 * i + 4..8 * i + 8].copy_from_slice(&length.to_be_bytes());
            }
        }
        21 => mutate_bytes(r, &mut c.digests),
        22 => mutate_list(r, &mut c.paths),
        23 => mutate_bytes(r, &mut c.dns_ids),
        24 => mutate_list(r, &mut c.dns_id_lengths),
        25 => {
            let n = *r.pick(&[0, 254, 255, 256, 257]);
            c.common_name = name_of_length(r, n.max(1));
            if n == 0 {
                c.common_name.clear();
            }
        }
        26 => {
            // one more DNS-ID, of a size at the limit
            let n = *r.pick(&[0, 253, 254, 255, 256]);
            let id = if n == 0 { vec![] } else { name_of_length(r, n) };
            c.dns_id_lengths.extend(list(&[n as u64]));
            c.dns_ids.extend(id);
        }
        27 => {
            // exactly 64 or 65 DNS-IDs, the last one for the host
            let n = *r.pick(&[63, 64]);
            let h = matching_pattern(r, &c.host);
            let mut lengths = vec![1; n];
            lengths.push(h.len() as u64);
            c.dns_id_lengths = list(&lengths);
            c.dns_ids = [vec![b'x'; n], h].concat();
        }
        28 => {
            // 32 or 33 records, the first as it was
            let i = r.below(2);
            let t = &mut c.tlsa[i];
            while t.lengths.len() < 4 * 32 {
                t.lengths.extend([0, 0, 0, 3]);
                t.records.extend([1, 0, 0]);
            }
            if r.once_in(2) {
                t.lengths.extend([0, 0, 0, 3]);
                t.records.extend([1, 0, 0]);
            }
        }
        29 => {
            // 8 or 9 certificates
            let n = *r.pick(&[8, 9]);
            while c.certificate_lengths.len() < 4 * n {
                c.certificate_lengths.extend([0, 0, 0, 1]);
                c.certificates.push(0);
                c.key_places.extend([0, 0, 0, 0, 0, 0, 0, 1]);
                c.digests.extend([9; 192]);
                c.paths.extend([0, 0, 0, 1]);
            }
        }
        30 if r.once_in(8) => {
            // sizes at the limits
            let sizes: &[u64] = *r.pick(&[
                &[16_384][..],
                &[16_385],
                &[16_384, 16_384, 16_384, 16_384],
                &[16_384, 16_384, 16_384, 16_384, 1],
                &[16_384, 16_384, 16_384, 16_383, 1],
                &[10, 16_384],
                &[10, 16_385],
                &[8192, 8192, 8192, 8192, 8192, 8192, 8192, 8192],
                &[8192, 8192, 8192, 8192, 8192, 8192, 8192, 8193],
            ]);
            let n = sizes.len();
            c.certificate_lengths = list(sizes);
            c.certificates = vec![5; sizes.iter().sum::<u64>() as usize];
            c.key_places = list(&sizes.iter().flat_map(|&s| [0, s.min(40)]).collect::<Vec<u64>>());
            c.digests = r.bytes(192 * n);
            c.paths = list(&vec![1; n]);
        }
        31 => {
            // no certificate: nothing passes
            c.certificates.clear();
            c.certificate_lengths.clear();
            c.key_places.clear();
            c.digests.clear();
            c.paths.clear();
        }
        32 => {
            c.dns_ids.clear();
            c.dns_id_lengths.clear();
        }
        33 => c.common_name_given = 3 - c.common_name_given.min(2),
        34 => c.trusted_root = 3 - c.trusted_root.min(2),
        35 if !c.policy.is_empty() => damage(r, &mut c.policy),
        36 => {
            // a policy without one of its lines, or over the size
            match r.below(12) {
                0 => c.policy.resize(65_537, b'x'),
                1 => c.policy = b"version: STSv1\nmode: none\nmax_age: 5".to_vec(),
                2 => c.policy = b"version: STSv1\nmode: enforce\nmax_age: 604800".to_vec(),
                3 => c.policy = b"version: STSv1\nmx: a\nmax_age: 5".to_vec(),
                4 => c.policy = b"mode: enforce\nmx: a\nmax_age: 5".to_vec(),
                5 => c.policy = b"version: STSv1\nmode: testing\nmx: a".to_vec(),
                _ => {
                    let n = r.below(c.policy.len() + 1);
                    c.policy.truncate(n);
                }
            }
        }
        37 => c.policy_given = 3 - c.policy_given.clamp(1, 2),
        38 => {
            // a record of 0 to 3 bytes joins an answer
            let i = r.below(2);
            let n = r.below(4);
            c.tlsa[i].lengths.extend(list(&[n as u64]));
            c.tlsa[i].records.extend(&[3, 1, 1][..n]);
        }
        39 => {
            let n = *r.pick(&[253, 253, 254]);
            c.expanded_next_hop = name_of_length(r, n);
        }
        40 => {
            c.expanded_next_hop = bad_name(r, &c.expanded_next_hop.clone());
            if r.once_in(3) {
                c.host = bad_name(r, &c.host.clone());
            }
        }
        41 => c.expanded_next_hop_given = 3 - c.expanded_next_hop_given.clamp(1, 2),
        42 => c.tls_version = any_version(r),
        43 => join_digest(r, c),
        _ => {
            let i = r.below(2);
            c.tlsa[i].result = r.between(1, 4) as u64;
        }
    }
}

// ------------------------------------------------------------------------------------------------------------------ message

/// MX lookup, preferences, verdicts.
pub fn message(r: &mut Random) -> (u64, Vec<u8>, Vec<u8>) {
    let n = match r.below(10) {
        0 => *r.pick(&[0, 1, 31, 32, 33, 34]),
        1 => r.between(20, 32),
        _ => r.between(1, 6),
    };
    let few = r.once_in(2);
    let mut preferences: Vec<u64> = (0..n)
        .map(|_| match r.below(12) {
            _ if few => 10 * r.below(3) as u64,
            0 => 65_535,
            1 => 0,
            2 => 256 * r.below(4) as u64,
            _ => r.below(65_536) as u64,
        })
        .collect();
    let next = *r.pick(&[2, 2, 4, 8, 20, usize::MAX]); // how rare it is that a host decides
    let mut verdicts: Vec<u64> = (0..n)
        .map(|_| {
            if next != usize::MAX && r.below(next) < 1 {
                *r.pick(&[9, 9, 9, 1, 2, 3, 4, 5])
            } else {
                r.between(20, 28) as u64
            }
        })
        .collect();
    if r.once_in(10) && n > 0 {
        let i = r.below(n);
        match r.below(4) {
            0 => preferences[i] = *r.pick(&[65_536, 65_537, 0xffff_ffff, 1 << 24, 65_535]),
            1 => {
                verdicts[i] = *r.pick(&[0, 6, 7, 8, 9, 10, 14, 19, 29, 30, 31, 5, 1, 20, 28, 256 + 9, (1 << 16) + 1, 1 << 31, 0xffff_ffff]);
            }
            2 => {
                verdicts.pop();
            }
            _ => {
                preferences.remove(i);
            }
        }
    }
    let (mut preferences, mut verdicts) = (list(&preferences), list(&verdicts));
    if r.once_in(20) {
        let which = if r.once_in(2) { &mut preferences } else { &mut verdicts };
        mutate_list(r, which);
        if r.once_in(4) {
            preferences.push(0);
            verdicts.push(0);
        }
    }
    if r.once_in(200) {
        preferences.clear();
        verdicts.clear();
    }
    let lookup = match r.below(30) {
        0 | 1 => 2,
        2 => bad_code(r),
        _ => 1,
    };
    (lookup, preferences, verdicts)
}
