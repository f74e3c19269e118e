//! Random things to publish: ids, policies to be written and bodies to be rewritten, with an output for each. Mostly they are good
//! and many are at a limit; then one thing is damaged, or several at once.

use crate::boundary::PolicyCall;
use crate::inputs::{self, bad_code, bad_name, lengths_of, letters, list, mutate_list, name, name_of_length, starred, EDGES};
use crate::random::Random;
use independent_rules::publish;

/// The sizes that are always enough, from the page of the C boundary: "Largest outputs: TXT 45 bytes, policy 4,207".
pub const TXT_ROOM: usize = 45;
pub const POLICY_ROOM: usize = 4207;
/// No policy is shorter than the one of mode none and lifetime 0.
pub const SHORTEST_POLICY: usize = b"version: STSv1\nmode: none\nmax_age: 0\n".len();

/// Random bytes: as many as are written, one less or more, none, or any number.
pub fn output(r: &mut Random, written: usize) -> Vec<u8> {
    let room = match r.below(12) {
        0 => 0,
        1 => r.below(written + 1),
        2 | 3 => written.saturating_sub(1),
        4 | 5 => written,
        6 => written + 1,
        _ => written + r.below(100),
    };
    r.bytes(room)
}

/// The first of so many places, the last, or any.
fn some_place(r: &mut Random, places: usize) -> usize {
    match r.below(3) {
        0 => 0,
        1 => places - 1,
        _ => r.below(places),
    }
}

/// Mostly 1 to 32 letters or digits. A long one would pass if only a part of its length counted.
pub fn id(r: &mut Random) -> Vec<u8> {
    let n = match r.below(10) {
        0 => *r.pick(&[0, 33, 33, 34]),
        1 if r.once_in(20) => *r.pick(&[64, 256, 256 + 1, 256 + 32, 65_536 + 1]),
        1..=3 => *r.pick(&[1, 2, 31, 32]),
        _ => r.between(1, 32),
    };
    let mut id = letters(r, n);
    if n > 0 && r.once_in(5) {
        let at = some_place(r, n);
        id[at] = if r.once_in(4) { r.byte() } else { *r.pick(EDGES) };
    }
    id
}

// --------------------------------------------------------------------------------------------------------------- patterns

/// What is no pattern. Some would be further lines of a policy, were they written.
const BAD_PATTERNS: [&[u8]; 24] = [
    b"", b"*", b"*.", b"*..a", b"*.*.a", b"**.a", b"*a.b", b"a.*", b"a.*.b", b".", b"*.a.", b"*.-a", b"a\n", b"\na", b"a\nmx: b",
    b"a\r\nmode: none", b"a\r", b" a", b"a ", b"\ta", b"mx: a", b"a\0", b"\xc3\xa9.example", b"[192.0.2.1]",
];

fn pattern(r: &mut Random) -> Vec<u8> {
    let name = match r.below(40) {
        0 => name_of_length(r, 253),
        _ => name(r),
    };
    if r.once_in(2) { starred(&name) } else { name }
}

/// Mostly none; a few are one.
fn bad_pattern(r: &mut Random, good: &[u8]) -> Vec<u8> {
    match r.below(6) {
        0 | 1 => r.pick(&BAD_PATTERNS).to_vec(),
        2 => {
            let n = *r.pick(&[252, 253, 254, 255]);
            starred(&name_of_length(r, n))
        }
        3 => starred(&bad_name(r, good.strip_prefix(b"*.").unwrap_or(good))),
        _ => bad_name(r, good),
    }
}

/// Mostly 1 to 16. A few are so many that they would pass if only a part of their count counted.
fn patterns(r: &mut Random) -> Vec<Vec<u8>> {
    if r.once_in(1000) {
        return vec![b"a".to_vec(); *r.pick(&[256, 256 + 1, 256 + 16])];
    }
    let count = match r.below(12) {
        0 => 0,
        1 => *r.pick(&[15, 16, 16, 17, 17, 18]),
        2 => r.between(5, 16),
        _ => r.between(1, 4),
    };
    (0..count).map(|_| pattern(r)).collect()
}

// --------------------------------------------------------------------------------------------------- policies to be written

fn lifetime(r: &mut Random) -> u64 {
    match r.below(8) {
        0 => *r.pick(&[0, 0, 1, 9, 10]),
        1 => *r.pick(&[31_557_599, 31_557_600, 31_557_600]),
        2 => 10u64.pow(r.below(8) as u32) + r.below(3) as u64 - 1,
        3 => *r.pick(&[86_400, 604_800, 1_296_000, 2_592_000]),
        _ => r.below(31_557_601) as u64,
    }
}

fn bad_lifetime(r: &mut Random) -> u64 {
    let high = [99_999_999, 100_000_000, 9_999_999_999, 10_000_000_000, 1 << 32, (1 << 32) + 604_800, 1 << 63, u64::MAX];
    if r.once_in(2) { *r.pick(&[31_557_601, 31_557_602]) } else { *r.pick(&high) }
}

/// Mostly the lengths don't sum after it, or are cut elsewhere.
fn damage_lengths(r: &mut Random, c: &mut PolicyCall) {
    match r.below(6) {
        0 => c.patterns.push(*r.pick(b"a.\n\0")),
        1 => {
            c.patterns.pop();
        }
        // The sum is right but for its 33rd bit.
        2 if c.pattern_lengths.len() >= 8 => {
            c.pattern_lengths[0] ^= 0x80;
            c.pattern_lengths[4] ^= 0x80;
        }
        2 => c.pattern_lengths.extend(list(&[0xffff_ffff, 1])),
        _ => mutate_list(r, &mut c.pattern_lengths),
    }
}

fn call_of(mode: u64, lifetime: u64, patterns: &[Vec<u8>]) -> PolicyCall {
    PolicyCall { mode, lifetime, patterns: patterns.concat(), pattern_lengths: list(&lengths_of(patterns)) }
}

/// As long as can be; half of them have one thing that is too large by one.
fn longest_policy(r: &mut Random) -> PolicyCall {
    let mut patterns = vec![starred(&name_of_length(r, 253)); 16];
    for (pattern, &letter) in patterns.iter_mut().zip(b"0123456789abcdeF") {
        pattern[2] = letter;
    }
    let (mut mode, mut lifetime) = (r.between(1, 2) as u64, r.between(10_000_000, 31_557_600) as u64);
    match r.below(8) {
        0 => patterns[15].push(b'a'),
        1 => patterns.push(b"a".to_vec()),
        2 => lifetime = 31_557_601,
        3 => mode = 4,
        _ => {}
    }
    call_of(mode, lifetime, &patterns)
}

/// One in two has faults, several at once.
pub fn policy_call(r: &mut Random) -> PolicyCall {
    if r.once_in(50) {
        return longest_policy(r);
    }
    let faults = r.once_in(2);
    let fault = |r: &mut Random| faults && r.once_in(4);
    let mode = if fault(r) { bad_code(r) } else { r.between(1, 3) as u64 };
    let lifetime = if fault(r) { bad_lifetime(r) } else { lifetime(r) };
    let mut patterns = patterns(r);
    if fault(r) && !patterns.is_empty() {
        let at = some_place(r, patterns.len());
        patterns[at] = bad_pattern(r, &patterns[at].clone());
    }
    let mut c = call_of(mode, lifetime, &patterns);
    if fault(r) {
        damage_lengths(r, &mut c);
    }
    c
}

/// With an output, mostly of about the size that is written.
pub fn policy_call_with_output(r: &mut Random) -> (PolicyCall, Vec<u8>) {
    let c = policy_call(r);
    let needed = publish::write_policy(c.mode, c.lifetime, &c.patterns, &c.pattern_lengths, &mut [0; POLICY_ROOM]);
    (c, output_for(r, needed))
}

/// The output for a call that has this answer where there is room; a refused one has some output too.
fn output_for(r: &mut Random, (number, length): publish::WriteAnswer) -> Vec<u8> {
    output(r, if number == 15 { length as usize } else { 2 * SHORTEST_POLICY })
}

// -------------------------------------------------------------------------------------------------- bodies to be rewritten

/// Lines that rewriting drops, unless they are the first of their name, and a few that it keeps.
const FURTHER: [&[u8]; 18] = [
    b"mode: testing", b"mode:none", b"max_age: 7", b"max_age:\t0000000012", b"version: STSv2", b"version: STSv1", b"Mode: none",
    b"MX: other.example", b"mx_: a.example", b"mx2:b", b"m: x", b"max_ages: 5", b"note: caf\xc3\xa9",
    b"note: \xf0\x9f\x93\xac \xe2\x82\xac", b"mx: *.Further.example", b"mx:\tfurther.example \t", b"mx :a", b"note: a b  c",
];

/// With up to 18 patterns and some further lines.
fn body_of_many(r: &mut Random) -> Vec<u8> {
    let mode: &[u8] = *r.pick(&[&b"enforce"[..], b"testing", b"none"]);
    let (patterns, age, clean) = (patterns(r), inputs::max_age(r), !r.once_in(4));
    let mut body = inputs::policy_body(r, &patterns, mode, &age, clean);
    if r.once_in(2) {
        for _ in 0..r.between(1, 3) {
            let line = *r.pick(&FURTHER);
            inputs::put_line(r, &mut body, line);
        }
    }
    body
}

/// One that needs no rewriting; where its parts are refused, no byte.
fn body_as_written(r: &mut Random) -> Vec<u8> {
    let (c, mut text) = (policy_call(r), vec![0; POLICY_ROOM]);
    let (_, length) = publish::write_policy(c.mode, c.lifetime, &c.patterns, &c.pattern_lengths, &mut text);
    text.truncate(length as usize);
    text
}

pub fn body(r: &mut Random) -> Vec<u8> {
    match r.below(10) {
        0 => body_as_written(r),
        1..=3 => inputs::policy(r),
        _ => body_of_many(r),
    }
}

/// With an output, mostly of about the size that is written.
pub fn body_with_output(r: &mut Random) -> (Vec<u8>, Vec<u8>) {
    let body = body(r);
    let needed = publish::rewrite_policy(&body, &mut [0; POLICY_ROOM]);
    (body, output_for(r, needed))
}
