//! Document 02, No. 5 ("Publish for our merchants"), written independently of the library, over the rules of document 01. Comments
//! quote document 02, or the page of the C boundary where they name it; "reading n" is that page's list of readings.

use crate::rules::{is_id, is_pattern, parts, policy};

/// Number and length; the length is 0 under a refusal.
pub type WriteAnswer = (u64, u64);

/// "Write the TXT text `v=STSv1; id=ID;` from an id". "Refuse a bad id (80), (...) and an output too short (83), in that order".
pub fn write_txt(id: &[u8], output: &mut [u8]) -> WriteAnswer {
    if !is_id(id) {
        return (80, 0);
    }
    written(&[b"v=STSv1; id=", id, b";"].concat(), output)
}

/// "and the policy body from a mode, a lifetime and 1 to 16 patterns (0 to 16 for mode none)"
pub fn write_policy(mode: u64, lifetime: u64, patterns: &[u8], pattern_lengths: &[u8], output: &mut [u8]) -> WriteAnswer {
    // The boundary: "mode 1 enforce, 2 testing, 3 none, else 67 (first)".
    if !(1..=3).contains(&mode) {
        return (67, 0);
    }
    // "a bad pattern, count or length (81)"; the boundary: "left-over bytes and lengths that don't sum are 81".
    let Some(patterns) = parts(patterns, pattern_lengths) else { return (81, 0) };
    let fewest = if mode == 3 { 0 } else { 1 };
    if !(fewest..=16).contains(&patterns.len()) || !patterns.iter().all(|pattern| is_pattern(pattern)) {
        return (81, 0);
    }
    // "a lifetime over 31,557,600 (82)"
    if lifetime > 31_557_600 {
        return (82, 0);
    }
    written(&policy_text(mode, lifetime, &patterns), output)
}

/// "Rewriting takes a body (50 to 52, then 81 for over 16 patterns, 83) and keeps mode, lifetime and patterns in order, but no
/// other field." Reading 8: "50 to 52" is 50, then 53 to 57, then 52. The lifetime is the reader's, so a max_age above 31,557,600
/// is kept as that.
pub fn rewrite_policy(body: &[u8], output: &mut [u8]) -> WriteAnswer {
    match policy(body) {
        Err(refusal) => (refusal.number, 0),
        Ok(policy) if policy.patterns.len() > 16 => (81, 0),
        Ok(policy) => written(&policy_text(policy.mode, policy.lifetime, &policy.patterns), output),
    }
}

/// "in the order version, mode, mx lines, max_age (shortest decimal), LF after every line, one space after the colon"
fn policy_text(mode: u64, lifetime: u64, patterns: &[&[u8]]) -> Vec<u8> {
    let mode = ["enforce", "testing", "none"][mode as usize - 1];
    let mut text = format!("version: STSv1\nmode: {mode}\n").into_bytes();
    for pattern in patterns {
        text.extend([b"mx: ", *pattern, b"\n"].concat());
    }
    text.extend(format!("max_age: {lifetime}\n").into_bytes());
    text
}

/// "an output too short (83), (...) output unchanged"; else the boundary: "15 with the length written at the front of the output,
/// the rest untouched".
fn written(text: &[u8], output: &mut [u8]) -> WriteAnswer {
    if output.len() < text.len() {
        return (83, 0);
    }
    output[..text.len()].copy_from_slice(text);
    (15, text.len() as u64)
}
