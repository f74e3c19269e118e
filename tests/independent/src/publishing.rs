//! The calls that write (document 02, No. 5) against the rules: number, length and the whole output are compared. The ways in which
//! the calls come to their answers are counted; of a great many random calls each has to come often.

use crate::arguments::{policy_call, shown, Shown};
use crate::boundary::{Lender, Place, PolicyCall};
use crate::publications::{self, POLICY_ROOM, SHORTEST_POLICY, TXT_ROOM};
use crate::random::Random;
use crate::{outcome, Outcome};
use independent_rules::publish::{self, WriteAnswer};

/// In words, and whether a call is an example of it.
pub type Way = (&'static str, bool);

/// How often each way of a call came.
#[derive(Default)]
pub struct Ways(Vec<(&'static str, u64)>);

impl Ways {
    /// The ways of a call are always the same, in the same order.
    pub fn count(&mut self, ways: &[Way]) {
        if self.0.is_empty() {
            self.0 = ways.iter().map(|(way, _)| (*way, 0)).collect();
        }
        for ((_, count), (_, is_so)) in self.0.iter_mut().zip(ways) {
            *count += *is_so as u64;
        }
    }

    pub fn report(&self) {
        for (way, count) in &self.0 {
            println!("  {way}: {count}");
        }
    }

    /// A way that came less than once in 10,000 cases.
    pub fn missing(&self, cases: u64) -> Option<String> {
        self.0.iter().find(|(_, count)| count * 10_000 < cases).map(|(way, _)| way.to_string())
    }
}

/// The answer, and a copy of the output as the call leaves it.
fn asked(output: &[u8], write: impl FnOnce(&mut [u8]) -> WriteAnswer) -> (WriteAnswer, Shown) {
    let mut output = output.to_vec();
    (write(&mut output), Shown(output))
}

pub fn write_txt(lender: &mut Lender, r: &mut Random, place: Place, ways: &mut Ways) -> Outcome {
    let id = publications::id(r);
    let output = publications::output(r, TXT_ROOM - 32 + id.len());
    let ours = asked(&output, |output| publish::write_txt(&id, output));
    let theirs = asked(&output, |output| lender.write_txt(&id, output, place));
    ways.count(&txt_ways(&id, output.len(), ours.0));
    outcome(theirs.0 .0, ours, theirs, move || [shown("id", &id), shown("output", &output)].concat())
}

pub fn write_policy(lender: &mut Lender, r: &mut Random, place: Place, ways: &mut Ways) -> Outcome {
    let (c, output) = publications::policy_call_with_output(r);
    let ours = asked(&output, |output| publish::write_policy(c.mode, c.lifetime, &c.patterns, &c.pattern_lengths, output));
    let theirs = asked(&output, |output| lender.write_policy(&c, output, place));
    ways.count(&policy_ways(&c, output.len(), ours.0));
    outcome(theirs.0 .0, ours, theirs, move || [policy_call(&c), shown("output", &output)].concat())
}

pub fn rewrite_policy(lender: &mut Lender, r: &mut Random, place: Place, ways: &mut Ways) -> Outcome {
    let (body, output) = publications::body_with_output(r);
    let ours = asked(&output, |output| publish::rewrite_policy(&body, output));
    let theirs = asked(&output, |output| lender.rewrite_policy(&body, output, place));
    let (number, length) = ours.0;
    ways.count(&rewriting_ways(&body, output.len(), number, &ours.1 .0[..length as usize]));
    outcome(theirs.0 .0, ours, theirs, move || [shown("body", &body), shown("output", &output)].concat())
}

// -------------------------------------------------------------------------------------------------------------------- ways

fn txt_ways(id: &[u8], room: usize, (number, length): WriteAnswer) -> [Way; 11] {
    let (written, refused) = (number == 15, number == 80);
    let (needed, good) = (TXT_ROOM - 32 + id.len(), id.iter().filter(|b| b.is_ascii_alphanumeric()).count());
    [
        ("an id of 1 byte", written && id.len() == 1),
        ("an id of 32 bytes", written && id.len() == 32),
        ("an output of just the length", written && room == length as usize),
        ("a longer output", written && room > length as usize),
        ("80 by no byte", refused && id.is_empty()),
        ("80 by 33 bytes", refused && id.len() == 33 && good == 33),
        ("80 by the first byte", refused && (2..=32).contains(&id.len()) && good + 1 == id.len() && !id[0].is_ascii_alphanumeric()),
        ("80 by the last byte", refused && id.len() == 32 && good == 31 && !id[31].is_ascii_alphanumeric()),
        ("80 before 83", refused && room < needed),
        ("83 by one byte", number == 83 && room + 1 == needed),
        ("83 by no output", number == 83 && room == 0),
    ]
}

fn policy_ways(c: &PolicyCall, room: usize, (number, length): WriteAnswer) -> [Way; 26] {
    let (written, refused, length) = (number == 15, number == 81, length as usize);
    let numbers = c.pattern_lengths.chunks_exact(4).map(|n| u32::from_be_bytes([n[0], n[1], n[2], n[3]]) as u64);
    let (count, sum, bytes) = (numbers.len(), numbers.clone().sum::<u64>(), c.patterns.len() as u64);
    let left_over = c.pattern_lengths.len() % 4 != 0;
    let listed = !left_over && sum == bytes;
    let counted = (1..=16).contains(&count);
    let (long_lived, short) = (c.lifetime > 31_557_600, room < SHORTEST_POLICY);
    let longest = numbers.max().unwrap_or(0);
    [
        ("mode enforce", written && c.mode == 1),
        ("mode testing", written && c.mode == 2),
        ("mode none", written && c.mode == 3 && count > 0),
        ("mode none without a pattern", written && count == 0),
        ("1 pattern", written && count == 1),
        ("16 patterns", written && count == 16),
        ("a pattern of 253 bytes", written && longest == 253),
        ("a pattern of 255 bytes", written && longest == 255),
        ("a policy of 4,207 bytes", written && length == POLICY_ROOM),
        ("lifetime 0", written && c.lifetime == 0),
        ("lifetime 31,557,600", written && c.lifetime == 31_557_600),
        ("an output of just the length", written && room == length),
        ("a longer output", written && room > length),
        ("67 before 81", number == 67 && !listed),
        ("67 before 82", number == 67 && long_lived),
        ("67 before 83", number == 67 && short),
        ("81 by left-over bytes", refused && left_over && sum == bytes && counted),
        ("81 by lengths that do not sum", refused && !left_over && sum != bytes && counted),
        ("81 by a sum that wraps", refused && !left_over && sum != bytes && sum as u32 as u64 == bytes && counted),
        ("81 by no pattern", refused && listed && count == 0),
        ("81 by 17 patterns", refused && listed && count == 17),
        ("81 by a pattern", refused && listed && counted),
        ("81 before 82", refused && long_lived),
        ("81 before 83", refused && short),
        ("82 by one, before 83", number == 82 && c.lifetime == 31_557_601 && short),
        ("83", number == 83 && !short),
    ]
}

/// The values of the lines of this name, less blanks.
pub fn values<'a>(body: &'a [u8], name: &'a str) -> impl Iterator<Item = &'a [u8]> {
    let lines = body.split(|&b| b == b'\n');
    lines.filter_map(move |line| line.strip_prefix(name.as_bytes())?.strip_prefix(b":").map(|value| value.trim_ascii()))
}

fn rewriting_ways(body: &[u8], room: usize, number: u64, text: &[u8]) -> [Way; 20] {
    let (written, short) = (number == 15, room < SHORTEST_POLICY);
    let patterns = if number == 15 || number == 81 { values(body, "mx").count() } else { 0 };
    let max_age = if written { values(body, "max_age").next().unwrap_or(b"") } else { b"" };
    let seconds = max_age.iter().fold(0, |n, digit| n * 10 + (digit - b'0') as u64);
    let again = |name: &'static str| written && values(body, name).nth(1).is_some();
    let lines = |s: &[u8]| s.iter().filter(|&&b| b == b'\n').count();
    [
        ("a body that is as it would be written", written && text == body),
        ("one that becomes longer", written && text.len() > body.len()),
        ("one that becomes shorter", written && text.len() < body.len()),
        ("a line that is dropped", written && lines(body) > lines(text)),
        ("a dropped line that is not ASCII", written && !body.is_ascii()),
        ("a second version", again("version")),
        ("a second mode", again("mode")),
        ("a second max_age", again("max_age")),
        ("CRLF", written && body.windows(2).any(|two| two == b"\r\n")),
        ("no end of the last line", written && !body.ends_with(b"\n")),
        ("a max_age above 31,557,600", seconds > 31_557_600),
        ("a max_age with a zero in front", max_age.len() > 1 && max_age[0] == b'0'),
        ("no pattern", written && patterns == 0),
        ("16 patterns", written && patterns == 16),
        ("an output of just the length", written && room == text.len()),
        ("a longer output", written && room > text.len()),
        ("81 by 17 patterns", number == 81 && patterns == 17),
        ("81 before 83", number == 81 && short),
        ("the reader's refusal before 83", (50..=57).contains(&number) && short),
        ("83", number == 83 && !short),
    ]
}
