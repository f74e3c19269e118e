//! Where the lines that offend stand. Of a great many random policies each of the faults 53 to 57 has to come in every place.

use independent_rules::rules::{self, PolicyAnswer};
use std::collections::BTreeMap;

const NUMBERS: std::ops::RangeInclusive<u64> = 53..=57;
const PLACES: [&str; 8] = [
    "in the first line",
    "in a line between",
    "in the last line",
    "in a last line without an end",
    "after LF",
    "after CRLF",
    "beyond line 1,000",
    "before another fault",
];

/// How often each fault came in each place.
#[derive(Default)]
pub struct Faults(BTreeMap<(u64, &'static str), u64>);

impl Faults {
    pub fn count(&mut self, body: &[u8], answer: &PolicyAnswer) {
        if answer.line == 0 {
            return;
        }
        for (place, _) in PLACES.iter().zip(places(body, answer)).filter(|(_, is_there)| *is_there) {
            *self.0.entry((answer.number, place)).or_insert(0) += 1;
        }
    }

    fn of(&self, number: u64, place: &'static str) -> u64 {
        self.0.get(&(number, place)).copied().unwrap_or(0)
    }

    pub fn report(&self) {
        for place in PLACES {
            let counts: Vec<String> = NUMBERS.map(|number| format!("{number}: {}", self.of(number, place))).collect();
            println!("  {place}: {}", counts.join(", "));
        }
    }

    /// A fault that never came in some place, in words.
    pub fn missing(&self) -> Option<String> {
        let pairs = NUMBERS.flat_map(|number| PLACES.map(|place| (number, place)));
        pairs.into_iter().find(|(number, place)| self.of(*number, place) == 0).map(|(number, place)| format!("{number} {place}"))
    }
}

/// Which of the places the line of this answer stands in.
fn places(body: &[u8], answer: &PolicyAnswer) -> [bool; PLACES.len()] {
    let (before, from) = body.split_at(answer.offset as usize);
    let end = from.iter().position(|&b| b == b'\n');
    let after = end.map_or(&b""[..], |end| &from[end + 1..]);
    let after_crlf = before.ends_with(b"\r\n");
    let another = !after.is_empty() && rules::read_policy(after).line != 0; // or what would be one as the first of its name
    [
        answer.line == 1,
        answer.line > 1 && !after.is_empty(),
        after.is_empty(),
        end.is_none(),
        answer.line > 1 && !after_crlf,
        after_crlf,
        answer.line > 1000,
        another,
    ]
}
