//! The ways in which a host call hangs on the expanded next-hop (document 02, No. 3). Of a great many random calls each has to come
//! often.

use independent_rules::rules::{self, HostCall};

const WAYS: [&str; 16] = [
    "accepted by it alone",
    "accepted by it alone, in another case",
    "accepted by it alone, by a wildcard",
    "accepted by it alone, by the common name",
    "accepted by it alone, beside a policy",
    "26 with insecure MX",
    "26 with no MX",
    "26 where none is given",
    "27, since MTA-STS takes the host's name alone",
    "the next-hop in another case",
    "60 with secure MX",
    "60 with insecure MX",
    "60 with no MX",
    "60 before 61",
    "no name where none is given",
    "67",
];

/// How often each way came.
#[derive(Default)]
pub struct NextHops([u64; WAYS.len()]);

impl NextHops {
    pub fn count(&mut self, call: &HostCall, number: u64) {
        for (count, is_so) in self.0.iter_mut().zip(ways(call, number)) {
            *count += is_so as u64;
        }
    }

    pub fn report(&self) {
        for (way, count) in WAYS.iter().zip(self.0) {
            println!("  the expanded next-hop: {way}: {count}");
        }
    }

    /// A way that came less than once in 10,000 cases.
    pub fn missing(&self, cases: u64) -> Option<String> {
        WAYS.iter().zip(self.0).find(|(_, count)| count * 10_000 < cases).map(|(way, _)| format!("the expanded next-hop: {way}"))
    }
}

/// What the rules answer to the call after a change.
pub fn changed(call: &HostCall, change: impl Fn(&mut HostCall)) -> u64 {
    let mut other = call.clone();
    change(&mut other);
    rules::judge_host(&other).0
}

/// Whether DANE passes with secure MX and the expanded next-hop, and not without it.
fn hangs(call: &HostCall) -> bool {
    let with = |given| changed(call, |c| (c.origin, c.expanded_next_hop_given) = (1, given));
    matches!(with(1), 3 | 5) && with(2) == 26
}

/// Which of the ways the call is an example of; the number is what the rules answer.
fn ways(c: &HostCall, number: u64) -> [bool; WAYS.len()] {
    let (given, hangs_on_it) = (c.expanded_next_hop_given == 1, matches!(number, 3 | 5 | 26) && hangs(c));
    let (accepted, mismatch) = (hangs_on_it && number != 26, hangs_on_it && number == 26);
    let spelled = c.dns_ids.windows(c.expanded_next_hop.len().max(1)).any(|name| name == c.expanded_next_hop);
    let no_dns_id = c.dns_id_lengths.is_empty();
    let starred = accepted && changed(c, |c| c.dns_ids.iter_mut().filter(|b| **b == b'*').for_each(|b| *b = b'-')) == 26;
    let without_policy = || hangs(&HostCall { policy_given: 2, ..c.clone() });
    let same_name = c.expanded_next_hop.eq_ignore_ascii_case(&c.next_hop) && c.expanded_next_hop != c.next_hop;
    let without = if matches!(number, 60 | 67) { changed(c, |c| c.expanded_next_hop_given = 2) } else { number };
    let refused = number == 60 && without != 60;
    [
        accepted,
        accepted && !no_dns_id && !starred && !spelled,
        starred,
        accepted && no_dns_id,
        accepted && number == 5,
        mismatch && given && c.origin == 2,
        mismatch && given && c.origin == 3,
        mismatch && !given && c.origin == 1,
        number == 27 && given && c.origin == 1 && c.trusted_root == 1 && without_policy(),
        given && c.origin == 1 && same_name && matches!(number, 3 | 5 | 26),
        refused && c.origin == 1,
        refused && c.origin == 2,
        refused && c.origin == 3,
        refused && without == 61,
        !given && !matches!(number, 60 | 62 | 67) && changed(c, |c| c.expanded_next_hop_given = 1) == 60,
        number == 67 && without != 67,
    ]
}
