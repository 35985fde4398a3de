//! How often a run met what it must meet, by call.

use std::collections::BTreeMap;

/// Accepted sets and files.
pub const JUDGED: &str = "judge 0";
pub const JUDGED_AGAIN: &str = "judged again";
/// Accepted sets whose files, written in table order, were judged again with the same answer.
pub const REWRITTEN: &str = "written in table order";
pub const READ: &str = "read 0";
pub const READ_BACK: &str = "read back";
pub const COLUMN: &str = "due 0";
/// Accepted calls that gave the same answer with the lines of their files in the opposite order.
pub const JUDGED_TURNED: &str = "judged in the opposite order";
pub const READ_TURNED: &str = "read in the opposite order";
pub const COLUMN_TURNED: &str = "due in the opposite order";

/// Sets and files refused by a number.
pub const JUDGE_9: &str = "judge 9";
pub const JUDGE_10: &str = "judge 10";
pub const JUDGE_11: &str = "judge 11";
pub const JUDGE_12: &str = "judge 12";
pub const JUDGE_13: &str = "judge 13";
pub const JUDGE_19: &str = "judge 19";
pub const READ_9: &str = "read 9";

/// Joinings that were accepted, and refused by a number or for an input.
pub const JOINED: &str = "join 0";
pub const JOIN_INPUT: &str = "join 3 to 11";
pub const JOIN_18: &str = "join 18";
pub const JOIN_20: &str = "join 20";
pub const JOIN_21: &str = "join 21";
/// Joinings answered alike with the lines of the inputs in the opposite order.
pub const JOIN_TURNED: &str = "join in the opposite order";
/// Joined files that were read alone, judged in a set, and refused there by 19.
pub const JOINED_READ: &str = "joined and read";
pub const JOINED_JUDGED: &str = "joined and judged 0";
pub const JOINED_19: &str = "joined and judged 19";

/// Writings, quotes and commits, whatever they answer.
pub const WRITE: &str = "write";
pub const QUOTE: &str = "quote";
pub const COMMIT: &str = "commit";

/// What must be met, and by which call.
pub type Wanted = (&'static str, String);

/// The value of an entry in a text of one section that passed 3 to 8.
pub fn value_in<'a>(text: &'a [u8], name: &str) -> &'a str {
    let text = std::str::from_utf8(text).expect("bytes of 20 to 7E hex");
    let value = |line: &'a str| line.strip_prefix(name)?.strip_prefix('=');
    text.lines().find_map(value).expect("every entry is there")
}

/// How many of these were reached, and the one that was reached least how often.
pub fn summary(times: &[u64]) -> String {
    let reached = times.iter().filter(|times| **times > 0).count();
    let least = times.iter().min().unwrap_or(&0);
    format!("{reached} of {}, each at least {least} times", times.len())
}

#[derive(Default)]
pub struct Met {
    counts: BTreeMap<Wanted, u64>,
}

impl Met {
    pub fn count(&mut self, call: &'static str, what: impl Into<String>) {
        *self.counts.entry((call, what.into())).or_default() += 1;
    }

    fn times(&self, wanted: &Wanted) -> u64 {
        self.counts.get(wanted).copied().unwrap_or(0)
    }

    /// What should have been met and was not.
    pub fn missing(&self, wanted: &[Wanted]) -> Vec<String> {
        let never = wanted.iter().filter(|wanted| self.times(wanted) == 0);
        never
            .map(|(call, what)| format!("{call}: never {what}"))
            .collect()
    }

    /// Prints for each call how much of this was met.
    pub fn print(&self, name: &str, wanted: &[Wanted]) {
        let mut by_call: BTreeMap<&str, Vec<u64>> = BTreeMap::new();
        for both in wanted {
            by_call.entry(both.0).or_default().push(self.times(both));
        }
        for (call, times) in by_call {
            println!("{call}, {name}: {}", summary(&times));
        }
    }
}
