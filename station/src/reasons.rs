//! Why an entry is due or not, and a file given or not: the library's reasons, in words and beside a set's values.

use mctc::{Asked, Condition, Due, Kind, Reason, Test};

use crate::case::Case;
use crate::file_types::{by_number, FILE_TYPES, GAS, IDENTIFICATION};
use crate::fuels;
use crate::near::nearest;
use crate::shown::{self, listed, word_list};

/// What a file stands in.
const SET: &str = "set";

/// The stem, among the places that a reason looks at.
const STEM: u32 = 0;

/// Words that count in entries whose kind lists none. Which of them pass a test, the library says.
const WORDS: [&str; 5] = ["BENZINA", "DIESEL", "NESSUNA", "200", "210"];

/// Of a newer library.
const UNKNOWN: &str = "as the library asks, in a way that this program does not know";

/// What passes a test.
enum Counts {
    These(Vec<String>),
    AllBut(Vec<String>),
    Plate,
    Stem,
}

impl Counts {
    fn of(reason: &Reason) -> Counts {
        let test = reason.test;
        match test {
            Test::SixBytes => Counts::Plate,
            Test::NineStem => Counts::Stem,
            _ => {
                let words = words_at(reason).into_iter();
                let passes = |word: &String| test.passes(word.as_bytes());
                let (these, others): (Vec<String>, Vec<String>) = words.partition(passes);
                match is_word_list(reason) && these.len() > others.len() {
                    true => Counts::AllBut(others),
                    false => Counts::These(these),
                }
            }
        }
    }

    /// Behind the place of the value: what it must be.
    fn asked(&self) -> String {
        match self {
            Counts::These(words) => format!("is {}", listed(&word_list(words), "or")),
            Counts::AllBut(words) => format!("is none of {}", word_list(words).join(", ")),
            Counts::Plate => "has six bytes".to_string(),
            Counts::Stem => "has 9 as its first digit".to_string(),
        }
    }

    /// Behind a value that does not pass.
    fn instead(&self) -> String {
        match self {
            Counts::These(words) => {
                let verb = if words.len() == 1 { "counts" } else { "count" };
                format!("only {} {verb}", listed(&word_list(words), "and"))
            }
            Counts::AllBut(words) => format!("{} do not count", listed(&word_list(words), "and")),
            Counts::Plate => "only a plate of six bytes counts".to_string(),
            Counts::Stem => "only one whose first digit is 9 counts".to_string(),
        }
    }
}

fn kind_at(reason: &Reason) -> Option<Kind> {
    mctc::kind(reason.file, reason.entry).ok()
}

fn is_word_list(reason: &Reason) -> bool {
    kind_at(reason).is_some_and(|kind| !kind.words.is_empty())
}

/// The words of an entry's list; of an entry without one, all that are known.
fn words_at(reason: &Reason) -> Vec<String> {
    match kind_at(reason) {
        Some(kind) if !kind.words.is_empty() => kind.words,
        _ => WORDS.map(String::from).to_vec(),
    }
}

/// `AC2's Alimentazione_1`, or the stem.
fn place(reason: &Reason) -> String {
    match entry(reason) {
        Some((ending, name)) => format!("{ending}'s {name}"),
        None => "the stem".to_string(),
    }
}

/// The ending of the file and the entry's name; None for the stem.
fn entry(reason: &Reason) -> Option<(&'static str, String)> {
    if reason.file == STEM {
        return None;
    }
    let name = mctc::entry_name(reason.file, reason.entry).ok()?.name;
    Some((by_number(reason.file)?.ending, name))
}

/// When an entry is filled, whatever a set's values are.
pub fn when_filled(condition: &Condition) -> String {
    match condition.asked {
        Asked::Always => "always".to_string(),
        Asked::Free => "may be filled or empty".to_string(),
        Asked::When => format!("exactly when {}", groups_in_words(&condition.groups)),
        Asked::OnlyWhen => format!("only when {}", groups_in_words(&condition.groups)),
        Asked::Other(_) => UNKNOWN.to_string(),
    }
}

/// When a file is given, whatever a set's values are.
pub fn when_given(file: u32) -> String {
    let Ok(condition) = mctc::file_condition(file) else {
        return String::new();
    };
    let groups = groups_in_words(&condition.groups);
    // What looks into gas holds only where gas is given.
    let gas = match file {
        IDENTIFICATION => "gas is given and ",
        _ => "",
    };
    match condition.asked {
        Asked::Always => "in every set".to_string(),
        Asked::Free => "may be given or not".to_string(),
        Asked::When => format!("exactly when {gas}{groups}"),
        Asked::OnlyWhen => format!("only when {gas}{groups}"),
        Asked::Other(_) => UNKNOWN.to_string(),
    }
}

fn groups_in_words(groups: &[Vec<Reason>]) -> String {
    let groups = groups.iter().map(|group| {
        let reasons: Vec<String> = group
            .iter()
            .map(|reason| format!("{} {}", place(reason), Counts::of(reason).asked()))
            .collect();
        match reasons.as_slice() {
            [_, _, ..] => format!("either {}", reasons.join(", or ")),
            _ => reasons.concat(),
        }
    });
    groups.collect::<Vec<_>>().join(", and ")
}

/// A reason beside the value that it looks at.
pub struct Looked<'a> {
    reason: Reason,
    /// 0 for the stem.
    pub line: u32,
    pub value: &'a [u8],
}

impl<'a> Looked<'a> {
    /// None where the file is not read.
    fn at(case: &Case<'a>, reason: &Reason) -> Option<Looked<'a>> {
        let (line, value) = match reason.file {
            STEM => (0, case.stem()),
            file => case.value(file, reason.entry)?,
        };
        Some(Looked {
            reason: *reason,
            line,
            value,
        })
    }

    fn holds(&self) -> bool {
        self.reason.test.passes(self.value)
    }

    pub fn file(&self) -> u32 {
        self.reason.file
    }

    /// `AC2 line 8`, or the stem.
    pub fn place(&self) -> String {
        match entry(&self.reason) {
            Some((ending, _)) => format!("{ending} line {}", self.line),
            None => "the stem".to_string(),
        }
    }

    fn words(&self) -> String {
        let (place, value) = (self.place(), shown::value(self.value));
        match entry(&self.reason) {
            Some((_, name)) if self.value.is_empty() => format!("{place} has {name} empty"),
            Some((_, name)) => format!("{place} has {name}={value}"),
            None => format!("{place} is {value}"),
        }
    }

    /// Whether it looks at an entry that has one of these names.
    pub fn has_name(&self, names: &[&str]) -> bool {
        entry(&self.reason).is_some_and(|(_, name)| names.contains(&name.as_str()))
    }

    /// The value and the word that may be meant.
    pub fn doubt(&self) -> Option<String> {
        let meant = self.meant()?;
        Some(match self.near() {
            Some(_) => format!("{}; if `{meant}` is meant", self.words()),
            None => format!("{}; if `{meant}` is meant", self.failure()),
        })
    }

    /// The value and what counts, of a value that does not pass.
    pub fn failure(&self) -> String {
        format!("{}; {}", self.words(), self.instead())
    }

    fn instead(&self) -> String {
        Counts::of(&self.reason).instead()
    }

    /// The word that counts and that the value is near, or that the old booking writes so. A word of a list is near no
    /// other: it is another choice.
    fn near(&self) -> Option<&'static str> {
        let counts = |word: &&str| self.reason.test.passes(word.as_bytes());
        let words = WORDS.into_iter().filter(|_| !is_word_list(&self.reason));
        let near = nearest(self.value, words.filter(counts));
        let near = near.or_else(|| {
            let fuel = self.has_name(&[fuels::ENTRY]).then_some(self.value);
            fuel.and_then(fuels::of_old_word).filter(counts)
        })?;
        (near.as_bytes() != self.value).then_some(near)
    }

    /// The word that is near, or that of a fuel which the value speaks of.
    pub fn meant(&self) -> Option<&'static str> {
        self.near().or_else(|| {
            let fuel = self.has_name(&[fuels::ENTRY]).then_some(self.value);
            let meant = fuel.and_then(fuels::spoken_of)?;
            let is_other = meant.as_bytes() != self.value;
            (is_other && self.reason.test.passes(meant.as_bytes())).then_some(meant)
        })
    }

    /// The line with the word that is near.
    pub fn corrected(&self) -> Option<Vec<u8>> {
        self.with_word(self.near()?)
    }

    /// The line with the word that may be meant.
    pub fn supposed(&self) -> Option<Vec<u8>> {
        self.with_word(self.meant()?)
    }

    fn with_word(&self, word: &str) -> Option<Vec<u8>> {
        let (_, name) = entry(&self.reason)?;
        Some(format!("{name}={word}").into_bytes())
    }
}

/// What is asked of an entry or a file, and the values of a set that decide it.
pub struct Why<'a> {
    /// What an entry stands in, or a file.
    within: &'static str,
    asked: Asked,
    groups: Vec<Vec<Looked<'a>>>,
    /// Of the identification answer where gas is not given: why that is so.
    behind: Option<Box<Why<'a>>>,
}

impl<'a> Why<'a> {
    /// None where there is no such entry, or a file that decides is not read.
    pub fn entry(case: &Case<'a>, file: u32, entry: u32) -> Option<Why<'a>> {
        let within = by_number(file)?.ending;
        Why::new(case, within, mctc::condition(file, entry).ok()?)
    }

    pub fn file(case: &Case<'a>, file: u32) -> Option<Why<'a>> {
        let condition = mctc::file_condition(file).ok()?;
        if file == IDENTIFICATION && case.text(GAS).is_empty() {
            return Some(Why {
                within: SET,
                asked: condition.asked,
                groups: Vec::new(),
                behind: Some(Box::new(Why::file(case, GAS)?)),
            });
        }
        Why::new(case, SET, condition)
    }

    fn new(case: &Case<'a>, within: &'static str, condition: Condition) -> Option<Why<'a>> {
        let looked = |group: &Vec<Reason>| {
            let looked = group.iter().map(|reason| Looked::at(case, reason));
            looked.collect::<Option<Vec<_>>>()
        };
        let groups = condition.groups.iter().map(looked);
        Some(Why {
            within,
            asked: condition.asked,
            groups: groups.collect::<Option<_>>()?,
            behind: None,
        })
    }

    /// Whether the reasons hold.
    fn holds(&self) -> bool {
        self.behind.is_none() && self.failing().is_empty()
    }

    /// What is asked by these values; None where this program does not know it.
    pub fn due(&self) -> Option<Due> {
        match (self.asked, self.holds()) {
            (Asked::Always, _) | (Asked::When, true) => Some(Due::Due),
            (Asked::Free, _) | (Asked::OnlyWhen, true) => Some(Due::Free),
            (Asked::When | Asked::OnlyWhen, false) => Some(Due::NotDue),
            (Asked::Other(_), _) => None,
        }
    }

    pub fn is_due(&self) -> bool {
        self.due() == Some(Due::Due)
    }

    /// By which the reasons do not hold.
    fn failing(&self) -> Vec<&Looked<'a>> {
        let groups = self.groups.iter();
        let failing = groups.filter(|group| !group.iter().any(Looked::holds));
        failing.flatten().collect()
    }

    /// By which they hold: the first of each group.
    fn holding(&self) -> Vec<&Looked<'a>> {
        let groups = self.groups.iter();
        groups
            .filter_map(|group| group.iter().find(|looked| looked.holds()))
            .collect()
    }

    /// The values that decide.
    pub fn deciding(&self) -> Vec<&Looked<'a>> {
        match &self.behind {
            Some(behind) => behind.deciding(),
            None if self.holds() => self.holding(),
            None => self.failing(),
        }
    }

    /// `due, because ..` or `not due, because ..`.
    pub fn words(&self) -> String {
        if let Some(behind) = &self.behind {
            return format!(
                "not due, because gas is not given; gas is {}",
                behind.words()
            );
        }
        let all = |looked: Vec<String>| looked.join(" and ");
        match (self.asked, self.failing().as_slice()) {
            (Asked::Always, _) => format!("it is due in every {}", self.within),
            (Asked::Free, _) => "free: it may be there or not".to_string(),
            (_, []) => {
                let holding = self.holding();
                let words = holding.into_iter().map(Looked::words);
                format!("due, because {}", all(words.collect()))
            }
            (_, [one]) => format!("not due, because {}", one.failure()),
            (_, several) => {
                let words = several
                    .iter()
                    .map(|looked| format!("{} ({})", looked.words(), looked.instead()));
                format!("not due, because {}", all(words.collect()))
            }
        }
    }
}

/// Values of a set that decide something and may be meant as a word that counts, but are not that word.
pub fn doubtful<'a>(case: &Case<'a>) -> Vec<Looked<'a>> {
    let reasons = all();
    let looked = reasons.iter().filter_map(|reason| Looked::at(case, reason));
    looked
        .filter(|looked| !looked.holds() && looked.supposed().is_some())
        .collect()
}

/// The reasons of all conditions, each once.
fn all() -> Vec<Reason> {
    let conditions = FILE_TYPES.iter().flat_map(|file| {
        let file = file.number;
        let entries = (0..).map_while(move |entry| mctc::condition(file, entry).ok());
        entries.chain(mctc::file_condition(file).ok())
    });
    let mut reasons: Vec<Reason> = Vec::new();
    for reason in conditions.flat_map(|condition| condition.groups).flatten() {
        if !reasons.contains(&reason) {
            reasons.push(reason);
        }
    }
    reasons
}

#[cfg(test)]
mod tests {
    use super::{all, is_word_list, Counts, WORDS};

    /// Each word passes the test of a reason that looks at no word list, and each reason has what counts.
    #[test]
    fn words_count() {
        let reasons = all();
        for word in WORDS {
            let mut others = reasons.iter().filter(|reason| !is_word_list(reason));
            let counts = others.any(|reason| reason.test.passes(word.as_bytes()));
            assert!(counts, "{word}");
        }
        for reason in reasons {
            let has_words = match Counts::of(&reason) {
                Counts::These(words) | Counts::AllBut(words) => !words.is_empty(),
                Counts::Plate | Counts::Stem => true,
            };
            assert!(has_words, "{reason:?}");
        }
    }
}
