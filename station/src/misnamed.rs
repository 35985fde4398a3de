//! Refusals 5 and 6: headings and entries that are unknown or stand twice.

use mctc::Kind;

use crate::case::Refused;
use crate::edit::{Action, Edit};
use crate::file_types::FILE_TYPES;
use crate::finding::Finding;
use crate::kinds;
use crate::near::nearest;
use crate::shown;
use crate::table::{self, Section};

/// The half of 6 that is about a name.
const UNKNOWN: &str = "the entry is not one of this section";

/// Refusal 5.
pub fn heading(refused: &Refused) -> Option<Finding> {
    let (text, refusal) = (refused.text(), refused.refusal);
    let written = shown::lines_from(text, refusal.line)?.next()?;
    let sections = table::sections(refusal.file);
    let shown = shown::value(written);
    if let Some(first) = first_line(text, |line| line == written).filter(|at| *at < refusal.line) {
        return Some(
            Finding::cause(format!("{shown} stands at line {first} already"))
                .meaning("the heading stands here again")
                .advice(format!(
                    "move what belongs below it to line {first}, and take this heading out"
                )),
        );
    }
    let absent = table::absent_headings(&sections, text);
    let near = nearest(written, absent.iter().copied()).and_then(|heading| {
        let edit = refused.edit(Action::Replace(heading.as_bytes().to_vec()));
        Some((heading, refused.tried(edit)?))
    });
    let cause = match near {
        Some((heading, _)) => format!("no heading of this file is {shown}; `{heading}` is near"),
        None => format!(
            "no heading of this file is {shown}{}",
            home(written, &sections)
        ),
    };
    let mend = near.map(|(_, edit)| edit);
    Some(
        Finding::cause(cause)
            .meaning("the heading is not one of this file")
            .mend_or(mend, correct("heading", &absent)),
    )
}

/// What else is known of a heading that is none of this file.
fn home(written: &[u8], sections: &[Section]) -> String {
    if let [first, .., last] = table::axles_like(sections, written).as_slice() {
        return format!("; axles go from `{first}` to `{last}`");
    }
    let other = FILE_TYPES
        .iter()
        .find(|file| table::section(file.number, written).is_some());
    other.map_or(String::new(), |file| {
        format!("; it is one of {} ({})", file.title, file.ending)
    })
}

/// Refusal 6.
pub fn entry(refused: &Refused) -> Option<Finding> {
    let (text, refusal) = (refused.text(), refused.refusal);
    let (name, _) = refused.entry()?;
    let (start, heading) = table::heading_above(text, refusal.line)?;
    let section = table::section(refusal.file, heading)?;
    let is_one = section
        .entries
        .iter()
        .any(|entry| entry.name.as_bytes() == name);
    let finding = if is_one {
        let (first, _) = table::lines_below(text, start).find(|(_, line)| has_name(line, name))?;
        repeated(refused, first)
    } else {
        unknown(refused, start, &section)
    };
    Some(finding)
}

fn has_name(line: &[u8], name: &[u8]) -> bool {
    shown::entry(line).is_some_and(|(other, _)| other == name)
}

fn repeated(refused: &Refused, first: u32) -> Finding {
    let (text, line) = (refused.text(), refused.refusal.line);
    let at = |line: u32| shown::lines_from(text, line)?.next();
    let same = at(first) == at(line);
    let name = refused
        .entry()
        .map_or(String::new(), |(name, _)| shown::value(name));
    let is_empty = |line: u32| {
        let entry = at(line).and_then(shown::entry);
        entry.is_some_and(|(_, value)| value.is_empty())
    };
    let how = match () {
        () if same => "with the same value",
        () if is_empty(line) => "and here with nothing behind it",
        () if is_empty(first) => "with nothing behind it",
        () => "with another value",
    };
    let cause = format!("{name} stands at line {first} already, {how}");
    let mend = refused.tried(refused.edit(Action::Delete)).filter(|_| same);
    Finding::cause(cause)
        .meaning("the entry stands here again")
        .mend_or(
            mend,
            format!("find out which of lines {first} and {line} is right, and delete the other"),
        )
}

fn unknown(refused: &Refused, start: u32, section: &Section) -> Finding {
    let text = refused.text();
    let (name, value) = refused.entry().unwrap_or_default();
    let (shown, heading) = (shown::value(name), &section.heading);
    let stands = |other: &str| {
        let mut lines = table::lines_below(text, start);
        lines.any(|(_, line)| has_name(line, other.as_bytes()))
    };
    let names = section.entries.iter().map(|entry| entry.name.as_str());
    let absent: Vec<&str> = names.filter(|name| !stands(name)).collect();
    let near = nearest(name, absent.iter().copied());
    if let Some(near) = near.filter(|_| name.contains(&b'#')) {
        return marked(refused, section, near);
    }
    let mend = near.and_then(|near| renamed(refused, near, name, value));
    let cause = match (near, elsewhere(refused.refusal.file, name)) {
        _ if name.is_empty() => "no name stands before the `=`".to_string(),
        (Some(near), _) => {
            format!("no entry of `{heading}` has the name {shown}; `{near}` is near")
        }
        (None, Some(other)) => {
            format!("{shown} is no entry of `{heading}`; it is one of {other}")
        }
        (None, None) => format!("no entry of `{heading}` has the name {shown}"),
    };
    Finding::cause(cause)
        .meaning(UNKNOWN)
        .mend_or(mend, no_name_near(&absent))
}

/// A `#` in a name that is near. It may say that the value was entered by hand, so it is not for a program to take away.
fn marked(refused: &Refused, section: &Section, near: &str) -> Finding {
    let (file, line) = (refused.refusal.file, refused.refusal.line);
    let (name, value) = refused.entry().unwrap_or_default();
    let written = |value: &[u8]| {
        let text = [near.as_bytes(), b"=", value].concat();
        format!("write line {line} as {}", shown::value(&text))
    };
    let advice = match kind_of(file, section, near) {
        _ if value.is_empty() => format!("{}, and its value behind it if it has one", written(b"")),
        Some(kind) if kinds::may_be_by_hand(&kind) => {
            let bare = value.strip_prefix(b"#").unwrap_or(value);
            let by_hand = written(&[b"#", bare].concat());
            format!(
                "look up whether it was entered by hand; if so, {by_hand}, else without the `#`"
            )
        }
        _ => kinds::not_by_hand(&written(value)),
    };
    let cause = format!(
        "a `#` stands in the name {}; `{near}` is near",
        shown::value(name)
    );
    Finding::cause(cause).meaning(UNKNOWN).advice(advice)
}

fn kind_of(file: u32, section: &Section, name: &str) -> Option<Kind> {
    let mut entries = section.entries.iter();
    let entry = entries.find(|entry| entry.name == name)?;
    mctc::kind(file, u32::try_from(entry.number).ok()?).ok()
}

/// What to do about a name that no absent entry is near to.
fn no_name_near(absent: &[&str]) -> String {
    let name = correct("name", absent);
    format!("{name}, or move the line to its section; delete it if it belongs to none")
}

/// The advice to correct a name or a heading, with these to choose from.
fn correct(what: &str, absent: &[&str]) -> String {
    match absent {
        [one] => {
            format!("correct the {what} if `{one}` is meant, which is the only one absent here")
        }
        _ => format!("correct the {what}"),
    }
}

/// The line with the near name. Where spaces stood round `=`, the one behind it goes too.
fn renamed(refused: &Refused, near: &str, name: &[u8], value: &[u8]) -> Option<Edit> {
    let value = match name.ends_with(b" ") {
        true => value.strip_prefix(b" ").unwrap_or(value),
        false => value,
    };
    let line = [near.as_bytes(), b"=", value].concat();
    refused.tried(refused.edit(Action::Replace(line)))
}

/// Another section of the file, or else another file, that has an entry of this name.
fn elsewhere(file: u32, name: &[u8]) -> Option<String> {
    let has = |section: &Section| {
        let mut entries = section.entries.iter();
        entries.any(|entry| entry.name.as_bytes() == name)
    };
    let section = table::sections(file).into_iter().find(has);
    let section = section.map(|section| format!("`{}`", section.heading));
    section.or_else(|| {
        let mut files = FILE_TYPES.iter();
        let file = files.find(|file| table::sections(file.number).iter().any(has))?;
        Some(format!("{} ({})", file.title, file.ending))
    })
}

/// The first line that is such a one.
fn first_line(text: &[u8], is: impl Fn(&[u8]) -> bool) -> Option<u32> {
    let mut lines = (1..).zip(shown::lines_from(text, 1)?);
    lines.find(|(_, line)| is(line)).map(|(number, _)| number)
}
