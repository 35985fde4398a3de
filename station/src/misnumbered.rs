//! Axles that stand in a file and are not numbered from 1 without a gap (refusal 7): none may be missing, and their
//! numbers may be wrong. Those of a second drift file may be numbered on already, which joining does.

use crate::case::Refused;
use crate::edit::{Action, Edit};
use crate::explain::{Presence, Subject};
use crate::finding::Finding;
use crate::shown::listed;
use crate::table;

/// A heading of an axle, and the one that it has where the axles are numbered from 1.
struct Axle<'a> {
    line: u32,
    heading: &'a str,
    right: &'a str,
}

/// What is found out where higher axles stand than the one that is missing. `axles` are the headings of all axles, and
/// `add` is the advice to add the missing one.
pub fn finding(
    refused: &Refused,
    subject: Option<&Subject>,
    missing: &str,
    axles: &[&str],
    add: &str,
) -> Option<Finding> {
    let misnumbered = misnumbered(axles, refused.text());
    refused.tried(renumbered(refused, &misnumbered))?;
    let found: Vec<String> = misnumbered.iter().map(Axle::words).collect();
    let verb = if found.len() == 1 { "stands" } else { "stand" };
    let found = format!("{} {verb} here, and no `{missing}`", listed(&found, "and"));
    let right: Vec<String> = misnumbered.iter().map(Axle::written_right).collect();
    let write = format!("write {}", listed(&right, "and"));
    let is_input = subject.is_some_and(|subject| matches!(subject.presence, Presence::Input(_)));
    Some(match is_input {
        true => Finding::cause(format!(
            "{found}; the axles of each file are numbered from 1, and joining numbers on those of the second"
        ))
        .advice(format!(
            "if all axles of this file stand here, {write}; only if a measured one is missing, {add}"
        )),
        // With other numbers nothing would show any more that one is missing.
        false => Finding::cause(format!(
            "{found}; axles are numbered from 1 without a gap"
        ))
        .advice(format!(
            "if a measured axle is missing here, {add}; only if none is, the axles are numbered wrongly: {write}"
        )),
    })
}

/// The axles of a text whose numbers are not those that count from 1, by number.
fn misnumbered<'a>(axles: &[&'a str], text: &[u8]) -> Vec<Axle<'a>> {
    let standing = axles.iter().filter_map(|heading| {
        let line = table::line_of_heading(text, heading)?;
        Some((line, *heading))
    });
    let numbered = standing.zip(axles);
    let axles = numbered.map(|((line, heading), right)| Axle {
        line,
        heading,
        right,
    });
    axles.filter(|axle| axle.heading != axle.right).collect()
}

/// The file with these axles numbered from 1.
fn renumbered(refused: &Refused, misnumbered: &[Axle]) -> Edit {
    let file = refused.refusal.file;
    let text = misnumbered
        .iter()
        .fold(refused.text().to_vec(), |text, axle| {
            axle.edit(file).apply(&text)
        });
    Edit {
        file,
        line: 0,
        action: Action::Content(text),
    }
}

impl Axle<'_> {
    fn edit(&self, file: u32) -> Edit {
        Edit {
            file,
            line: self.line,
            action: Action::Replace(self.right.as_bytes().to_vec()),
        }
    }

    fn words(&self) -> String {
        format!("`{}` (line {})", self.heading, self.line)
    }

    fn written_right(&self) -> String {
        format!("line {} as `{}`", self.line, self.right)
    }
}
