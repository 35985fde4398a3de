//! `mctc join FIRST SECOND`: two drift files made one.

use std::path::{Path, PathBuf};

use mctc::Refusal;

use crate::json::Object;
use crate::new_file::write_new;
use crate::out_of_date::{self, OUT_OF_DATE};
use crate::output::{say, Output, Status, Trouble};
use crate::pair::{about_joining, joined, Pair};
use crate::shown::{self, counted, length};
use crate::trial_set::TrialSet;

pub fn run(
    files: &[PathBuf; 2],
    new: Option<&Path>,
    json: bool,
    out: &mut Output,
) -> Result<Status, Trouble> {
    let outcome = Outcome::of(files, new);
    if let (Err(trouble), true) = (&outcome, json) {
        let [first, second] = files.each_ref().map(shown::name);
        let object = named([&first, &second]).string("error", &trouble.0);
        out.text(&(object.text() + "\n"))?;
    }
    let outcome = outcome?;
    match json {
        true => out.text(&(outcome.json().text() + "\n"))?,
        false => outcome.print(out)?,
    }
    Ok(outcome.status())
}

/// What came of two files: the text of the joined one, which stands in the new file where there is one, or the refusal.
struct Outcome<'a> {
    pair: Pair,
    new: Option<&'a Path>,
    joined: Result<Vec<u8>, Refusal>,
}

impl<'a> Outcome<'a> {
    fn of(files: &[PathBuf; 2], new: Option<&'a Path>) -> Result<Outcome<'a>, Trouble> {
        let pair = Pair::read(files.each_ref().map(PathBuf::as_path))?;
        let joined = pair.joined();
        if let (Ok(text), Some(new)) = (&joined, new) {
            write_new(new, text)?;
        }
        Ok(Outcome { pair, new, joined })
    }

    fn status(&self) -> Status {
        Status::of(&self.joined)
    }

    fn print(&self, out: &mut Output) -> Result<(), Trouble> {
        match (&self.joined, self.new) {
            // Standard output is for the file alone.
            (Err(refusal), _) => say(&self.pair.refused(*refusal).page()),
            (Ok(text), None) => out.bytes(text)?,
            (Ok(text), Some(path)) => out.text(&written(path, text, &self.pair))?,
        }
        for note in self.notes() {
            say(&format!("mctc: note: {note}\n"));
        }
        Ok(())
    }

    /// One object; the same members for acceptance and refusal.
    fn json(&self) -> Object {
        let refused = self.joined.as_ref().err();
        let refused = refused.map(|refusal| self.pair.refused(*refusal));
        let object = about_joining(named(self.pair.names()), refused.as_ref());
        let text = self.joined.as_deref().unwrap_or_default();
        let new = self.new.filter(|_| refused.is_none()).map(shown::name);
        let [one, other] = self.pair.axles();
        let all = match refused {
            None => one + other,
            Some(_) => 0,
        };
        let [first, second, all] = [one, other, all].map(|count| count as u64);
        let notes = self.notes();
        object
            .optional("new", new.as_deref())
            .number("length", text.len() as u64)
            .number("first_axles", first)
            .number("second_axles", second)
            .number("axles", all)
            .strings("notes", notes.iter().map(String::as_str))
    }

    /// What is to be noted of a joined file. How it is judged in a set, the library says.
    fn notes(&self) -> Vec<String> {
        let Ok(text) = &self.joined else {
            return Vec::new();
        };
        let pair = &self.pair;
        let notes = [same(pair), out_of_date(text), over_midnight(pair, text)];
        notes.into_iter().flatten().collect()
    }
}

/// An object with the names of both files.
fn named([first, second]: [&str; 2]) -> Object {
    Object::default()
        .string("first", first)
        .string("second", second)
}

fn written(path: &Path, text: &[u8], pair: &Pair) -> String {
    let (name, bytes) = (shown::name(path), text.len());
    let ([first, second], [one, other]) = (pair.names(), pair.axles());
    let all = counted(one + other, "axle");
    format!("{name}: joined, {bytes} bytes, {all}: {one} of {first}, then {other} of {second}\n")
}

fn same(pair: &Pair) -> Option<String> {
    let ([first, second], [one, other]) = (pair.names(), pair.texts());
    let how = match one == other {
        true => "are the same, byte for byte",
        false if pair.has_same_values() => "have the same values, on other lines",
        false => return None,
    };
    Some(format!(
        "{first} and {second} {how}: see that the two were not measured on the same axles"
    ))
}

fn out_of_date(text: &[u8]) -> Option<String> {
    let set = TrialSet::new(text.to_vec());
    let cause = out_of_date::finding(&set.out_of_date()?)?.cause?;
    Some(format!(
        "in a set the joined file is refused with {OUT_OF_DATE} (the lines are its own): {cause}"
    ))
}

/// How long a measure over midnight lasts, and that it is shorter with the files exchanged.
fn over_midnight(pair: &Pair, text: &[u8]) -> Option<String> {
    let set = TrialSet::new(text.to_vec()).in_date()?;
    if !set.is_over_midnight() {
        return None;
    }
    let lasted = set.seconds()?;
    let ([first, second], [one, other]) = (pair.names(), pair.texts());
    let exchanged = TrialSet::new(joined(other, one).ok()?).in_date();
    let shorter = exchanged.and_then(|set| set.seconds());
    let shorter = shorter.filter(|shorter| *shorter < lasted);
    let hint = shorter.map_or(String::new(), |shorter| {
        let shorter = length(shorter);
        format!("; {second} before {first} gives {shorter}: see which was measured first")
    });
    let lasted = length(lasted);
    Some(format!(
        "the measure of the joined file lasts {lasted}, over midnight{hint}"
    ))
}
