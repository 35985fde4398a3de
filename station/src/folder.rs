//! `mctc judge FOLDER`: every set of a folder judged.

use std::path::Path;

use crate::disk::{stem_shown, Folder};
use crate::file_types::endings;
use crate::json::Object;
use crate::judge::{not_judged_json, Judged, Wish};
use crate::output::{Output, Status, Trouble};
use crate::progress::Progress;
use crate::shown::{self, counted, names_compared};

pub fn run(path: &Path, wish: Wish, out: &mut Output) -> Result<Status, Trouble> {
    let Wish { json, all } = wish;
    let name = shown::name(path);
    let start = Object::default().string("folder", &name);
    match Folder::list(path).and_then(|folder| with_sets(folder, &name)) {
        Ok(folder) if json => {
            out.text(&format!("{{{},\"sets\":[", start.members()))?;
            let counts = judge_all(&folder, all, out, one_object)?;
            out.text(&format!("],{}}}\n", counts.members()))?;
            Ok(counts.worst)
        }
        Ok(folder) => {
            let counts = judge_all(&folder, all, out, one_line)?;
            out.text(&counts.line())?;
            Ok(counts.worst)
        }
        Err(trouble) => {
            if json {
                out.text(&(start.string("error", &trouble.0).text() + "\n"))?;
            }
            Err(trouble)
        }
    }
}

/// A folder without a set is most likely not the one that was meant.
fn with_sets(folder: Folder, name: &str) -> Result<Folder, Trouble> {
    if folder.stems().len() > 0 {
        return Ok(folder);
    }
    Err(Trouble(format!(
        "{name}: no file here ends in {}; name the folder of the sets",
        endings()
    )))
}

/// What is printed of a set, with how many were printed before it.
type Text = fn(&[u8], &Result<Judged, Trouble>, usize) -> String;

fn judge_all(folder: &Folder, all: bool, out: &mut Output, text: Text) -> Result<Counts, Trouble> {
    let mut counts = Counts::default();
    let mut progress = Progress::new(folder.stems().len());
    for (before, stem) in folder.stems().enumerate() {
        let judged = folder.set(stem).map(|set| Judged::new(set, all));
        counts.add(&judged);
        progress.print(&text(stem, &judged, before), out)?;
    }
    progress.end(out)?;
    Ok(counts)
}

fn one_line(stem: &[u8], judged: &Result<Judged, Trouble>, _before: usize) -> String {
    let stem = match stem {
        [] => "(none)".to_string(),
        stem => stem_shown(stem),
    };
    match judged {
        Ok(judged) => format!(
            "{stem:8}  {}\n{}",
            judged.in_short(),
            judged.further_in_short()
        ),
        Err(trouble) => format!("{stem:8}  not judged  {}\n", trouble.0),
    }
}

fn one_object(stem: &[u8], judged: &Result<Judged, Trouble>, before: usize) -> String {
    let object = match judged {
        Ok(judged) => judged.json(),
        Err(trouble) => not_judged_json(stem, trouble),
    };
    let comma = if before > 0 { "," } else { "" };
    format!("{comma}{object}")
}

/// How many sets ended in which way, and the names compared in those that were accepted.
#[derive(Default)]
struct Counts {
    accepted: u64,
    refused: u64,
    not_judged: u64,
    names_compared: u64,
    worst: Status,
}

impl Counts {
    fn add(&mut self, judged: &Result<Judged, Trouble>) {
        let status = judged.as_ref().map_or(Status::Trouble, Judged::status);
        *match status {
            Status::Accepted => &mut self.accepted,
            Status::Refused => &mut self.refused,
            Status::Trouble => &mut self.not_judged,
        } += 1;
        let compared = judged.as_ref().map_or(0, Judged::names_compared);
        self.names_compared += u64::from(compared);
        self.worst = self.worst.max(status);
    }

    fn line(&self) -> String {
        let sets = (self.accepted + self.refused + self.not_judged) as usize;
        let look_ups = if self.accepted > 0 {
            format!("; {} in accepted sets", names_compared(self.names_compared))
        } else {
            String::new()
        };
        format!(
            "{}: {} accepted, {} refused, {} not judged{look_ups}\n",
            counted(sets, "set"),
            self.accepted,
            self.refused,
            self.not_judged
        )
    }

    fn members(&self) -> String {
        Object::default()
            .number("accepted", self.accepted)
            .number("refused", self.refused)
            .number("not_judged", self.not_judged)
            .number("names_compared", self.names_compared)
            .members()
    }
}
