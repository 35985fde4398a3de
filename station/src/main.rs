//! The station program: judges MCTCNet2 test sets that stand in a folder, shows what is due, reads, formats and joins
//! files.
//!
//! It decides nothing itself: every verdict is the library's. "01" is document 01, "MCTCNet2 test sets: booking, drift,
//! suspension and gas"; "02" is the change requests to it, "001" the ministry's text that both go by.

#![forbid(unsafe_code)]

mod absent;
mod arguments;
mod booking_tables;
mod candidates;
mod case;
mod columns;
mod disk;
mod due;
mod edit;
mod entries;
mod explain;
mod file_types;
mod finding;
mod folder;
mod format;
mod fuels;
mod further;
mod help;
mod identification;
mod join;
mod json;
mod judge;
mod kinds;
mod line_ends;
mod line_form;
mod made_up;
mod measure;
mod measure_tables;
mod misnamed;
mod misnumbered;
mod near;
mod new_file;
mod not_as_due;
mod other_type;
mod out_of_date;
mod output;
mod page;
mod pair;
mod placed;
mod progress;
mod read;
mod reasons;
mod rulebook;
mod rules;
mod shown;
mod table;
mod trial_set;
mod unknown_day;
mod words;
mod wrong_value;

use std::process::ExitCode;

use arguments::Command;
use output::{Output, Status, Trouble};

fn main() -> ExitCode {
    let words: Vec<_> = std::env::args_os().skip(1).collect();
    let status = arguments::parse(&words).and_then(run);
    let status = status.unwrap_or_else(|trouble| {
        trouble.print();
        Status::Trouble
    });
    ExitCode::from(status.code())
}

fn run(command: Command) -> Result<Status, Trouble> {
    let mut out = Output::standard();
    let status = match &command {
        Command::Print(text) => out.text(text).map(|()| Status::Accepted),
        Command::JudgeSet { folder, stem, wish } => judge::run(folder, stem, *wish, &mut out),
        Command::JudgeFolder { folder, wish } => folder::run(folder, *wish, &mut out),
        Command::Due { folder, stem, wish } => due::run(folder, stem, *wish, &mut out),
        Command::Explain(page) => out.text(page).map(|()| Status::Accepted),
        Command::Rules => out.text(&rulebook::text()).map(|()| Status::Accepted),
        Command::Read { input, json } => read::run(input, *json, &mut out),
        Command::Format { input, wish, json } => format::run(input, wish, *json, &mut out),
        Command::Mend { path, new } => format::mend(path, new.as_deref(), &mut out),
        Command::Join { files, new, json } => join::run(files, new.as_deref(), *json, &mut out),
    }?;
    out.finish()?;
    Ok(status)
}
