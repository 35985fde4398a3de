//! Test runner: vectors, then generated calls, by a judge and by the reference.
//!
//! - `outside`: all. - `outside vectors`: the vectors only.
//! - `outside replay <file>`: makes the calls in a file, one a line as printed at a
//!   difference, and prints both outcomes.
//! - `outside look-ups`: prints how many names look-ups try, and how many of these length and first byte tell apart.
//!
//! With the feature `library` the judge is the C static library, else the reference itself.
//! DICEPEACH_RUNS multiplies the number of generated calls.

use std::process::ExitCode;
use std::time::Instant;

use outside::comparison;
use outside::judge::{make, Judge, Reference};
use outside::replay;
use outside::told_apart;
use outside::vectors::run_vectors;

#[cfg(feature = "library")]
fn subject() -> Box<dyn Judge> {
    Box::new(outside::library::Library)
}

#[cfg(not(feature = "library"))]
fn subject() -> Box<dyn Judge> {
    Box::new(Reference)
}

fn main() -> ExitCode {
    let words: Vec<String> = std::env::args().skip(1).collect();
    let words: Vec<&str> = words.iter().map(String::as_str).collect();
    let result = match words.as_slice() {
        [] => run_all(),
        ["vectors"] => run_only_vectors(),
        ["replay", file] => replay_file(file),
        ["look-ups"] => {
            told_apart::print();
            Ok(())
        }
        _ => Err("usage: outside [vectors | replay <file> | look-ups]".to_string()),
    };
    match result {
        Ok(()) => ExitCode::SUCCESS,
        Err(message) => {
            eprintln!("{message}");
            ExitCode::FAILURE
        }
    }
}

fn runs() -> Result<u64, String> {
    match std::env::var("DICEPEACH_RUNS") {
        Err(_) => Ok(1),
        Ok(text) => match text.parse() {
            Ok(runs) if runs >= 1 => Ok(runs),
            _ => Err(format!("DICEPEACH_RUNS is no number from 1 on: {text}")),
        },
    }
}

fn run_only_vectors() -> Result<(), String> {
    let subject = subject();
    let count = run_vectors(subject.as_ref())?;
    println!("{}: agrees with {count} vectors", subject.name());
    Ok(())
}

fn run_all() -> Result<(), String> {
    let runs = runs()?;
    let start = Instant::now();
    run_only_vectors()?;
    let subject = subject();
    let amounts = comparison::ONE_RUN.times(runs);
    let report = comparison::run_of(subject.as_ref(), amounts)?;
    println!(
        "{}: agrees with the reference on {} sets, {} files read alone, {} writings, {} quotes and commits, {} due columns, {} joinings, {} names and headings, {} kinds and words",
        subject.name(),
        amounts.sets,
        amounts.reads,
        amounts.writes,
        report.quotes_and_commits(),
        amounts.columns,
        amounts.joinings,
        report.names(),
        report.kinds()
    );
    report.print();
    println!("seconds: {:.1}", start.elapsed().as_secs_f64());
    let missing = report.missing();
    if missing.is_empty() {
        Ok(())
    } else {
        Err(missing.join("\n"))
    }
}

fn replay_file(file: &str) -> Result<(), String> {
    let subject = subject();
    let text = std::fs::read_to_string(file).map_err(|error| format!("{file}: {error}"))?;
    let mut same = true;
    for line in text.lines().filter(|line| !line.trim().is_empty()) {
        let call = replay::from_text(line)?;
        let right = make(&Reference, &call);
        let found = make(subject.as_ref(), &call);
        println!("{}: {right:?}", Reference.name());
        println!("{}: {found:?}", subject.name());
        same &= right == found;
    }
    if same {
        Ok(())
    } else {
        Err("the outcomes differ".to_string())
    }
}
