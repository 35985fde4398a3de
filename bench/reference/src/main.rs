//! Makes the sets of the benchmark, and measures the Rust implementation on one of them.
//!
//! - `bench-reference make FOLDER`: writes each set to a folder of its own in FOLDER and prints its name.
//! - `bench-reference check SET`: prints the answers with a sum over the places and one over each output, as
//!   `bench check SET` does.
//! - `bench-reference time WHAT SET`: prints the nanoseconds of one call, the least of several averages.
//! - `bench-reference count WHAT SET`: makes one call as warm-up, then one in `measured`, for callgrind.
//!
//! WHAT is `judge`, the whole set, `read-gas` or `read-opacity`, that file alone, `join`, the drift file joined with
//! itself, or `write-` with the name of a file, which was read, written.

mod sets;

use std::fs;
use std::hint::black_box;
use std::path::Path;
use std::process::ExitCode;
use std::time::Instant;

use outside::judge::{Outcome, Reference, Set};
use outside::reference::joining;
use outside::reference::judging::{judge_set, read_alone};
use outside::reference::tables::{DRIFT, FILES, GAS, OPACITY};
use outside::reference::writing::write_file;
use outside::reference::PLACES;

/// The files of a set's folder, in the order of the slices.
const NAMES: [&str; 7] = [
    "ac2",
    "acc",
    "drift",
    "suspension",
    "gas",
    "identification",
    "opacity",
];

/// Longer than any joined file; as in bench.c.
const JOINED_ROOM: usize = 2000;

/// Longer than any written file; as in bench.c.
const WRITTEN_ROOM: usize = 4000;

const ROUNDS: usize = 20;
const ROUND_NANOSECONDS: f64 = 10_000_000.0;

fn main() -> ExitCode {
    let words: Vec<String> = std::env::args().skip(1).collect();
    let words: Vec<&str> = words.iter().map(String::as_str).collect();
    let done = match words.as_slice() {
        ["make", folder] => make(Path::new(folder)),
        ["check", folder] => load(Path::new(folder)).map(|set| check(&set)),
        ["time", what, folder] => prepare(what, folder).map(print_time),
        ["count", what, folder] => prepare(what, folder).map(count),
        _ => Err("usage: make FOLDER | check SET | time WHAT SET | count WHAT SET".to_string()),
    };
    match done {
        Ok(()) => ExitCode::SUCCESS,
        Err(message) => {
            eprintln!("bench-reference: {message}");
            ExitCode::FAILURE
        }
    }
}

fn make(folder: &Path) -> Result<(), String> {
    for named in sets::all() {
        let place = folder.join(&named.name);
        fs::create_dir_all(&place).map_err(|error| error.to_string())?;
        let write = |name: &str, bytes: &[u8]| {
            fs::write(place.join(name), bytes).map_err(|error| format!("{name}: {error}"))
        };
        write("stem", &named.set.stem)?;
        for (name, slice) in NAMES.iter().zip(&named.set.slices) {
            write(name, slice)?;
        }
        write("wanted", format!("{}\n", named.wanted).as_bytes())?;
        println!("{}", named.name);
    }
    Ok(())
}

fn load(folder: &Path) -> Result<Set, String> {
    let read = |name: &str| fs::read(folder.join(name)).map_err(|error| format!("{name}: {error}"));
    let mut set = Set {
        stem: read("stem")?,
        ..Set::default()
    };
    for (name, slice) in NAMES.iter().zip(&mut set.slices) {
        *slice = read(name)?;
    }
    Ok(set)
}

fn check(set: &Set) {
    let judged = Reference.judge(set);
    let places = sum(judged.places.iter().copied());
    let drift = set.slice(DRIFT);
    let call = outside::judge::Call::Join {
        first: drift.to_vec(),
        second: drift.to_vec(),
        output: vec![0; JOINED_ROOM],
    };
    let joined = outside::judge::make(&Reference, &call);
    let output = sum(joined.output.iter().map(|byte| u32::from(*byte)));
    let (judged, joined) = (numbers(&judged), numbers(&joined));
    let written = FILES.map(|file| written(file, set.slice(file))).join(" ");
    println!("{judged} {places} {joined} {output} {written}");
}

/// What writing a file gives that was read, and a sum over the output.
fn written(file: u32, text: &[u8]) -> String {
    let read = outside::judge::Call::Read {
        file,
        text: text.to_vec(),
        places: vec![0; PLACES],
    };
    let read = outside::judge::make(&Reference, &read);
    let write = outside::judge::Call::Write {
        text: text.to_vec(),
        places: read.places,
        file,
        axles: read.answer[3],
        output: vec![0; WRITTEN_ROOM],
    };
    let written = outside::judge::make(&Reference, &write);
    let output = sum(written.output.iter().map(|byte| u32::from(*byte)));
    format!("{} {output}", numbers(&written))
}

fn numbers(outcome: &Outcome) -> String {
    let numbers = outcome.answer.iter().map(u32::to_string);
    numbers.collect::<Vec<_>>().join(" ")
}

fn sum(numbers: impl Iterator<Item = u32>) -> u32 {
    numbers.fold(0, |sum: u32, number| {
        sum.wrapping_mul(31).wrapping_add(number)
    })
}

/// What a call is lent.
pub struct Lent {
    set: Set,
    places: [u32; PLACES],
    /// The file that is written, and its axles.
    file: u32,
    axles: u32,
    output: [u8; WRITTEN_ROOM],
}

type Call = fn(&mut Lent);

fn prepare(what: &str, folder: &str) -> Result<(Call, Lent), String> {
    let mut lent = Lent {
        set: load(Path::new(folder))?,
        places: [0; PLACES],
        file: 0,
        axles: 0,
        output: [0; WRITTEN_ROOM],
    };
    let call: Call = match what {
        "judge" => judge,
        "read-gas" => |lent| read(GAS, lent),
        "read-opacity" => |lent| read(OPACITY, lent),
        "join" => join,
        _ => {
            let file = what.strip_prefix("write-").and_then(file_named);
            lent.file = file.ok_or_else(|| format!("nothing to measure: {what}"))?;
            let read = read_alone(lent.file, lent.set.slice(lent.file), &mut lent.places);
            lent.axles = read
                .map_err(|_| format!("{what}: it cannot be read"))?
                .axles;
            write
        }
    };
    Ok((call, lent))
}

/// A file that can be written, by its name in the set's folder.
fn file_named(name: &str) -> Option<u32> {
    let mut files = FILES.into_iter();
    files.find(|file| NAMES[*file as usize - 1] == name)
}

fn judge(lent: &mut Lent) {
    let _ = black_box(judge_set(lent.set.as_slices(), &mut lent.places));
}

fn read(file: u32, lent: &mut Lent) {
    let _ = black_box(read_alone(file, lent.set.slice(file), &mut lent.places));
}

/// No places are lent.
fn join(lent: &mut Lent) {
    let (drift, mut output) = (lent.set.slice(DRIFT), [0; JOINED_ROOM]);
    let _ = black_box(joining::join(drift, drift, &mut output));
    black_box(output);
}

fn write(lent: &mut Lent) {
    let Lent { file, axles, .. } = *lent;
    let text = lent.set.slice(file);
    let _ = black_box(write_file(
        text,
        &lent.places,
        file,
        axles,
        &mut lent.output,
    ));
}

/// callgrind counts from the entry of this function to its return.
#[no_mangle]
#[inline(never)]
pub fn measured(call: Call, lent: &mut Lent) {
    call(lent);
    black_box(lent);
}

fn count((call, mut lent): (Call, Lent)) {
    call(&mut lent);
    measured(call, &mut lent);
}

fn average(call: Call, lent: &mut Lent, repetitions: u32) -> f64 {
    let start = Instant::now();
    for _ in 0..repetitions {
        measured(call, lent);
    }
    start.elapsed().as_nanos() as f64 / f64::from(repetitions)
}

fn print_time((call, mut lent): (Call, Lent)) {
    let mut repetitions = 1;
    while average(call, &mut lent, repetitions) * f64::from(repetitions) < ROUND_NANOSECONDS {
        repetitions *= 2;
    }
    let least = (0..ROUNDS)
        .map(|_| average(call, &mut lent, repetitions))
        .fold(f64::INFINITY, f64::min);
    println!("{least:.0}");
}
