//! The vectors: calls with their right answers. The first line of each file says its columns.

use crate::hex::from_hex;
use crate::judge::{make, Call, Judge, Outcome, ANSWER, OUTPUT_BEFORE};
use crate::replay::{
    inputs_from_text, number_from_text, numbers_from_text, set_from_text, to_text,
    writing_from_text,
};

/// A call, and all that it must give back or leave behind.
type Right = (Call, Outcome);

/// One line's columns as its calls: one, or a quote and the commit after it.
type Parse = fn(&[&str]) -> Result<Vec<Right>, String>;

/// A file of vectors: its name, its text and its parser.
type File = (&'static str, &'static str, Parse);

macro_rules! vectors_in {
    ($name:literal, $parse:expr) => {
        ($name, include_str!(concat!("../vectors/", $name)), $parse)
    };
}

/// Those after 02, 9/14, which landed last, and those after 8/14, 7/14, 5/14, 4/14, 3/14 and 2/14: all quotes with their
/// commits, joinings, files read alone and writings, and the sets that hold on. In the accepted ones of these, number 10 was
/// put in for 4/14, and 11 to 14 for 5/14; in all places of these, the third numbers for 7/14.
const FILES: [File; 11] = [
    vectors_in!("02/9/commits.txt", commit_vector),
    vectors_in!("02/8/joins.txt", join_vector),
    vectors_in!("02/7/sets.txt", set_vector),
    vectors_in!("02/7/reads.txt", read_vector),
    vectors_in!("02/7/writes.txt", write_vector),
    vectors_in!("02/5/sets.txt", set_vector),
    vectors_in!("02/4/sets.txt", set_vector),
    vectors_in!("02/3/sets.txt", set_vector),
    vectors_in!("02/2/sets.txt", set_vector),
    vectors_in!("02/2/reads.txt", read_vector),
    vectors_in!("02/2/writes.txt", write_vector),
];

/// What places hold before in the vectors.
const PLACE_BEFORE: u32 = 7;

/// A line of the vectors.
pub struct Vector {
    /// Its file and its number there.
    pub source: String,
    /// Made one after the other.
    pub calls: Vec<Right>,
}

/// All numbers of the answer.
fn answer(text: &str) -> Result<Vec<u32>, String> {
    let answer = numbers_from_text(text)?;
    if answer.len() == ANSWER {
        Ok(answer)
    } else {
        Err(format!("not {ANSWER} numbers: {text}"))
    }
}

fn outcome(answer: Vec<u32>, places: Vec<u32>, output: Vec<u8>) -> Outcome {
    Outcome {
        returned: answer[0],
        answer,
        places,
        output,
        ..Outcome::default()
    }
}

fn lent(text: &str) -> Result<Vec<u32>, String> {
    Ok(vec![PLACE_BEFORE; number_from_text(text)? as usize])
}

fn set_vector(columns: &[&str]) -> Result<Vec<Right>, String> {
    let [set, places, right, places_after] = columns else {
        return Err("not four columns".to_string());
    };
    let call = Call::Judge {
        set: set_from_text(set)?,
        places: lent(places)?,
    };
    let right = outcome(answer(right)?, numbers_from_text(places_after)?, Vec::new());
    Ok(vec![(call, right)])
}

fn read_vector(columns: &[&str]) -> Result<Vec<Right>, String> {
    let [file_and_text, places, right, places_after] = columns else {
        return Err("not four columns".to_string());
    };
    let (file, text) = file_and_text.split_once(' ').ok_or("no text")?;
    let call = Call::Read {
        file: number_from_text(file)?,
        text: from_hex(text)?,
        places: lent(places)?,
    };
    let right = outcome(answer(right)?, numbers_from_text(places_after)?, Vec::new());
    Ok(vec![(call, right)])
}

/// The output before and after a call.
fn outputs(size: &str, after: &str) -> Result<[Vec<u8>; 2], String> {
    let before = vec![OUTPUT_BEFORE; number_from_text(size)? as usize];
    let mut after = from_hex(after)?;
    after.resize(before.len(), OUTPUT_BEFORE);
    Ok([before, after])
}

fn write_vector(columns: &[&str]) -> Result<Vec<Right>, String> {
    let [what, places, size, right, output_after] = columns else {
        return Err("not five columns".to_string());
    };
    let (text, file, axles) = writing_from_text(what)?;
    let places = numbers_from_text(places)?;
    let [output, after] = outputs(size, output_after)?;
    let right = outcome(answer(right)?, places.clone(), after);
    let call = Call::Write {
        text,
        places,
        file,
        axles,
        output,
    };
    Ok(vec![(call, right)])
}

fn commit_vector(columns: &[&str]) -> Result<Vec<Right>, String> {
    let [what, places, quoted, length, size, committed, output_after] = columns else {
        return Err("not seven columns".to_string());
    };
    let (text, file, axles) = writing_from_text(what)?;
    let places = numbers_from_text(places)?;
    let [output, after] = outputs(size, output_after)?;
    let quoted = outcome(answer(quoted)?, places.clone(), Vec::new());
    let quote = Call::Quote {
        text: text.clone(),
        places: places.clone(),
        file,
        axles,
    };
    let committed = outcome(answer(committed)?, places.clone(), after);
    let commit = Call::Commit {
        text,
        places,
        file,
        axles,
        length: number_from_text(length)?,
        output,
    };
    Ok(vec![(quote, quoted), (commit, committed)])
}

fn join_vector(columns: &[&str]) -> Result<Vec<Right>, String> {
    let [inputs, size, right, output_after] = columns else {
        return Err("not four columns".to_string());
    };
    let [first, second] = inputs_from_text(inputs)?;
    let [output, after] = outputs(size, output_after)?;
    let right = outcome(answer(right)?, Vec::new(), after);
    let call = Call::Join {
        first,
        second,
        output,
    };
    Ok(vec![(call, right)])
}

/// All vectors of all files.
pub fn vectors() -> Vec<Vector> {
    let mut vectors = Vec::new();
    for (name, text, parse) in FILES {
        for (at, line) in text.lines().enumerate() {
            if line.starts_with('#') || line.is_empty() {
                continue;
            }
            let source = format!("{name}, line {}", at + 1);
            let columns: Vec<&str> = line.split('|').map(str::trim).collect();
            let calls = parse(&columns).unwrap_or_else(|e| panic!("{source}: {e}"));
            vectors.push(Vector { source, calls });
        }
    }
    vectors
}

/// Makes every call of the vectors; the number of their lines, or a description of the first difference.
pub fn run_vectors(judge: &dyn Judge) -> Result<usize, String> {
    let vectors = vectors();
    for Vector { source, calls } in &vectors {
        for (call, right) in calls {
            let outcome = make(judge, call);
            if outcome != *right {
                return Err(format!(
                    "vector {source}\nright: {right:?}\n{}: {outcome:?}\n{}",
                    judge.name(),
                    to_text(call)
                ));
            }
        }
    }
    Ok(vectors.len())
}
