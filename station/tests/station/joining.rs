//! Two drift files joined (02, 8/14): the joined file against the stored one, in any order of lines, what is refused and
//! where the advice leads, and the joined file in a set.

use std::fs;
use std::path::Path;

use crate::common::{empty_folder, put, put_set, repository, run, Folder};
use crate::transcripts::check;
use outside::hex::from_hex;

const ACCEPTED: [&str; 2] = [
    "samples/joining/accepted/first.DER",
    "samples/joining/accepted/second.DER",
];
const DISAGREEING: [&str; 2] = [
    "samples/joining/refused-20/first.DER",
    "samples/joining/refused-20/second.DER",
];
const JOINED: &str = "samples/accepted-joined/AH117044.DER";

fn sample(name: &str) -> String {
    fs::read_to_string(repository().join(name)).expect("a sample")
}

/// What `mctc join` writes.
fn joined(folder: &Path, files: [&str; 2]) -> String {
    let [first, second] = files;
    let output = run(folder, &["join", first, second]);
    assert_eq!(output.status.code(), Some(0), "{files:?}");
    String::from_utf8(output.stdout).expect("a text")
}

/// A text with this instead of that, which stands there.
fn with(text: &str, old: &str, new: &str) -> String {
    assert!(text.contains(old), "{old}");
    text.replace(old, new)
}

#[test]
fn the_joined_file_is_the_stored_one() {
    let right = sample(JOINED);
    assert_eq!(joined(&repository(), ACCEPTED), right);

    let folder = empty_folder("joined");
    let new = folder.join("AH117044.DER");
    let words = ["join", ACCEPTED[0], ACCEPTED[1], "--output"].map(Path::new);
    let output = run(&repository(), &[&words[..], &[&new]].concat());
    assert_eq!(output.status.code(), Some(0));
    assert_eq!(fs::read_to_string(new).expect("the new file"), right);
}

/// The lines of a drift file with its sections, and the entries of each, the other way round.
fn reversed(text: &str) -> String {
    let mut sections: Vec<Vec<&str>> = Vec::new();
    for line in text.split_inclusive("\r\n") {
        match sections.last_mut() {
            Some(section) if !line.starts_with('[') => section.insert(1, line),
            _ => sections.push(vec![line]),
        }
    }
    sections.into_iter().rev().flatten().collect()
}

#[test]
fn any_order_of_lines_gives_the_same_bytes() {
    let folder = empty_folder("orders");
    for (name, file) in ["first", "second"].into_iter().zip(ACCEPTED) {
        let text = sample(file);
        assert_ne!(reversed(&text), text);
        put(folder.join(name), reversed(&text));
    }
    assert_eq!(joined(&folder, ["first", "second"]), sample(JOINED));
}

/// A vector: both files, the number, file and line of the right answer, and the joined file where it is accepted.
struct Vector {
    files: [Vec<u8>; 2],
    answer: [u32; 3],
    joined: Vec<u8>,
}

impl Vector {
    fn of(line: &str) -> Vector {
        let columns: Vec<&str> = line.split(" | ").collect();
        let &[files, _, answer, joined] = columns.as_slice() else {
            panic!("a vector has four columns: {line}");
        };
        let (first, second) = files.split_once(' ').expect("two files");
        let mut answer = answer.split(' ').map(|number| number.parse());
        let mut number = || answer.next().expect("a number").expect("a number");
        let bytes = |text: &str| from_hex(text).expect("bytes in hex");
        Vector {
            files: [first, second].map(bytes),
            answer: [number(), number(), number()],
            joined: bytes(joined),
        }
    }
}

/// Number, file and line that the program says of files with these names, the file and the line 0 where it says none.
fn answer_in(said: &str, names: [&str; 2]) -> [u32; 3] {
    let [first, second] = names;
    let start = format!("{first} and {second}: refused, number ");
    let (number, rest) = said.split_once('\n').expect("a line");
    let number = number.strip_prefix(&start).expect("the refusal");
    let label = |label: &str| {
        let mut lines = rest.lines();
        lines.find_map(|line| line.trim_start().strip_prefix(label))
    };
    let file = label("file     ").expect("a file");
    let place = (1..).zip(names).find(|(input, name)| {
        let right = format!("{name} (input {input}, drift)");
        file == right
    });
    let line = label("line     ").expect("a line");
    [
        number.parse().expect("a number"),
        place.map_or(0, |(input, _)| input),
        line.parse().unwrap_or_default(),
    ]
}

/// A number in the object that `--json` prints.
fn member(object: &str, key: &str) -> u32 {
    let (_, value) = object.split_once(&format!("\"{key}\":")).expect(key);
    let value = value.split([',', '}']).next().expect("a value");
    value.parse().expect("a number")
}

/// What `--json` says of the files with these names in a folder, and the new file where one was written.
fn told_to_programs(folder: &Path, names: [&str; 2]) -> ([u32; 3], Option<Vec<u8>>) {
    let [first, second] = names;
    let new = folder.join("new");
    let output = run(
        folder,
        &["join", first, second, "--json", "--output", "new"],
    );
    assert!(output.stderr.is_empty(), "{names:?}");
    let object = String::from_utf8(output.stdout).expect("a text");
    let written = fs::read(&new).ok();
    if let Some(text) = &written {
        assert_eq!(member(&object, "length") as usize, text.len(), "{object}");
        fs::remove_file(new).expect("it is removed");
    }
    let answer = ["number", "input", "line"].map(|key| member(&object, key));
    (answer, written)
}

/// The refusal of an output that is too short, which the program never lends.
const OUTPUT_TOO_SHORT: u32 = 18;

#[test]
fn vectors_are_answered() {
    let vectors = repository().join("tests/outside/vectors/02/8/joins.txt");
    let vectors = fs::read_to_string(vectors).expect("the vectors");
    let folder = empty_folder("vectors");
    let names = ["first", "second"];
    let mut numbers = Vec::new();
    for line in vectors.lines().filter(|line| !line.starts_with('#')) {
        let vector = Vector::of(line);
        for (name, text) in names.into_iter().zip(&vector.files) {
            put(folder.join(name), text);
        }
        let output = run(&folder, &["join", names[0], names[1]]);
        let said = String::from_utf8(output.stderr).expect("a text");
        let (told, written) = told_to_programs(&folder, names);
        match vector.answer {
            [0, ..] => {
                assert_eq!(output.status.code(), Some(0), "{said}");
                assert_eq!(output.stdout, vector.joined);
                assert_eq!((told, written), ([0; 3], Some(vector.joined)));
            }
            [OUTPUT_TOO_SHORT, ..] => assert_eq!(output.status.code(), Some(0), "{said}"),
            right => {
                assert_eq!(output.status.code(), Some(1));
                assert_eq!(answer_in(&said, names), right, "{said}");
                assert!(output.stdout.is_empty(), "{said}");
                assert_eq!((told, written), (right, None), "{said}");
            }
        }
        numbers.push(vector.answer[0]);
    }
    for number in [0, 4, 5, 6, 7, 9, 10, 11, 18, 20, 21] {
        assert!(numbers.contains(&number), "no vector for number {number}");
    }
}

/// What the program says of two files that it refuses to join.
fn refused(folder: &Path) -> Option<String> {
    let output = run(folder, &["join", "first", "second"]);
    let said = String::from_utf8(output.stderr).expect("a text");
    (output.status.code() == Some(1)).then_some(said)
}

/// The line that the advice asks to write in a file, with its number.
fn advice(said: &str, file: &str) -> (usize, String) {
    // Broken into lines anywhere but in backticks.
    let words: Vec<&str> = said.split_whitespace().collect();
    let said = words.join(" ");
    let of_file = format!(" of {file} as `");
    let (before, behind) = said.split_once(&of_file).expect("advice for the file");
    let (_, line) = before.rsplit_once("write line ").expect("a line");
    let (text, _) = behind.split_once('`').expect("its text");
    (line.parse().expect("a number"), text.to_string())
}

/// Obeyed in either file, again and again, the advice leads to a joined file: each says what must be written where.
#[test]
fn advice_leads_to_a_joined_file() {
    for file in ["first", "second"] {
        let folder = empty_folder(&format!("obeyed-{file}"));
        for (name, sample_file) in ["first", "second"].into_iter().zip(DISAGREEING) {
            put(folder.join(name), sample(sample_file));
        }
        let mut steps = 0;
        while let Some(said) = refused(&folder) {
            let (line, text) = advice(&said, file);
            let before = fs::read_to_string(folder.join(file)).expect("the file");
            let mut lines: Vec<&str> = before.split_terminator("\r\n").collect();
            lines[line - 1] = &text;
            put(folder.join(file), lines.join("\r\n") + "\r\n");
            steps += 1;
            assert!(steps <= 2, "NumSerie and Operatore differ");
        }
        assert_eq!(steps, 2);
        let text = joined(&folder, ["first", "second"]);
        // The values of the file that was not changed.
        let kept = ["second", "first"].into_iter().find(|name| *name != file);
        let kept = fs::read_to_string(folder.join(kept.expect("the other"))).expect("the file");
        for name in ["NumSerie", "Operatore"] {
            let line = kept.lines().find(|line| line.starts_with(name));
            let line = line.expect("the entry");
            assert!(text.contains(&format!("{line}\r\n")), "{line}");
        }
    }
}

/// A second file whose axles are numbered on already, behind this many.
fn numbered_on(second: &str, behind: usize) -> String {
    let numbered = with(
        second,
        "[DerivaAsse_2]",
        &format!("[DerivaAsse_{}]", behind + 2),
    );
    with(
        &numbered,
        "[DerivaAsse_1]",
        &format!("[DerivaAsse_{}]", behind + 1),
    )
}

/// The lines that the advice asks to write, each with its number.
fn lines_to_write(said: &str) -> Vec<(usize, String)> {
    let words: Vec<&str> = said.split_whitespace().collect();
    let said = words.join(" ");
    let (_, to_do) = said.split_once(" to do ").expect("advice");
    let (_, write) = to_do.split_once(", write ").expect("what to write");
    let (write, _) = write.split_once(';').expect("its end");
    let lines = write.split("line ").skip(1).map(|line| {
        let (number, rest) = line.split_once(" as `").expect("a line");
        let (text, _) = rest.split_once('`').expect("its text");
        (number.parse().expect("a number"), text.to_string())
    });
    lines.collect()
}

/// Obeyed, the advice for axles that are numbered on leads to the joined file, whose axles are all measured.
#[test]
fn axles_that_are_numbered_on_are_numbered_from_one() {
    for behind in [1, 2, 7] {
        let folder = empty_folder(&format!("numbered-on-{behind}"));
        let [first, second] = ACCEPTED.map(sample);
        put(folder.join("first"), first);
        let text = numbered_on(&second, behind);
        let mut lines: Vec<String> = text.split_terminator("\r\n").map(String::from).collect();
        put(folder.join("second"), &text);
        let said = refused(&folder).expect("it is refused");
        assert_eq!(answer_in(&said, ["first", "second"]), [7, 2, 0]);
        let to_write = lines_to_write(&said);
        assert_eq!(to_write.len(), 2, "{said}");
        for (line, text) in to_write {
            lines[line - 1] = text;
        }
        put(folder.join("second"), lines.join("\r\n") + "\r\n");
        assert_eq!(joined(&folder, ["first", "second"]), sample(JOINED));
    }
}

/// A folder with pairs of which something is to be said.
fn pairs() -> Folder {
    let folder = empty_folder("pairs");
    let [first, second] = ACCEPTED.map(sample);
    put(folder.join("first.DER"), &first);
    put(folder.join("second.DER"), &second);

    // What differs: an empty value and a filled one, in either file; a letter and a space; a backtick; the day.
    let changes = [
        (
            "note",
            "Note=Quattro assi misurati a due a due\r",
            "Note=\r",
        ),
        ("code", "CodErrore=\r", "CodErrore=E14 SENSORE\r"),
        (
            "capital",
            "Operatore=LUCIA FERRI\r",
            "Operatore=Lucia Ferri\r",
        ),
        ("space", "Marca=OFFICINE VERDI\r", "Marca=OFFICINE VERDI \r"),
        ("sign", "Tipo=PD 9000\r", "Tipo=PD `9000\r"),
        ("day", "DataMisura=18032026\r", "DataMisura=19032026\r"),
    ];
    // A long value that differs late, and a number with a zero before it.
    for (name, old, new) in [
        ("note-end", "due a due\r", "due a tre\r"),
        (
            "zero",
            "NumVersioneProtocollo=210\r",
            "NumVersioneProtocollo=021\r",
        ),
        (
            "no-zero",
            "NumVersioneProtocollo=210\r",
            "NumVersioneProtocollo=21\r",
        ),
    ] {
        put(folder.join(format!("{name}.DER")), with(&second, old, new));
    }
    for (name, old, new) in changes {
        put(folder.join(format!("{name}.DER")), with(&second, old, new));
    }
    let other = changes
        .iter()
        .fold(second.clone(), |text, (_, old, new)| with(&text, old, new));
    put(folder.join("other.DER"), other);

    // Nine axles together, ten, and ten with other values too.
    let axles = |text: &str, from: usize, to: usize| {
        let more = (from..=to).map(|axle| format!("[DerivaAsse_{axle}]\r\nDeriva=0.{axle}0\r\n"));
        text.to_string() + &more.collect::<String>()
    };
    put(folder.join("seven.DER"), axles(&second, 3, 7));
    put(folder.join("eight.DER"), axles(&second, 3, 8));
    let eight = with(&second, "PD-0364", "PD-0365");
    put(folder.join("eight-other.DER"), axles(&eight, 3, 8));

    // A tester that is good through the day of the measure.
    for (name, text) in [("today-first", &first), ("today-second", &second)] {
        let text = with(text, "DataScadenza=01032027", "DataScadenza=18032026");
        put(folder.join(format!("{name}.DER")), text);
    }

    put(folder.join("empty.DER"), "");
    put(folder.join("feeds.DER"), with(&first, "\r\n", "\n"));
    put(
        folder.join("long.DER"),
        first.clone() + &"Note=x\r\n".repeat(2000),
    );
    put(folder.join("no-ending"), &first);
    put(folder.join("numbered-on.DER"), numbered_on(&second, 2));
    put(
        folder.join("second-axle.DER"),
        with(&first, "DerivaAsse_1", "DerivaAsse_3"),
    );
    put(
        folder.join("gap.DER"),
        with(&first, "DerivaAsse_2", "DerivaAsse_4"),
    );
    let (heading, _) = first.split_once("[DerivaAsse_1]").expect("an axle");
    put(folder.join("no-axle.DER"), heading);
    put(folder.join("first-reversed.DER"), reversed(&first));
    put(
        folder.join("suspension.SOS"),
        sample("samples/accepted-car/AA123456.SOS"),
    );
    put(folder.join("binary.DER"), b"MZ\x90\0\x03\0\0\0");
    put(
        folder.join("no-time.DER"),
        with(&first, "InizioMisura=142005", "InizioMisura=1420"),
    );
    put(
        folder.join("no-marca.DER"),
        with(&second, "Marca=OFFICINE VERDI", "Marca="),
    );
    fs::create_dir(folder.join("folder.DER")).expect("a folder");
    put(folder.join("there"), "stays\n");
    folder
}

#[test]
fn pairs_are_joined_or_refused() {
    let folder = pairs();
    check("joining.txt", &folder);
    let there = fs::read(folder.join("there")).expect("a file");
    assert_eq!(there, b"stays\n", "a file was overwritten");
    for name in ["new.DER", "json.DER"] {
        let new = fs::read_to_string(folder.join(name)).expect("a file");
        assert_eq!(new, sample(JOINED), "{name}");
    }
    for name in ["refused.DER", "absent"] {
        assert!(!folder.join(name).exists(), "{name} was made");
    }
}

/// Puts the parts of a drift from 23:59:30 to 00:00:10, and a set with each of them and one for the joined file.
fn put_late(folder: &Path, due: &str) {
    let late = sample("samples/accepted-midnight/AG280227.DER");
    let late = with(
        &late,
        "DataScadenza=01032027",
        &format!("DataScadenza={due}"),
    );
    let first = with(&late, "FineMisura=000010", "FineMisura=235945");
    let second = with(&late, "InizioMisura=235930", "InizioMisura=000002");
    put(folder.join("first.DER"), &first);
    put(folder.join("second.DER"), &second);
    for (stem, drift) in [
        ("AG000001", Some(first)),
        ("AG000002", Some(second)),
        ("AG000003", None),
    ] {
        put_set(&folder.join("sets"), stem, "accepted-midnight", &[]);
        let path = folder.join("sets").join(stem).with_extension("DER");
        match drift {
            Some(drift) => put(path, drift),
            None => fs::remove_file(path).expect("it is removed"),
        }
    }
}

/// A joined end below the joined start counts as the next day, when the joined file comes in a set.
#[test]
fn the_due_date_is_held_to_the_joined_end() {
    let folder = empty_folder("late");
    put_late(&folder.join("day-before"), "28022027");
    put_late(&folder.join("in-date"), "01032027");
    check("joining-late.txt", &folder);
}
