//! How long measures lasted, and devices that are out of date on the day on which the measure ends (19): each due date
//! on that day and on the day before, over midnight, which refusal comes first, and what the analyser says of itself.

use std::fs;
use std::path::Path;

use crate::broken::identification;
use crate::common::{empty_folder, put, put_set, repository, run, Change};
use crate::transcripts::check;

const CAR: &str = "accepted-car";
const DIESEL: &str = "accepted-diesel";
const TRUCK: &str = "accepted-midnight";
const MOPED: &str = "accepted-moped";
const TRAILER: &str = "accepted-trailer";

/// A set: its stem, the sample that it is made from, and what is changed.
type Made = (&'static str, &'static str, &'static [Change]);

/// Each due date on the day on which its measure ends. The moped's stem lets its old booking stand there unread.
const ON_THE_DAY: [Made; 4] = [
    (
        "BB000001",
        CAR,
        &[
            ("DER", "=30062027", "=12052026"),
            ("SOS", "=30062027", "=12052026"),
            ("GAS", "Contagiri=31122026", "Contagiri=12052026"),
        ],
    ),
    // Without an identification answer that the analyser's due date must equal.
    (
        "BB000002",
        "accepted-unknown-day",
        &[("GAS", "Analizzatore=30062027", "Analizzatore=16032026")],
    ),
    ("BB900003", MOPED, &[("GAS", "=28022027", "=12052026")]),
    (
        "BB000004",
        DIESEL,
        &[
            ("OPA", "=30062027", "=14012027"),
            ("OPA", "=30092027", "=14012027"),
        ],
    ),
];

/// Each due date on the day before: one change of each set.
const DAY_BEFORE: [(&str, &str, Change); 7] = [
    ("BC000001", CAR, ("DER", "=30062027", "=11052026")),
    ("BC000002", CAR, ("SOS", "=30062027", "=11052026")),
    (
        "BC000003",
        CAR,
        ("GAS", "Analizzatore=30062027", "Analizzatore=11052026"),
    ),
    (
        "BC000004",
        CAR,
        ("GAS", "Contagiri=31122026", "Contagiri=11052026"),
    ),
    ("BC900005", MOPED, ("GAS", "=28022027", "=11052026")),
    ("BC000006", DIESEL, ("OPA", "=30062027", "=13012027")),
    ("BC000007", DIESEL, ("OPA", "=30092027", "=13012027")),
];

/// Days of the drift of `accepted-midnight`, its tester good through that day: the measure ends on the next.
const MIDNIGHT: [(&str, &str); 6] = [
    ("BD000001", "=12052026"),
    ("BD000002", "=30042026"),
    ("BD000003", "=28022028"),
    ("BD000004", "=29022028"),
    ("BD000005", "=31122026"),
    ("BD000006", "=31122099"),
];

/// Measures from 23:59:30 on, for 40 seconds: suspension and gas, opacity, and gas on the last day that there is.
const CAR_LATE: [Change; 4] = [
    ("SOS", "=092010", "=235930"),
    ("SOS", "=092431", "=000010"),
    ("GAS", "=093005", "=235930"),
    ("GAS", "=093648", "=000010"),
];
const DIESEL_LATE: [Change; 2] = [("OPA", "=101512", "=235930"), ("OPA", "=102340", "=000010")];
const LAST_NIGHT: [Change; 3] = [
    ("GAS", "=093005", "=235930"),
    ("GAS", "=093648", "=000010"),
    ("GAS", "Misura=12052026", "Misura=31122099"),
];

/// A set with a late measure: its stem, its sample, when the measure is, and what else is changed.
type Late = (
    &'static str,
    &'static str,
    &'static [Change],
    &'static [Change],
);

const LATE: [Late; 8] = [
    // Devices good through the day on which the measure ends, and some a day short.
    (
        "BG000001",
        CAR,
        &CAR_LATE,
        &[
            ("SOS", "=30062027", "=13052026"),
            ("GAS", "Contagiri=31122026", "Contagiri=13052026"),
        ],
    ),
    (
        "BG000002",
        CAR,
        &CAR_LATE,
        &[
            ("SOS", "=30062027", "=12052026"),
            ("GAS", "Contagiri=31122026", "Contagiri=12052026"),
        ],
    ),
    (
        "BG000003",
        DIESEL,
        &DIESEL_LATE,
        &[("OPA", "=30062027", "=15012027")],
    ),
    (
        "BG000004",
        DIESEL,
        &DIESEL_LATE,
        &[("OPA", "=30062027", "=14012027")],
    ),
    // No date covers the day, and also not where a device is in date on the last day itself, or all are.
    ("BG000005", CAR, &LAST_NIGHT, &[]),
    (
        "BG000006",
        CAR,
        &LAST_NIGHT,
        &[("GAS", "Contagiri=31122026", "Contagiri=31122099")],
    ),
    ("BG900007", MOPED, &LAST_NIGHT, &[]),
    (
        "BG900008",
        MOPED,
        &LAST_NIGHT,
        &[
            ("GAS", "=30062027", "=31122099"),
            ("GAS", "=31122026", "=31122099"),
            ("GAS", "=28022027", "=31122099"),
        ],
    ),
];

/// The same with another due date, on the first days that there are.
const FIRST_NIGHTS: [(&str, &str, &str); 3] = [
    ("BD000007", "=01011900", "=01011900"),
    ("BD000008", "=01011900", "=02011900"),
    ("BD000009", "=02011900", "=02011900"),
];

const LENGTHS: [Made; 7] = [
    ("BE000001", TRAILER, &[("der", "=091742", "=091500")]),
    ("BE000002", TRAILER, &[("der", "=091742", "=101500")]),
    ("BE000003", TRAILER, &[("der", "=091742", "=091459")]),
    // A day on which the device is good, and behind which there is none.
    (
        "BE000004",
        TRAILER,
        &[
            ("der", "=30062027", "=31122099"),
            ("der", "=12052026", "=31122099"),
        ],
    ),
    // Long, but not over midnight; half a day over midnight; a second more.
    (
        "BE000005",
        TRAILER,
        &[("der", "=091500", "=000010"), ("der", "=091742", "=235930")],
    ),
    (
        "BE000006",
        TRAILER,
        &[("der", "=091500", "=151500"), ("der", "=091742", "=031500")],
    ),
    (
        "BE000007",
        TRAILER,
        &[("der", "=091500", "=151500"), ("der", "=091742", "=031501")],
    ),
];

/// The car's drift and gas out of date.
const DRIFT: Change = ("DER", "=30062027", "=11052026");
const COUNTER: Change = ("GAS", "Contagiri=31122026", "Contagiri=11052026");
const ANALYSER: Change = ("GAS", "Analizzatore=30062027", "Analizzatore=30062025");

const SUSPENSION: Change = ("SOS", "=30062027", "=11052026");

/// A set without gas that has an identification answer.
const STRAY_ANSWER: &str = "BF000015";

const ORDER: [Made; 16] = [
    // The rev counter's line is above the analyser's.
    ("BF000001", CAR, &[ANALYSER, COUNTER]),
    ("BF000002", CAR, &[DRIFT, COUNTER]),
    (
        "BF000003",
        CAR,
        &[DRIFT, ("DER", "CodErrore=", "CodErrore=E14 SENSORE")],
    ),
    ("BF000004", CAR, &[DRIFT, ("DER", "=PD 4000", "=")]),
    ("BF000005", CAR, &[SUSPENSION, ("SOS", "=11\r", "=12\r")]),
    ("BF000006", CAR, &[DRIFT, ("ACC", "=2004", "=2005")]),
    // Out of date already on the day on which the measure begins.
    ("BF000007", TRUCK, &[("DER", "=01032027", "=27022027")]),
    // No other date is a due date.
    (
        "BF000008",
        CAR,
        &[
            ("DER", "=01032019", "=01032027"),
            ("GAS", "ChiaveRS=15012026", "ChiaveRS=15012020"),
        ],
    ),
    // The measure is of 2062, by its day.
    ("BF000009", CAR, &[("DER", "=12052026", "=12052062")]),
    ("BF000010", CAR, &[DRIFT, SUSPENSION]),
    // One of the other files has a day on which the device was good.
    (
        "BF000011",
        CAR,
        &[DRIFT, ("SOS", "Misura=12052026", "Misura=11052026")],
    ),
    // None has.
    (
        "BF000012",
        CAR,
        &[DRIFT, ("SOS", "Misura=12052026", "Misura=13052026")],
    ),
    // A further finding with what the analyser says of itself, and with the day of another file.
    (
        "BF000013",
        CAR,
        &[
            ("DER", "=PD 4000", "="),
            ("GAS", "Misura=12052026", "Misura=12052062"),
        ],
    ),
    (
        STRAY_ANSWER,
        DIESEL,
        &[
            ("DER", "CodErrore=", "CodErrore"),
            ("OPA", "=30062027", "=13012027"),
        ],
    ),
    // Good on the first day that there is alone.
    (
        "BF000016",
        TRAILER,
        &[
            ("der", "=30062027", "=01011900"),
            ("der", "=12052026", "=02011900"),
        ],
    ),
    // Analyser, rev counter and speed bench.
    (
        "BF900014",
        MOPED,
        &[
            ("GAS", "=30062027", "=11052026"),
            ("GAS", "=31122026", "=11052026"),
            ("GAS", "=28022027", "=11052026"),
        ],
    ),
];

/// The car's analyser: its due date in gas and in its answer, and what else is changed.
const ANSWERS: [(&str, &str, &str, &[Change]); 7] = [
    // The same in both.
    ("BJ000001", "11052026", "11052026", &[]),
    // In date by the answer alone.
    ("BJ000002", "30062025", "30062027", &[]),
    ("BJ000003", "30062025", "12052026", &[]),
    // In date by neither.
    ("BJ000004", "30062025", "11052026", &[]),
    ("BJ000005", "30062025", "N.D.", &[]),
    // Beside another refusal.
    ("BJ000006", "30062025", "30062027", &[DRIFT]),
    // The same in both, and the day of the measure mistyped.
    (
        "BJ000007",
        "30062027",
        "30062027",
        &[("GAS", "Misura=12052026", "Misura=12052062")],
    ),
];

fn put_sets(folder: &Path, sets: &[Made]) {
    for (stem, sample, changes) in sets {
        put_set(folder, stem, sample, changes);
    }
}

fn put_day_before(folder: &Path) {
    for (stem, sample, change) in DAY_BEFORE {
        put_set(folder, stem, sample, &[change]);
    }
}

fn put_late(folder: &Path) {
    for (stem, sample, late, others) in LATE {
        put_set(folder, stem, sample, &[late, others].concat());
    }
}

/// The truck's drift over midnight with this due date and DataMisura.
fn put_truck(folder: &Path, stem: &str, due: &'static str, day: &'static str) {
    let changes = [("DER", "=28022027", day), ("DER", "=01032027", due)];
    put_set(folder, stem, TRUCK, &changes);
}

fn put_midnight(folder: &Path) {
    for (stem, day) in MIDNIGHT {
        put_truck(folder, stem, day, day);
    }
}

/// Sets with an answer whose checksum is right.
fn put_answers(folder: &Path) {
    for (stem, due, answered, changes) in ANSWERS {
        put_set(folder, stem, CAR, changes);
        let with = |ending: &str, old: &str, new: &str| {
            let path = folder.join(stem).with_extension(ending);
            let text = fs::read_to_string(&path).expect("a text");
            assert!(text.contains(old), "{stem}: {old}");
            (path, text.replace(old, new))
        };
        let entry = "DataScadenzaAnalizzatore=";
        let (path, text) = with("GAS", &format!("{entry}30062027"), &format!("{entry}{due}"));
        put(path, text);
        let (path, text) = with("ID", "30062027", answered);
        // Without the first byte, the checksum and the last.
        put(path, identification(&text.as_bytes()[1..text.len() - 3]));
    }
}

#[test]
fn devices_are_in_date_when_the_measure_ends() {
    let root = empty_folder("in-date");
    put_sets(&root.join("on-the-day"), &ON_THE_DAY);
    put_day_before(&root.join("day-before"));
    put_midnight(&root.join("midnight"));
    put_late(&root.join("late"));
    for (stem, due, day) in FIRST_NIGHTS {
        put_truck(&root.join("midnight"), stem, due, day);
    }
    put_sets(&root.join("lengths"), &LENGTHS);
    put_sets(&root.join("order"), &ORDER);
    let answer = repository().join("samples/accepted-car/AA123456.ID");
    let stray = root.join("order").join(STRAY_ANSWER).with_extension("ID");
    put(stray, fs::read(answer).expect("an answer"));
    put_answers(&root.join("answers"));
    check("in-date.txt", &root);
}

/// What `mctc judge FOLDER STEM --json` prints.
fn judged(folder: &Path, stem: &str) -> String {
    let output = run(folder, &["judge", ".", stem, "--json"]);
    String::from_utf8(output.stdout).expect("JSON is UTF-8")
}

/// What stands behind the key of a member.
fn member<'a>(answer: &'a str, key: &str) -> &'a str {
    let (_, rest) = answer.split_once(&format!("\"{key}\":")).expect(key);
    rest
}

/// The day that is expected, as it is written in a file; None where none is.
fn expected_day(answer: &str) -> Option<String> {
    let expected = member(answer, "expected").strip_prefix('"')?;
    let expected = expected.split('"').next().expect("its end");
    let slash = expected.find('/').expect("a day");
    Some(expected[slash - 2..slash + 8].replace('/', ""))
}

/// Writes a day into the line that is named.
fn write_day(folder: &Path, answer: &str, day: &str) {
    let (line, _) = member(answer, "line").split_once(',').expect("its end");
    let line: usize = line.parse().expect("a line");
    let name = member(answer, "name").trim_start_matches('"');
    let path = folder.join(name.split('"').next().expect("a name"));
    let text = fs::read_to_string(&path).expect("a text");
    let lines = (1..).zip(text.split_inclusive("\r\n"));
    let mended = lines.map(|(number, content)| match content.split_once('=') {
        Some((entry, _)) if number == line => format!("{entry}={day}\r\n"),
        _ => content.to_string(),
    });
    fs::write(path, mended.collect::<String>()).expect("the file is written");
}

/// The devices are good through the day before, so the day that is expected is the first that passes. Behind the last day
/// that there is none is expected.
#[test]
fn the_day_that_is_expected_passes() {
    let folder = empty_folder("in-date-expected");
    put_day_before(&folder);
    put_midnight(&folder);
    let stems = DAY_BEFORE.iter().map(|(stem, ..)| *stem);
    let stems = stems.chain(MIDNIGHT.iter().map(|(stem, _)| *stem));
    let mut mended = 0;
    for stem in stems {
        let answer = judged(&folder, stem);
        assert!(answer.contains("\"number\":19,"), "{stem}: {answer}");
        if let Some(day) = expected_day(&answer) {
            write_day(&folder, &answer, &day);
            let answer = judged(&folder, stem);
            assert!(answer.contains("\"accepted\":true"), "{stem}: {answer}");
            mended += 1;
        }
    }
    assert_eq!(mended, DAY_BEFORE.len() + MIDNIGHT.len() - 1);
}

/// Beside an identification answer only its own date passes, and none is expected where that is not in date.
#[test]
fn the_day_that_is_expected_is_the_answers() {
    let folder = empty_folder("in-date-answers");
    put_answers(&folder);
    for (stem, expected) in [
        ("BJ000001", None),
        ("BJ000002", Some("30062027")),
        ("BJ000003", Some("12052026")),
        ("BJ000004", None),
        ("BJ000005", None),
        ("BJ000007", None),
    ] {
        let answer = judged(&folder, stem);
        assert!(answer.contains("\"number\":19,"), "{stem}: {answer}");
        let day = expected_day(&answer);
        assert_eq!(day.as_deref(), expected, "{stem}");
        let line = member(&answer, "line").split(',').next().expect("a line");
        let is_offered = answer.contains(&format!("if line {line} is mistyped"));
        assert_eq!(is_offered, day.is_some(), "{stem}: {answer}");
        if let Some(day) = day {
            write_day(&folder, &answer, &day);
            let answer = judged(&folder, stem);
            assert!(answer.contains("\"accepted\":true"), "{stem}: {answer}");
        }
    }
}
