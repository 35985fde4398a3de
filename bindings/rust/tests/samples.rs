//! The calls of the binding on the repository's samples.

use std::fs;
use std::path::{Path, PathBuf};

use mctc::{Acceptance, Due, FileAcceptance, Form, Places, Refusal, Set};

fn samples() -> PathBuf {
    Path::new(env!("CARGO_MANIFEST_DIR")).join("../../samples")
}

fn sample(name: &str) -> Vec<u8> {
    fs::read(samples().join(name)).expect("a sample")
}

fn refusal(number: u32, file: u32, line: u32) -> Refusal {
    Refusal { number, file, line }
}

/// The number that the header defines under a name.
fn defined(name: &str) -> usize {
    let header = Path::new(env!("CARGO_MANIFEST_DIR")).join("../../include/mctc.h");
    let header = fs::read_to_string(header).expect("the header");
    let start = format!("#define {name} ");
    let mut lines = header.lines();
    let number = lines.find_map(|line| line.strip_prefix(&start));
    number.expect(name).parse().expect("a number")
}

#[test]
fn the_sizes_are_those_of_the_header() {
    assert_eq!(mctc::PLACES, defined("MCTC_PLACES_SIZE"));
    assert_eq!(mctc::ANSWER, defined("MCTC_ANSWER_SIZE"));
    assert_eq!(mctc::JOINED_MOST, defined("MCTC_JOINED_MOST"));
}

#[test]
fn a_set_is_judged() {
    let ac2 = sample("accepted-trailer/AC204711.ac2");
    let drift = sample("accepted-trailer/AC204711.der");
    let mut set = Set {
        stem: b"AC204711",
        ac2: &ac2,
        drift: &drift,
        ..Set::default()
    };
    let mut places = Places::default();
    let acceptance = Acceptance {
        drift_axles: 3,
        suspension_axles: 0,
        drift_mark: true,
        suspension_mark: false,
        gas_mark: false,
        opacity_mark: false,
        idle_by_hand: false,
        names_compared: 78 + 139,
        drift_seconds: 2 * 60 + 42,
        suspension_seconds: 0,
        gas_seconds: 0,
        opacity_seconds: 0,
    };
    assert_eq!(mctc::judge(&set, &mut places), Ok(acceptance));
    let third = places.value(3, 18).expect("the third axle");
    assert_eq!(&drift[third], b"12.34");
    assert_eq!(places.line(3, 18), Some(23));
    for (file, entry, why) in [
        (3, 19, "there is no fourth axle"),
        (2, 0, "the old booking is not given"),
        (3, 25, "no entry has this number"),
        (3, usize::MAX, "nor this"),
    ] {
        assert_eq!(places.value(file, entry), None, "{why}");
        assert_eq!(places.line(file, entry), None, "{why}");
    }

    set.stem = b"AC20471";
    assert_eq!(mctc::judge(&set, &mut places), Err(refusal(2, 0, 0)));
    assert_eq!(
        mctc::judge(&Set::default(), &mut places),
        Err(refusal(2, 0, 0))
    );
}

#[test]
fn a_file_is_read_and_written() {
    let text = sample("accepted-car/AA123456.SOS");
    let mut places = Places::default();
    let read = FileAcceptance {
        axles: 2,
        idle_by_hand: false,
    };
    assert_eq!(mctc::read(4, &text, &mut places), Ok(read));
    let mut output = vec![0; text.len()];
    assert_eq!(
        mctc::write(&text, &places, 4, read.axles, &mut output),
        Ok(text.len())
    );
    assert!(output.starts_with(b"[Sospensioni]\r\nMarca="));
    assert_eq!(
        mctc::write(&text, &places, 4, read.axles, &mut []),
        Err(refusal(18, 4, 0))
    );
    assert_eq!(mctc::read(4, &[], &mut places), Err(refusal(11, 4, 0)));
    for file in [0, 6, 8] {
        assert_eq!(
            mctc::read(file, &text, &mut places),
            Err(refusal(16, file, 0))
        );
    }
}

/// A sample of each file that can be written, with its number: the file's name, and how many axles it has.
const WRITTEN: [(u32, &str, u32); 6] = [
    (1, "accepted-car/AA123456.AC2", 0),
    (2, "accepted-car/AA123456.ACC", 0),
    (3, "accepted-trailer/AC204711.der", 3),
    (4, "accepted-car/AA123456.SOS", 2),
    (5, "accepted-car/AA123456.GAS", 0),
    (7, "accepted-diesel/AE305518.OPA", 0),
];

/// The text of a file and its places.
fn placed(file: u32, name: &str) -> (Vec<u8>, Places) {
    let (text, mut places) = (sample(name), Places::default());
    mctc::read(file, &text, &mut places).expect("it is read");
    (text, places)
}

/// What a call that writes answers, and the output after it, of this size.
fn with_output(
    size: usize,
    call: impl FnOnce(&mut [u8]) -> Result<usize, Refusal>,
) -> (Result<usize, Refusal>, Vec<u8>) {
    let mut output = vec![b'~'; size];
    let answer = call(&mut output);
    (answer, output)
}

#[test]
fn what_is_quoted_is_what_is_written() {
    for (file, name, axles) in WRITTEN {
        let (text, places) = placed(file, name);
        let size = text.len() + 3;
        let written = with_output(size, |output| {
            mctc::write(&text, &places, file, axles, output)
        });
        let length = written.0.expect("it is written");
        let quoted = mctc::quote(&text, &places, file, axles);
        assert_eq!(quoted, Ok(length), "{name}");
        for size in [length, size] {
            let (answer, output) = with_output(size, |output| {
                mctc::commit(&text, &places, file, axles, length, output)
            });
            assert_eq!(answer, Ok(length), "{name}");
            assert_eq!(output, written.1[..size], "{name}: what is past it stays");
        }
    }
}

#[test]
fn a_length_that_was_not_quoted_is_refused() {
    for (file, name, axles) in WRITTEN {
        let (text, places) = placed(file, name);
        let length = mctc::quote(&text, &places, file, axles).expect("a length");
        // A length that wraps to the quoted one in 32 bits is another, too.
        let wraps = length + (1 << 32);
        let others = [0, length - 1, length + 1, wraps, usize::MAX];
        for other in others {
            // Also where the output is too short, which comes after it.
            for size in [0, length, length + 8] {
                let commit =
                    |output: &mut [u8]| mctc::commit(&text, &places, file, axles, other, output);
                let refused = (Err(refusal(22, file, 0)), vec![b'~'; size]);
                assert_eq!(with_output(size, commit), refused, "{name}, {other}");
            }
        }
        for size in [0, length - 1] {
            let commit =
                |output: &mut [u8]| mctc::commit(&text, &places, file, axles, length, output);
            let refused = (Err(refusal(18, file, 0)), vec![b'~'; size]);
            assert_eq!(with_output(size, commit), refused, "{name}");
        }
    }
}

#[test]
fn a_quoted_length_holds_for_what_was_quoted_alone() {
    let (file, name, axles) = WRITTEN[2];
    let (text, places) = placed(file, name);
    let length = mctc::quote(&text, &places, file, axles).expect("a length");
    let commit = |text: &[u8], places: &Places, file, axles| {
        with_output(2000, |output| {
            mctc::commit(text, places, file, axles, length, output)
        })
    };
    let with_number = |old: &str, new: &str| {
        let text = String::from_utf8(text.clone()).expect("a text");
        assert!(text.contains(old));
        let (text, mut places) = (text.replace(old, new).into_bytes(), Places::default());
        mctc::read(file, &text, &mut places).expect("it is read");
        (text, places)
    };
    let (longer, longer_places) = with_number("=12.34\r", "=-12.34\r");
    for (text, places, file, axles, number) in [
        (&longer, &longer_places, file, axles, 22),
        (&text, &places, file, axles - 1, 22),
        (&text, &places, file, 0, 16),
        (&text, &places, 6, axles, 16),
        // No suspension was read, so that its places are all 0 and its values empty.
        (&text, &places, 4, axles, 22),
        (&Vec::new(), &places, file, axles, 17),
    ] {
        let line = if number == 17 { 2 } else { 0 };
        let stays = vec![b'~'; 2000];
        let refused = (Err(refusal(number, file, line)), stays);
        assert_eq!(commit(text, places, file, axles), refused);
    }
    // Other values of the same lengths have the same length: what is written is of the text that is handed in.
    let (other, other_places) = with_number("=12.34\r", "=43.21\r");
    let (answer, output) = commit(&other, &other_places, file, axles);
    assert_eq!(answer, Ok(length));
    let right = with_output(2000, |output| {
        mctc::write(&other, &other_places, file, axles, output)
    });
    assert_eq!(output, right.1);
}

#[test]
fn quote_and_commit_fill_the_numbers_of_the_answer() {
    let (file, name, axles) = WRITTEN[2];
    let (text, places) = placed(file, name);
    let numbers = places.numbers();
    let length = mctc::quote(&text, &places, file, axles).expect("a length") as u32;
    let accepted = |answer: &[u32]| {
        let others = [&answer[..3], &answer[4..mctc::ANSWER]].concat();
        assert!(others.iter().all(|number| *number == 0));
        assert_eq!((answer[3], answer[mctc::ANSWER]), (length, 7));
    };
    let quote = |answer: &mut [u32]| mctc::lent::quote(&text, numbers, file, axles, answer);
    let commit = |length, output: &mut [u8], answer: &mut [u32]| {
        mctc::lent::commit(&text, numbers, file, axles, length, output, answer)
    };
    let mut answer = [7; mctc::ANSWER + 1];
    assert_eq!(quote(&mut answer), 0);
    accepted(&answer);
    let mut answer = [7; mctc::ANSWER + 1];
    assert_eq!(commit(length, &mut [0; 2000], &mut answer), 0);
    accepted(&answer);

    let length_differs = defined("MCTC_LENGTH_DIFFERS") as u32;
    assert_eq!(commit(length + 1, &mut [], &mut answer), length_differs);
    assert_eq!(answer[..4], [length_differs, file, 0, 0]);

    let mut short = [7; mctc::ANSWER - 1];
    let mut output = [b'~'; 2000];
    assert_eq!(quote(&mut short), u32::MAX, "the answer is too short");
    assert_eq!(commit(length, &mut output, &mut short), u32::MAX);
    assert_eq!((output, short), ([b'~'; 2000], [7; mctc::ANSWER - 1]));
}

/// The two drift files of a folder of `joining`.
fn pair(folder: &str) -> [Vec<u8>; 2] {
    ["first", "second"].map(|name| sample(&format!("joining/{folder}/{name}.DER")))
}

/// What joining two files answers, with an output of this size, and the output after it.
fn joined(first: &[u8], second: &[u8], size: usize) -> (Result<usize, Refusal>, Vec<u8>) {
    with_output(size, |output| mctc::join(first, second, output))
}

#[test]
fn two_drift_files_are_joined() {
    let [first, second] = pair("accepted");
    let right = sample("accepted-joined/AH117044.DER");
    let length = right.len();
    assert_eq!(joined(&first, &second, length), (Ok(length), right.clone()));
    let longer = [&right[..], b"~~~"].concat();
    assert_eq!(joined(&first, &second, length + 3), (Ok(length), longer));
    let mut places = Places::default();
    let read = mctc::read(3, &right, &mut places).expect("it is read");
    assert_eq!(read.axles, 4);

    // The same lines in another order: as they are written in the order of the table.
    let in_order = [&first, &second].map(|text| {
        let read = mctc::read(3, text, &mut places).expect("it is read");
        let mut output = vec![0; text.len()];
        mctc::write(text, &places, 3, read.axles, &mut output).expect("it is written");
        output
    });
    assert_ne!(in_order[1], second);
    let [one, other] = &in_order;
    assert_eq!(joined(one, other, length), (Ok(length), right));
}

/// A longest value that an entry of drift may have.
fn longest(entry: u32) -> String {
    let kind = mctc::kind(3, entry).expect("its kind");
    let most = kind.most as usize;
    match kind.form {
        Form::Text => "A".repeat(most),
        Form::Number => "1".repeat(most),
        Form::Day => "01012030".to_string(),
        Form::Time => "091500".to_string(),
        Form::Deriva => "-10.00".to_string(),
        Form::Word => kind
            .words
            .into_iter()
            .max_by_key(String::len)
            .expect("a word"),
        other => panic!("no entry of drift has the form {other:?}"),
    }
}

/// A drift file with so many axles and the longest values.
fn longest_drift(axles: u32) -> String {
    let mut text = String::new();
    let mut entries = (0..).map_while(|entry| Some((entry, mctc::entry_name(3, entry).ok()?)));
    let mut next = entries.next();
    for section in 0..=axles {
        text += &format!("{}\r\n", mctc::heading_name(3, section).expect("a heading"));
        while let Some((number, entry)) = next.take_if(|(_, entry)| entry.section == section) {
            text += &format!("{}={}\r\n", entry.name, longest(number));
            next = entries.next();
        }
    }
    text
}

#[test]
fn no_joined_file_is_longer_than_the_longest() {
    let [first, second] = [5, 4].map(longest_drift);
    let [first, second] = [first.as_bytes(), second.as_bytes()];
    let (answer, output) = joined(first, second, mctc::JOINED_MOST);
    assert_eq!(answer, Ok(mctc::JOINED_MOST));
    assert_eq!(output, longest_drift(9).as_bytes());
}

#[test]
fn the_axles_of_each_file_are_numbered_from_one() {
    let [first, second] = pair("accepted").map(|text| String::from_utf8(text).expect("a text"));
    let numbered_on = second
        .replace("Asse_2]", "Asse_4]")
        .replace("Asse_1]", "Asse_3]");
    let (first, numbered_on) = (first.as_bytes(), numbered_on.as_bytes());
    assert_not_joined(first, numbered_on, 2000, refusal(7, 2, 0));
    assert_not_joined(numbered_on, first, 2000, refusal(7, 1, 0));
}

/// Refused with this, and the output stays.
fn assert_not_joined(first: &[u8], second: &[u8], size: usize, right: Refusal) {
    let stays = vec![b'~'; size];
    assert_eq!(joined(first, second, size), (Err(right), stays), "{right}");
}

#[test]
fn drift_files_that_do_not_join_are_refused() {
    let [first, second] = pair("accepted");
    let length = sample("accepted-joined/AH117044.DER").len();
    assert_not_joined(&first, &second, length - 1, refusal(18, 0, 0));
    assert_not_joined(&first, &second, 0, refusal(18, 0, 0));
    let [one, other] = pair("refused-20");
    assert_not_joined(&one, &other, 0, refusal(20, 2, 11));
    assert_not_joined(&other, &one, 2000, refusal(20, 2, 5));
    let [one, other] = pair("refused-21");
    assert_not_joined(&one, &other, 0, refusal(21, 0, 0));

    // The first file before the second, and both before they are compared.
    let empty = sample("refused-10/AB120010.DER");
    let short = sample("refused-09/AB120009.DER");
    let suspension = sample("accepted-car/AA123456.SOS");
    for (one, other, right) in [
        (&b""[..], &b""[..], refusal(11, 1, 0)),
        (&first, b"", refusal(11, 2, 0)),
        (&empty, b"", refusal(10, 1, 2)),
        (&short, &empty, refusal(9, 1, 19)),
        (&first, &empty, refusal(10, 2, 2)),
        (&first, &suspension, refusal(5, 2, 1)),
    ] {
        assert_not_joined(one, other, 2000, right);
    }
}

#[test]
fn joining_fills_the_numbers_of_the_answer() {
    let [first, second] = pair("accepted");
    let length = sample("accepted-joined/AH117044.DER").len() as u32;
    let mut output = [b'~'; 2000];
    let mut answer = [7; mctc::ANSWER + 1];
    let number = mctc::lent::join(&first, &second, &mut output, &mut answer);
    assert_eq!((number, answer[3], answer[mctc::ANSWER]), (0, length, 7));
    let others = [&answer[..3], &answer[4..mctc::ANSWER]].concat();
    assert!(others.iter().all(|number| *number == 0));

    let headings_disagree = defined("MCTC_HEADINGS_DISAGREE") as u32;
    let [one, other] = pair("refused-20");
    let number = mctc::lent::join(&one, &other, &mut [], &mut answer);
    assert_eq!(number, headings_disagree);
    assert_eq!(answer[..4], [headings_disagree, 2, 11, 0]);
    let [one, other] = pair("refused-21");
    let number = mctc::lent::join(&one, &other, &mut [], &mut answer);
    assert_eq!(number as usize, defined("MCTC_TOO_MANY_AXLES"));

    let (mut output, mut short) = ([b'~'; 2000], [7; mctc::ANSWER - 1]);
    let number = mctc::lent::join(&first, &second, &mut output, &mut short);
    assert_eq!(number, u32::MAX, "the answer is too short");
    assert_eq!((output, short), ([b'~'; 2000], [7; mctc::ANSWER - 1]));
}

/// The diesel's set, with this opacity file.
fn diesel(opacity: &[u8], places: &mut Places) -> Result<Acceptance, Refusal> {
    let ac2 = sample("accepted-diesel/AE305518.AC2");
    let set = Set {
        stem: b"AE305518",
        ac2: &ac2,
        opacity,
        ..Set::default()
    };
    mctc::judge(&set, places)
}

#[test]
fn a_diesel_is_judged_with_its_opacity() {
    let opacity = sample("accepted-diesel/AE305518.OPA");
    let mut places = Places::default();
    let unmarked = Acceptance {
        names_compared: 78 + 1540,
        opacity_seconds: 8 * 60 + 28,
        ..Acceptance::default()
    };
    assert_eq!(diesel(&opacity, &mut places), Ok(unmarked));
    let plate = places.value(7, 14).expect("Targa");
    assert_eq!(&opacity[plate], b"EZ518RM");
    assert_eq!(places.line(7, 14), Some(33));
    let last = places.value(7, 54).expect("Operatore");
    assert_eq!(&opacity[last], b"LUCIA FERRI");
    assert_eq!(places.line(7, 54), Some(32));
    assert_eq!(places.value(7, 55), None, "no entry has this number");
    assert_eq!(places.value(6, 0), None, "the answer has no entries");
    assert_eq!(places.line(6, 0), None, "and so no lines of entries");
    let between = &places.numbers()[3 * 12..3 * 139];
    assert!(between.iter().all(|number| *number == 0));

    let text = String::from_utf8(opacity).expect("a text");
    let code = text.replace("CodErrore=", "CodErrore=E21");
    let marked = Acceptance {
        opacity_mark: true,
        ..unmarked
    };
    assert_eq!(diesel(code.as_bytes(), &mut places), Ok(marked));
    assert_eq!(diesel(b"", &mut places), Err(refusal(11, 7, 0)));
    assert_eq!(places, Places::default(), "a refusal leaves zeros");
    let cold = text.replace("=-3\r", "=-100\r");
    assert_eq!(diesel(cold.as_bytes(), &mut places), Err(refusal(9, 7, 45)));
}

#[test]
fn opacity_is_read_and_written() {
    let text = sample("accepted-diesel/AE305518.OPA");
    let mut places = Places::default();
    assert_eq!(
        mctc::read(7, &text, &mut places),
        Ok(FileAcceptance::default()),
        "no speed of opacity is an idle speed"
    );
    let mut output = vec![0; text.len()];
    assert_eq!(
        mctc::write(&text, &places, 7, 0, &mut output),
        Ok(text.len())
    );
    assert!(output.starts_with(b"[AnalisiOpacita]\r\nMarcaOpacimetro="));
    assert_eq!(
        mctc::write(&text, &places, 7, 1, &mut output),
        Err(refusal(16, 7, 0))
    );
    let ac2 = sample("accepted-diesel/AE305518.AC2");
    let column = mctc::due(7, &ac2, &text, &mut places).expect("a column");
    assert_eq!((column.axles, column.entries.len()), (0, 55));
    let free = column.entries.iter().filter(|due| **due == Due::Free);
    assert_eq!(
        free.count(),
        9,
        "six that hang on the test, TempMinOlioMotore, Note, CodErrore"
    );
}

/// A gas file with another idle speed than `#850`.
fn gas_with_idle(speed: &str) -> Vec<u8> {
    let gas = sample("accepted-car/AA123456.GAS");
    let gas = String::from_utf8(gas).expect("a text");
    assert!(gas.contains("NumGiriMotoreMin=#850\r\n"));
    gas.replace("=#850\r\n", &format!("={speed}\r\n"))
        .into_bytes()
}

#[test]
fn a_set_says_whether_its_idle_speed_was_entered_by_hand() {
    let [ac2, acc, drift, suspension, identification] = ["AC2", "ACC", "DER", "SOS", "ID"]
        .map(|end| sample(&format!("accepted-car/AA123456.{end}")));
    let judge = |gas: &[u8]| {
        let set = Set {
            stem: b"AA123456",
            ac2: &ac2,
            acc: &acc,
            drift: &drift,
            suspension: &suspension,
            gas,
            identification: &identification,
            ..Set::default()
        };
        mctc::judge(&set, &mut Places::default())
    };
    let measured = Acceptance {
        drift_axles: 2,
        suspension_axles: 2,
        names_compared: 1494,
        drift_seconds: 2 * 60 + 42,
        suspension_seconds: 4 * 60 + 21,
        gas_seconds: 6 * 60 + 43,
        ..Acceptance::default()
    };
    let by_hand = Acceptance {
        idle_by_hand: true,
        ..measured
    };
    assert_eq!(judge(&gas_with_idle("#850")), Ok(by_hand));
    assert_eq!(judge(&gas_with_idle("850")), Ok(measured));
    assert_eq!(judge(&gas_with_idle("#")), Err(refusal(9, 5, 2)));
    assert_eq!(judge(&gas_with_idle("")), Err(refusal(10, 5, 2)));
}

#[test]
fn a_file_says_whether_its_idle_speed_was_entered_by_hand() {
    let by_hand = |file, text: &[u8]| {
        let read = mctc::read(file, text, &mut Places::default()).expect("it is read");
        assert_eq!(read.axles > 0, matches!(file, 3 | 4));
        read.idle_by_hand
    };
    assert!(by_hand(5, &gas_with_idle("#850")));
    assert!(by_hand(5, &gas_with_idle("#0")));
    assert!(!by_hand(5, &gas_with_idle("850")));
    assert!(!by_hand(5, &gas_with_idle("")), "there is no idle speed");
    for (file, end) in [(1, "AC2"), (2, "ACC"), (3, "DER"), (4, "SOS")] {
        let text = sample(&format!("accepted-car/AA123456.{end}"));
        assert!(!by_hand(file, &text), "{end} has no idle speed");
    }
}

/// The texts of a sample's set, whose files stand under this stem, with endings in capitals.
fn texts(stem: &str) -> [Vec<u8>; 7] {
    ["AC2", "ACC", "DER", "SOS", "GAS", "ID", "OPA"]
        .map(|ending| fs::read(samples().join(format!("{stem}.{ending}"))).unwrap_or_default())
}

/// The set of these texts.
fn set<'a>(stem: &'a str, texts: &'a [Vec<u8>; 7]) -> Set<'a> {
    let (_, name) = stem.split_once('/').expect("a folder");
    let [ac2, acc, drift, suspension, gas, identification, opacity] = texts;
    Set {
        stem: name.as_bytes(),
        ac2,
        acc,
        drift,
        suspension,
        gas,
        identification,
        opacity,
    }
}

fn judged(stem: &str) -> Result<Acceptance, Refusal> {
    mctc::judge(&set(stem, &texts(stem)), &mut Places::default())
}

fn accepted(stem: &str) -> Acceptance {
    judged(stem).expect("it is accepted")
}

/// The lines of the car and of the diesel's opacity stand in an order of their own.
#[test]
fn a_set_says_how_many_names_were_compared() {
    let section = |entries: u32| (1..=entries).sum::<u32>();
    let (new_booking, old_booking) = (section(12), section(6));
    let drift = section(16) + 2 * section(1);
    let suspension = section(16) + 2 * section(3);
    let gas = section(46) + section(7);
    let opacity = section(55);
    let with_axles = new_booking + old_booking + drift + suspension;
    let right = [
        ("accepted-car/AA123456", with_axles + gas),
        ("accepted-unknown-day/AF410986", with_axles + gas),
        ("accepted-diesel/AE305518", with_axles + opacity),
        // Its old booking is not read.
        ("accepted-moped/AD900123", new_booking + gas),
        // Drift of four axles.
        (
            "accepted-joined/AH117044",
            new_booking + old_booking + drift + 2 * section(1),
        ),
    ];
    for (stem, right) in right {
        assert_eq!(accepted(stem).names_compared, right, "{stem}");
    }
}

#[test]
fn a_set_says_how_long_its_measures_lasted() {
    let right = [
        ("accepted-car/AA123456", [162, 261, 403, 0]),
        ("accepted-diesel/AE305518", [95, 212, 0, 508]),
        ("accepted-moped/AD900123", [0, 0, 403, 0]),
        // Its drift went over midnight.
        ("accepted-midnight/AG280227", [40, 0, 0, 527]),
        // From the start of the first file to the end of the second.
        ("accepted-joined/AH117044", [466, 0, 0, 0]),
    ];
    for (stem, right) in right {
        let acceptance = accepted(stem);
        let seconds = [
            acceptance.drift_seconds,
            acceptance.suspension_seconds,
            acceptance.gas_seconds,
            acceptance.opacity_seconds,
        ];
        assert_eq!(seconds, right, "{stem}");
    }
}

#[test]
fn a_device_out_of_date_is_refused_at_its_due_date() {
    let right = [
        ("refused-19/AB120019", refusal(19, 5, 10)),
        ("refused-19-midnight/AB121919", refusal(19, 3, 7)),
    ];
    for (stem, right) in right {
        assert_eq!(judged(stem), Err(right), "{stem}");
    }
}

/// The line in which a byte of a text stands.
fn line_at(text: &[u8], place: usize) -> u32 {
    let ends = text[..place].iter().filter(|byte| **byte == b'\n');
    ends.count() as u32 + 1
}

/// Value and line of each entry of a file that the places have.
fn entries<'a>(file: u32, text: &'a [u8], places: &Places) -> Vec<(&'a [u8], u32)> {
    let entries = (0..).take_while(|entry| mctc::entry_name(file, *entry).is_ok());
    let entries = entries.filter_map(|entry| {
        let value = places.value(file, entry as usize);
        let line = places.line(file, entry as usize);
        assert_eq!(value.is_some(), line.is_some(), "file {file}, {entry}");
        let (value, line) = (value?, line?);
        assert_eq!(line, line_at(text, value.start), "file {file}, {entry}");
        Some((&text[value], line))
    });
    entries.collect()
}

#[test]
fn each_entry_has_its_line() {
    for (stem, right) in [
        ("accepted-car/AA123456", [12, 6, 18, 22, 53, 0, 0]),
        ("accepted-diesel/AE305518", [12, 6, 18, 22, 0, 0, 55]),
        // Its old booking is not read.
        ("accepted-moped/AD900123", [12, 0, 0, 0, 53, 0, 0]),
        ("refused-12/AB120012", [0; 7]),
    ] {
        let texts = texts(stem);
        let mut places = Places::default();
        let accepted = mctc::judge(&set(stem, &texts), &mut places).is_ok();
        let counts = [1, 2, 3, 4, 5, 6, 7].map(|file: u32| {
            let text = &texts[file as usize - 1];
            let of_set = entries(file, text, &places);
            // Reading the file alone and its due column give the same.
            if accepted && !of_set.is_empty() {
                let mut alone = Places::default();
                mctc::read(file, text, &mut alone).expect("it is read");
                assert_eq!(entries(file, text, &alone), of_set, "{stem}, {file}");
                let mut beside = Places::default();
                mctc::due(file, &texts[0], text, &mut beside).expect("a column");
                assert_eq!(beside, alone, "{stem}, {file}");
            }
            of_set.len()
        });
        assert_eq!(counts, right, "{stem}");
    }
}

#[test]
fn another_order_of_lines_has_the_same_values_on_other_lines() {
    let text = sample("accepted-car/AA123456.GAS");
    let mut places = Places::default();
    mctc::read(5, &text, &mut places).expect("it is read");
    // The analyser's make, its checksum, which is empty, and the idle speed: the second section stands first.
    let lines = |places: &Places| [0, 32, 51].map(|entry| places.line(5, entry));
    assert_eq!(lines(&places), [Some(37), Some(24), Some(2)]);

    let mut in_order = vec![0; text.len()];
    mctc::write(&text, &places, 5, 0, &mut in_order).expect("it is written");
    let mut others = Places::default();
    mctc::read(5, &in_order, &mut others).expect("it is read");
    assert_eq!(lines(&others), [Some(2), Some(34), Some(54)]);
    let values = |text, places| -> Vec<_> {
        let entries = entries(5, text, places).into_iter();
        entries.map(|(value, _)| value.to_vec()).collect()
    };
    assert_eq!(values(&text, &places), values(&in_order, &others));
}

/// Places as numbers, with others than the lines that reading gave.
fn with_lines(places: &Places, line: impl Fn(u32) -> u32) -> Vec<u32> {
    let mut numbers = places.numbers().to_vec();
    for triple in numbers.chunks_exact_mut(3) {
        triple[2] = line(triple[2]);
    }
    numbers
}

/// What `mctc_write` gives of a drift file: the answer and the output. `mctc_quote` and `mctc_commit` give the same.
fn written(text: &[u8], places: &[u32]) -> ([u32; mctc::ANSWER], Vec<u8>) {
    let output = || vec![b'~'; text.len() + 8];
    let (mut answer, mut written) = ([7; mctc::ANSWER], output());
    let number = mctc::lent::write(text, places, 3, 3, &mut written, &mut answer);
    assert_eq!(number, answer[0]);

    let mut others = [7; mctc::ANSWER];
    mctc::lent::quote(text, places, 3, 3, &mut others);
    assert_eq!(others, answer);
    let (length, mut committed) = (answer[3], output());
    mctc::lent::commit(text, places, 3, 3, length, &mut committed, &mut others);
    assert_eq!((others, &committed), (answer, &written));
    (answer, written)
}

#[test]
fn writing_looks_at_no_line() {
    let text = sample("accepted-trailer/AC204711.der");
    let mut places = Places::default();
    mctc::read(3, &text, &mut places).expect("it is read");
    // Written, refused at a value that is no number (9), and at one outside the text (17).
    let no_number = [&text[..text.len() - 3], b"x\r\n"].concat();
    let cut_off = &text[..text.len() - 4];
    for (text, number) in [(&text[..], 0), (&no_number, 9), (cut_off, 17)] {
        let right = written(text, places.numbers());
        assert_eq!(right.0[0], number);
        for line in [|_| 0, |_| u32::MAX, |line: u32| line.wrapping_sub(3)] {
            assert_eq!(written(text, &with_lines(&places, line)), right);
        }
    }
    let refused = written(cut_off, places.numbers()).0;
    assert_eq!(refused[1..3], [3, 23], "the line that it would have");
}

/// A call that is lent places and an answer.
type LentCall<'a> = &'a dyn Fn(&mut [u32], &mut [u32]) -> u32;

#[test]
fn places_have_at_least_582_numbers() {
    let text = sample("accepted-trailer/AC204711.der");
    let ac2 = sample("accepted-trailer/AC204711.ac2");
    let set = Set {
        stem: b"AC204711",
        ac2: &ac2,
        drift: &text,
        ..Set::default()
    };
    let (_, places) = placed(3, "accepted-trailer/AC204711.der");
    let length = mctc::quote(&text, &places, 3, 3).expect("a length") as u32;
    let calls: [LentCall; 7] = [
        &|places, answer| mctc::lent::judge(&set, places, answer),
        &|places, answer| mctc::lent::read(3, &text, places, answer),
        &|places, answer| mctc::lent::due(3, &ac2, &text, places, &mut [0; 25], answer),
        // The output is too short (18), which comes after the places.
        &|places, answer| mctc::lent::write(&text, places, 3, 3, &mut [], answer),
        &|places, answer| mctc::lent::quote(&text, places, 3, 3, answer),
        // The length is not the quoted one (22); it is, and the output is too short (18).
        &|places, answer| mctc::lent::commit(&text, places, 3, 3, 0, &mut [], answer),
        &|places, answer| mctc::lent::commit(&text, places, 3, 3, length, &mut [], answer),
    ];
    for (call, right) in calls.into_iter().zip([0, 0, 0, 18, 0, 22, 18]) {
        let mut answer = [0; mctc::ANSWER];
        let mut short = [9; 581];
        assert_eq!(call(&mut short, &mut answer), 1);
        assert_eq!(answer[..3], [1, 0, 0]);
        assert_eq!(short, [9; 581], "they stay");

        let mut read = Places::default();
        mctc::read(3, &text, &mut read).expect("it is read");
        let mut longer = [read.numbers(), &[9; 8][..]].concat();
        assert_eq!(call(&mut longer, &mut answer), right);
        assert_eq!(longer[582..], [9; 8], "those past the first 582 stay");
    }
}

#[test]
fn a_column_says_what_is_due() {
    let ac2 = sample("refused-10-filled/AB121010.AC2");
    let mut places = Places::default();
    let column = mctc::due(1, &ac2, &ac2, &mut places).expect("a column");
    let found: Vec<bool> = (0..column.entries.len())
        .map(|entry| {
            places
                .value(1, entry)
                .is_some_and(|value| !value.is_empty())
        })
        .collect();
    let disagreeing: Vec<usize> = (0..12)
        .filter(|at| column.entries[*at] != if found[*at] { Due::Due } else { Due::NotDue })
        .collect();
    // Turbo, filled and not due.
    assert_eq!(disagreeing, [6]);
    assert_eq!(mctc::due(1, &[], &[], &mut places), Err(refusal(11, 1, 0)));

    let drift = sample("refused-09/AB120009.DER");
    assert_eq!(
        mctc::due(3, &ac2, &drift, &mut places),
        Err(refusal(9, 3, 19))
    );
}

#[test]
fn entries_and_headings_have_names() {
    let last = mctc::entry_name(5, 52).expect("the last entry of gas");
    assert_eq!((last.name.as_str(), last.section), ("COMinAcc", 1));
    assert_eq!(mctc::entry_name(5, 53), Err(refusal(16, 5, 0)));
    let last = mctc::entry_name(7, 54).expect("the last entry of opacity");
    assert_eq!((last.name.as_str(), last.section), ("Operatore", 0));
    assert_eq!(mctc::entry_name(7, 55), Err(refusal(16, 7, 0)));
    assert_eq!(
        mctc::heading_name(4, 9).as_deref(),
        Ok("[SospensioniAsse_9]")
    );
    assert_eq!(mctc::heading_name(4, 10), Err(refusal(16, 4, 0)));
    assert_eq!(mctc::heading_name(7, 0).as_deref(), Ok("[AnalisiOpacita]"));
    assert_eq!(mctc::heading_name(7, 1), Err(refusal(16, 7, 0)));
}

#[test]
fn entries_have_kinds() {
    let category = mctc::kind(1, 2).expect("CategoriaInternazionale");
    assert_eq!((category.form, category.most), (mctc::Form::Word, 3));
    assert_eq!(category.words.len(), 17);
    assert_eq!(category.words.first().map(String::as_str), Some("M1"));
    assert_eq!(category.words.last().map(String::as_str), Some("L7e"));
    let carbon_monoxide = mctc::Kind {
        form: mctc::Form::Fixed,
        most: 5,
        decimals: 3,
        words: Vec::new(),
    };
    assert_eq!(mctc::kind(5, 46), Ok(carbon_monoxide));
    assert_eq!(mctc::kind(5, 53), Err(refusal(16, 5, 0)));
    let shape = |entry| {
        let kind = mctc::kind(7, entry).expect("an entry of opacity");
        (kind.form, kind.most, kind.decimals)
    };
    assert_eq!(shape(14), (mctc::Form::Targa, 10, 0));
    assert_eq!(shape(15), (mctc::Form::NumberByHand, 6, 0));
    assert_eq!(shape(16), (mctc::Form::Fixed, 3, 1));
    assert_eq!(shape(20), (mctc::Form::FixedByHand, 6, 1));
    assert_eq!(shape(32), (mctc::Form::TempAmbiente, 4, 0));
    assert_eq!(shape(33), (mctc::Form::NumberByHand, 4, 0));
    let outcome = mctc::kind(7, 34).expect("Esito");
    assert_eq!(outcome.words, ["R", "I", "N"]);
}

#[test]
fn entries_and_files_have_reasons() {
    let reason = |test, file, entry| mctc::Reason { test, file, entry };
    let directive = mctc::Condition {
        asked: mctc::Asked::When,
        groups: vec![
            vec![reason(mctc::Test::Petrol, 1, 5)],
            vec![reason(mctc::Test::MOrN, 1, 2)],
        ],
    };
    assert_eq!(mctc::condition(1, 8), Ok(directive));
    let bench_key = mctc::condition(5, 30).expect("IDChiaveProvaVelocitaRS");
    let groups: Vec<usize> = bench_key.groups.iter().map(Vec::len).collect();
    assert_eq!(groups, [1, 2]);
    let old_booking = mctc::Condition {
        asked: mctc::Asked::OnlyWhen,
        groups: vec![vec![
            reason(mctc::Test::NotL, 1, 2),
            reason(mctc::Test::NineStem, 0, 0),
        ]],
    };
    assert_eq!(mctc::file_condition(2), Ok(old_booking));
    let opacity = mctc::Condition {
        asked: mctc::Asked::When,
        groups: vec![
            vec![reason(mctc::Test::Diesel, 1, 5)],
            vec![reason(mctc::Test::MOrN, 1, 2)],
        ],
    };
    assert_eq!(mctc::file_condition(7), Ok(opacity));
    let checksum = mctc::Condition {
        asked: mctc::Asked::When,
        groups: vec![
            vec![reason(mctc::Test::Version200, 7, 36)],
            vec![reason(mctc::Test::SerialLink, 7, 38)],
        ],
    };
    assert_eq!(mctc::condition(7, 44), Ok(checksum), "its own links decide");
    assert_eq!(mctc::condition(1, 12), Err(refusal(16, 1, 0)));
    assert_eq!(mctc::file_condition(8), Err(refusal(16, 8, 0)));
    assert!(mctc::Test::Petrol.passes(b"BENZINA"));
    assert!(!mctc::Test::Petrol.passes(b"benzina"));
}

#[test]
fn the_identification_answer_has_fields() {
    let text = b"\x02GAS\x171\x17ID\x17a\x17b\x17c\x17d\x17e\x17f\x17g83\x03";
    let mut text = text.to_vec();
    let sum = text[1..text.len() - 3]
        .iter()
        .map(|byte| u32::from(*byte))
        .sum::<u32>()
        % 256;
    let at = text.len() - 3;
    text.splice(at..at + 2, format!("{sum:02X}").into_bytes());
    let fields = mctc::identification(&text).expect("a well-formed answer");
    let fields: Vec<&[u8]> = fields.into_iter().map(|field| &text[field]).collect();
    assert_eq!(
        fields,
        [
            &b"GAS"[..],
            b"1",
            b"ID",
            b"a",
            b"b",
            b"c",
            b"d",
            b"e",
            b"f",
            b"g"
        ]
    );
    assert_eq!(mctc::identification(b"GAS"), Err(refusal(14, 6, 0)));
    assert_eq!(mctc::field_entry(3), Ok(0));
    assert_eq!(mctc::field_entry(7), Ok(5));
    assert_eq!(mctc::field_entry(9), Ok(22));
    assert_eq!(mctc::field_entry(2), Err(refusal(16, 0, 0)));
}
