//! Where the program's advice leads: the mending that it gives first is done, again and again. No set may come to be
//! accepted by that without a test that the vehicle needs.

use std::ffi::{OsStr, OsString};
use std::fs;
use std::os::unix::ffi::OsStrExt;
use std::path::{Path, PathBuf};

use crate::broken::{broken_sets, files, DIESEL};
use crate::common::{empty_folder, put, repository, run, Folder, ENDINGS};
use outside::comparison::set_case;
use outside::generator::record;
use outside::judge::{Call, Set};
use outside::random::Random;

/// More mendings than any broken set needs.
const MOST_STEPS: usize = 20;

/// The broken sets that are accepted once the advice is obeyed, besides those that are accepted as they are.
const MENDED: [&str; 42] = [
    "01-lf-only",
    "02-bom",
    "03-trailing-blank",
    "04-lowercase-word",
    "05-decimal-comma",
    "07-dup-line",
    "08-date-yyyymmdd",
    "09-space-after-word",
    "10-space-after-num",
    "102-month-00",
    "21-small-stem",
    "26-tab-indent",
    "27-spaces-round-eq",
    "28-comment",
    "29-case-name",
    "30-case-heading",
    "33-time-colon",
    "34-grip-float",
    "35-deriva-plus",
    "38-year-acc",
    "39-acc-fuel",
    "40-id-textmode",
    "45-ctrl-z",
    "46-blank-mid",
    "47-cr-only",
    "48-date-slashes",
    "49-rpm-nohash-6digits",
    "50-typo-entry",
    "51-lf-one-line",
    "54-co-3dec",
    "61-fuel-small-letters",
    "68-diesel-small-letters",
    "69-peak-comma",
    "70-peak-one-digit",
    "71-limit-two-digits",
    "74-temperature-plus",
    "75-mark-behind",
    "76-mark-and-space",
    "80-humidity-float",
    "82-outcome-small",
    "95-marks",
    "99-day-00",
];

/// Generated sets; seeds apart from those of other tests.
const GENERATED: u64 = 300;
const GENERATED_FUELS: u64 = 600;
const FIRST_SEED: u64 = 10 << 40;
const FIRST_RECORD: u64 = 11 << 40;

/// The member `mend` of an answer.
struct Mend {
    file: usize,
    line: usize,
    action: String,
    text: Vec<u8>,
}

impl Mend {
    fn of(answer: &str) -> Option<Mend> {
        let (_, mend) = answer.split_once("\"mend\":{")?;
        let member = |key: &str| mend.split_once(&format!("\"{key}\":")).expect("a member").1;
        let number = |key: &str| {
            let digits = member(key).split(',').next().expect("a number");
            digits.parse().expect("a number")
        };
        Some(Mend {
            file: number("file"),
            line: number("line"),
            action: string(member("action"))
                .expect("an action")
                .into_iter()
                .map(char::from)
                .collect(),
            text: string(member("text")).unwrap_or_default(),
        })
    }
}

/// A JSON string whose characters are bytes; None for null.
fn string(text: &str) -> Option<Vec<u8>> {
    let mut characters = text.strip_prefix('"')?.chars();
    let mut bytes = Vec::new();
    loop {
        let character = match characters.next().expect("the string ends") {
            '"' => return Some(bytes),
            '\\' => match characters.next().expect("what is escaped") {
                'u' => {
                    let digits: String = characters.by_ref().take(4).collect();
                    char::from(u8::from_str_radix(&digits, 16).expect("a byte"))
                }
                other => other,
            },
            other => other,
        };
        bytes.push(u8::try_from(u32::from(character)).expect("a byte"));
    }
}

/// The files of a set that are not empty, by the place of their endings.
fn given(folder: &Path, stem: &OsStr) -> [Option<PathBuf>; ENDINGS.len()] {
    let mut given: [Option<PathBuf>; ENDINGS.len()] = Default::default();
    for path in files(folder) {
        let ending = path.extension().unwrap_or_default().to_ascii_uppercase();
        let at = ENDINGS.iter().position(|other| ending == *other);
        let is_filled = fs::metadata(&path).is_ok_and(|file| file.is_file() && file.len() > 0);
        if let Some(at) = at.filter(|_| is_filled && path.file_stem() == Some(stem)) {
            given[at] = Some(path);
        }
    }
    given
}

/// Does what the advice says; the stem of the set after it.
fn obey(folder: &Path, stem: &OsStr, mend: &Mend) -> OsString {
    if mend.action == "rename" {
        let stem = OsStr::from_bytes(&mend.text).to_owned();
        for path in files(folder) {
            let mut name = stem.clone();
            name.push(".");
            name.push(path.extension().expect("an ending"));
            fs::rename(&path, folder.join(name)).expect("another name");
        }
        return stem;
    }
    let path = given(folder, stem)[mend.file - 1]
        .clone()
        .expect("the file");
    let text = match mend.action.as_str() {
        "line ends" => {
            let output = run(
                folder,
                &[OsStr::new("format"), OsStr::new("--mend"), path.as_os_str()],
            );
            assert_eq!(output.status.code(), Some(0), "{}", path.display());
            output.stdout
        }
        "content" => mend.text.clone(),
        _ => with_line(&fs::read(&path).expect("a file"), mend),
    };
    fs::write(&path, text).expect("the file is written");
    stem.to_owned()
}

fn with_line(text: &[u8], mend: &Mend) -> Vec<u8> {
    let mut lines: Vec<Vec<u8>> = text
        .split_inclusive(|byte| *byte == b'\n')
        .map(<[u8]>::to_vec)
        .collect();
    let new = [&mend.text[..], b"\r\n"].concat();
    match mend.action.as_str() {
        "replace" => lines[mend.line - 1] = new,
        "delete" => drop(lines.remove(mend.line - 1)),
        "insert" => lines.insert(mend.line, new),
        other => panic!("no action {other}"),
    }
    lines.concat()
}

/// The stem of a folder's set: of its booking, or of gas where that is missing.
fn stem_of(folder: &Path) -> OsString {
    let is_one = |path: &PathBuf| {
        let ending = path.extension();
        ending.is_some_and(|ending| ending == "AC2" || ending == "GAS")
    };
    let path = files(folder).into_iter().find(is_one);
    let path = path.expect("a booking, or gas");
    path.file_stem().expect("a stem").to_owned()
}

/// Whether the set is accepted in the end, and after how many mendings.
fn obeyed(folder: &Path, mut stem: OsString) -> (bool, usize) {
    for step in 0..MOST_STEPS {
        let words = [
            OsStr::new("judge"),
            OsStr::new("."),
            &stem,
            OsStr::new("--json"),
        ];
        let answer = String::from_utf8(run(folder, &words).stdout).expect("JSON is UTF-8");
        if answer.contains("\"accepted\":true") {
            return (true, step);
        }
        let before = given(folder, &stem);
        let Some(mend) = Mend::of(&answer) else {
            return (false, step);
        };
        stem = obey(folder, &stem, &mend);
        let after = given(folder, &stem);
        for (before, after) in before.iter().zip(&after) {
            let taken_out = before.is_some() && after.is_none();
            assert!(
                !taken_out,
                "{}: a file was taken out: {answer}",
                folder.display()
            );
        }
    }
    panic!("{}: the advice has no end", folder.display());
}

/// Whether a folder has a file with this ending that is not empty.
fn has(folder: &Path, ending: &str) -> bool {
    files(folder).iter().any(|path| {
        let is_it = path.extension().is_some_and(|other| other == ending);
        is_it && fs::metadata(path).is_ok_and(|file| file.len() > 0)
    })
}

#[test]
fn no_test_is_left_out_by_obeying() {
    let mut mended = Vec::new();
    let root = broken_sets("obeyed");
    for folder in files(&root) {
        let name = folder
            .file_name()
            .expect("a name")
            .to_string_lossy()
            .into_owned();
        let stem = stem_of(&folder);
        // All others are made from vehicles with petrol.
        let needed = if stem == DIESEL.stem { "OPA" } else { "GAS" };
        let (accepted, steps) = obeyed(&folder, stem);
        assert!(
            !accepted || has(&folder, needed),
            "{name}: accepted without its {needed}"
        );
        if accepted && steps > 0 {
            mended.push(name);
        }
    }
    mended.sort();
    assert_eq!(mended, MENDED);
}

/// A petrol car's files with the fuel in small letters, and what somebody may have taken out already.
fn small_letters(name: &str, directive: bool, endings: &[&str]) -> Folder {
    let folder = empty_folder(name);
    for ending in endings {
        let sample = format!("samples/accepted-car/AA123456.{ending}");
        let text = fs::read(repository().join(sample)).expect("a sample");
        put(folder.join(format!("AA123456.{ending}")), text);
    }
    let path = folder.join("AA123456.AC2");
    let text = fs::read_to_string(&path).expect("a text");
    let text = text.replace("=BENZINA\r", "=benzina\r");
    put(
        path,
        match directive {
            true => text,
            false => text.replace("=98/69/CE", "="),
        },
    );
    folder
}

/// Whatever was taken out before: obeying puts the fuel right, and then what is missing is asked for.
#[test]
fn the_cause_is_mended_first() {
    let cases: [(bool, &[&str], &str); 6] = [
        (true, &["AC2", "GAS", "ID"], "\"accepted\":true"),
        (
            false,
            &["AC2", "GAS", "ID"],
            "\"meaning\":\"due, but empty\"",
        ),
        (true, &["AC2", "ID"], "\"meaning\":\"missing, but due\""),
        (true, &["AC2"], "\"meaning\":\"missing, but due\""),
        (false, &["AC2", "ID"], "\"meaning\":\"due, but empty\""),
        (false, &["AC2", "ACC"], "\"meaning\":\"due, but empty\""),
    ];
    for (at, (directive, endings, last)) in cases.into_iter().enumerate() {
        let folder = small_letters(&format!("obeyed-fuel-{at}"), directive, endings);
        let (accepted, steps) = obeyed(&folder, "AA123456".into());
        let has_gas = has(&folder, "GAS");
        assert_eq!((accepted, steps), (accepted && has_gas, 1), "{at}");
        let answer = run(&folder, &["judge", ".", "AA123456", "--json"]).stdout;
        let answer = String::from_utf8(answer).expect("JSON is UTF-8");
        assert!(answer.contains(last), "{at}: {answer}");
    }
}

/// With all of it taken out the judge accepts, and the program says what may be missing.
#[test]
fn a_doubtful_fuel_is_noted() {
    let folder = small_letters("obeyed-note", false, &["AC2"]);
    let answer = run(&folder, &["judge", ".", "AA123456"]).stdout;
    let answer = String::from_utf8(answer).expect("a text");
    assert!(answer.contains("accepted"), "{answer}");
    assert!(answer.contains("  note     AC2 line 8"), "{answer}");
}

/// A fuel by which a test is due, and what may go wrong with it.
struct Fuel {
    word: &'static str,
    /// The ending of the test's file.
    test: &'static str,
    /// How the names of the entries of the new booking begin that are filled with it.
    entries: &'static [&'static str],
    /// How it may be written wrong, and other fuels.
    written: [&'static str; 8],
    /// The files that may be gone.
    gone: [&'static [&'static str]; 4],
}

const PETROL: Fuel = Fuel {
    word: "BENZINA",
    test: "GAS",
    entries: &["DirettivaEmissioniGas"],
    written: [
        "benzina",
        "BENZINA ",
        "Benzina",
        "BENZNA",
        "BENZINA CAT",
        "GPL",
        "METANO",
        "DIESEL",
    ],
    gone: [&[], &["GAS"], &["GAS", "ID"], &["ACC", "GAS", "ID"]],
};

const DIESEL_FUEL: Fuel = Fuel {
    word: "DIESEL",
    test: "OPA",
    entries: &["Turbo", "CorrettorePressione"],
    written: [
        "diesel",
        "DIESEL ",
        "Diesel",
        "DISEL",
        "DIESEL TURBO COMPRESSO",
        "GASOLIO",
        "GPL",
        "METANO",
    ],
    gone: [&[], &["OPA"], &["OPA", "DER"], &["ACC", "OPA"]],
};

/// Fuels that are written right, so that nothing in the new booking says that another is meant.
const OTHER_FUELS: [&str; 3] = ["GPL", "METANO", "DIESEL"];

fn slice<'a>(set: &'a mut Set, ending: &str) -> &'a mut Vec<u8> {
    let at = ENDINGS.iter().position(|other| *other == ending);
    &mut set.slices[at.expect("an ending of a set")]
}

fn booking(set: &Set) -> String {
    String::from_utf8(set.slices[0].clone()).expect("a text")
}

impl Fuel {
    /// Whether a vehicle has this fuel and needs the test.
    fn is_of(&self, set: &Set) -> bool {
        let ac2 = booking(set);
        let has = |line: &str| ac2.contains(line);
        let category = |letter: &str| has(&format!("CategoriaInternazionale={letter}"));
        let is_tested = self.test == "GAS" || category("M") || category("N");
        has(&format!("Alimentazione_1={}\r", self.word)) && is_tested
    }

    /// The fuel written otherwise, with what is due with that.
    fn write(&self, set: &mut Set, fuel: &str) {
        let old = format!("Alimentazione_1={}\r", self.word);
        let written = booking(set).replace(&old, &format!("Alimentazione_1={fuel}\r"));
        let written = match fuel {
            "DIESEL" => written
                .replace("Turbo=\r", "Turbo=S\r")
                .replace("CorrettorePressione=\r", "CorrettorePressione=N\r"),
            _ => written,
        };
        set.slices[0] = written.into_bytes();
    }

    /// What may have been taken out of a set, to make it pass with its fuel written wrong.
    fn take_out(&self, set: &mut Set, which: usize) {
        let ac2 = booking(set);
        let lines = ac2.split_inclusive('\n');
        let is_of_fuel = |line: &&str| self.entries.iter().any(|name| line.starts_with(name));
        let emptied = |line: &str| format!("{}=\r\n", line.split('=').next().expect("a name"));
        let lines: String = match which % 4 {
            1 => lines
                .map(|line| match is_of_fuel(&line) {
                    true => emptied(line),
                    false => line.to_string(),
                })
                .collect(),
            2 => lines.filter(|line| !is_of_fuel(line)).collect(),
            _ => lines.collect(),
        };
        set.slices[0] = lines.into_bytes();
        for ending in self.gone[which / 4 % 4] {
            slice(set, ending).clear();
        }
    }
}

/// Whether nothing in a set says that its vehicle, which has another fuel, is one that needs the test: no old booking is
/// read.
fn nothing_contradicts(set: &Set, fuel: &str) -> bool {
    let acc = !set.slices[1].is_empty() && !booking(set).contains("CategoriaInternazionale=L");
    OTHER_FUELS.contains(&fuel) && !acc
}

/// Generated vehicles of a fuel, written wrong or as another, and more taken out: advice never leads to acceptance
/// without the test where something says that it is due, nor to taking out what may be that test. What the judge accepts
/// as it stands has a note.
fn no_vehicle_goes_without(fuel: &Fuel) {
    let root = empty_folder(&format!("obeyed-{}", fuel.test));
    let (mut tried, mut mended) = (0, 0);
    for at in 0..GENERATED_FUELS {
        let mut set = record(&mut Random::new(FIRST_RECORD + at)).set;
        if !fuel.is_of(&set) {
            continue;
        }
        let written = fuel.written[tried % fuel.written.len()];
        fuel.write(&mut set, written);
        fuel.take_out(&mut set, tried / fuel.written.len());
        let folder = root.join(at.to_string());
        let stem = String::from_utf8(set.stem.clone()).expect("a stem");
        for (ending, slice) in ENDINGS.iter().zip(&set.slices) {
            if !slice.is_empty() {
                put(folder.join(format!("{stem}.{ending}")), slice);
            }
        }
        let (accepted, steps) = obeyed(&folder, stem.clone().into());
        let answer = run(&folder, &["judge", ".", &stem, "--json"]).stdout;
        let answer = String::from_utf8(answer).expect("JSON is UTF-8");
        let noted = answer.contains("has Alimentazione_1=");
        assert!(
            !accepted
                || has(&folder, fuel.test)
                || (steps == 0 && noted)
                || nothing_contradicts(&set, written),
            "{}: accepted without {}: {answer}",
            folder.display(),
            fuel.test
        );
        assert!(
            OTHER_FUELS.contains(&written) || !answer.contains("last resort"),
            "{}: something is to be taken out: {answer}",
            folder.display()
        );
        tried += 1;
        mended += usize::from(accepted && steps > 0);
    }
    assert!(tried > 50 && mended > 5, "{tried} tried, {mended} mended");
}

#[test]
fn no_petrol_vehicle_goes_without_gas() {
    no_vehicle_goes_without(&PETROL);
}

#[test]
fn no_diesel_goes_without_opacity() {
    no_vehicle_goes_without(&DIESEL_FUEL);
}

/// Generated sets, most of them broken in several places: the advice comes to an end, and takes no file out.
#[test]
fn advice_has_an_end() {
    let root = empty_folder("obeyed-generated");
    let mut mended = 0;
    for at in 0..GENERATED {
        let Call::Judge { set, .. } = set_case(FIRST_SEED + at).call else {
            continue;
        };
        let (folder, stem) = (root.join(at.to_string()), "AB123456");
        fs::create_dir_all(&folder).expect("a folder");
        for (ending, slice) in ENDINGS.iter().zip(&set.slices) {
            if !slice.is_empty() {
                put(folder.join(format!("{stem}.{ending}")), slice);
            }
        }
        let (accepted, steps) = obeyed(&folder, stem.into());
        mended += usize::from(accepted && steps > 0);
    }
    assert!(mended > 0, "no generated set was mended");
}
