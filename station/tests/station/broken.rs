//! Sets broken as real life breaks them, made from the samples: what the program says of each, and where its advice
//! leads.

use std::ffi::OsStr;
use std::fs::{self, File, OpenOptions, Permissions};
use std::os::unix::ffi::OsStrExt;
use std::os::unix::fs::{symlink, PermissionsExt};
use std::path::{Path, PathBuf};
use std::process::Command;

use crate::common::{changed, empty_folder, put, repository, run, Change, Folder};
use crate::transcripts::check;

/// A sample that broken sets are made from.
pub struct Sample {
    folder: &'static str,
    pub stem: &'static str,
}

const CAR: Sample = Sample {
    folder: "accepted-car",
    stem: "AA123456",
};

pub const DIESEL: Sample = Sample {
    folder: "accepted-diesel",
    stem: "AE305518",
};

impl Sample {
    /// The file of its copy.
    fn file(&self, folder: &Path, ending: &str) -> PathBuf {
        folder.join(format!("{}.{ending}", self.stem))
    }
}

/// The folder in which the broken sets are made.
struct Broken {
    folder: Folder,
}

impl Broken {
    /// A set's folder, with a copy of a sample.
    fn copy(&self, name: &str, sample: &str) -> PathBuf {
        let folder = self.folder.join(name);
        fs::create_dir_all(&folder).expect("a folder");
        for path in files(&repository().join("samples").join(sample)) {
            let name = path.file_name().expect("a name");
            fs::copy(&path, folder.join(name)).expect("a copy");
        }
        folder
    }

    fn car(&self, name: &str) -> PathBuf {
        self.copy(name, CAR.folder)
    }

    fn diesel(&self, name: &str) -> PathBuf {
        self.copy(name, DIESEL.folder)
    }

    /// A copy of the car with one file changed.
    fn edit(&self, name: &str, ending: &str, change: impl FnOnce(Vec<u8>) -> Vec<u8>) {
        change_file(&file_of_car(&self.car(name), ending), change);
    }

    /// A copy of the car in which these bytes stand instead of those.
    fn replace(&self, name: &str, ending: &str, old: &[u8], new: &[u8]) {
        self.edit(name, ending, |text| replaced(&text, old, new));
    }

    /// A copy of the diesel in whose opacity file this stands instead of that.
    fn opacity(&self, name: &str, old: &str, new: &str) {
        self.diesel_file(name, "OPA", old, new);
    }

    /// The same in any of its files.
    fn diesel_file(&self, name: &str, ending: &str, old: &str, new: &str) {
        change_file(&DIESEL.file(&self.diesel(name), ending), |text| {
            replaced(&text, old.as_bytes(), new.as_bytes())
        });
    }

    /// A copy of the car whose day is not known, with changes.
    fn unknown_day(&self, name: &str, changes: &[Change]) {
        let folder = self.folder.join(name);
        for (file, text) in changed("accepted-unknown-day", changes) {
            put(folder.join(file), text);
        }
    }

    /// A copy of the car without one file; its path.
    fn without(&self, name: &str, ending: &str) -> PathBuf {
        let path = file_of_car(&self.car(name), ending);
        fs::remove_file(&path).expect("a file is removed");
        path
    }
}

fn change_file(path: &Path, change: impl FnOnce(Vec<u8>) -> Vec<u8>) {
    let before = fs::read(path).expect("a file");
    let after = change(before.clone());
    assert_ne!(before, after, "{}: the sample has changed", path.display());
    fs::write(path, after).expect("a file is written");
}

/// The files of a folder.
pub fn files(folder: &Path) -> Vec<PathBuf> {
    let entries = fs::read_dir(folder).expect("a folder");
    entries.map(|entry| entry.expect("a file").path()).collect()
}

fn file_of_car(folder: &Path, ending: &str) -> PathBuf {
    CAR.file(folder, ending)
}

fn replaced(text: &[u8], old: &[u8], new: &[u8]) -> Vec<u8> {
    let mut result = Vec::new();
    let mut rest = text;
    while let Some(first) = rest.first() {
        if let Some(behind) = rest.strip_prefix(old) {
            result.extend(new);
            rest = behind;
        } else {
            result.push(*first);
            rest = &rest[1..];
        }
    }
    result
}

/// Gives the files of a folder another stem.
fn rename_all(folder: &Path, stem: &[u8]) {
    for path in files(folder) {
        let ending = path.extension().expect("an ending").as_bytes();
        let name = [stem, b".", ending].concat();
        fs::rename(&path, folder.join(OsStr::from_bytes(&name))).expect("another name");
    }
}

/// UTF-16 with its byte order mark.
fn utf16(text: &[u8]) -> Vec<u8> {
    let wide = text.iter().flat_map(|byte| [*byte, 0]);
    [0xFF, 0xFE].into_iter().chain(wide).collect()
}

/// Bytes without any form, the same in every run.
fn formless(count: usize) -> Vec<u8> {
    let mut state = 1_u32;
    let mut next = || {
        state = state.wrapping_mul(1_664_525).wrapping_add(1_013_904_223);
        state.to_be_bytes()[0]
    };
    (0..count).map(|_| next()).collect()
}

/// An identification answer with these bytes between 02 hex and the checksum.
pub fn identification(inner: &[u8]) -> Vec<u8> {
    let sum = inner.iter().fold(0_u8, |sum, byte| sum.wrapping_add(*byte));
    let end = format!("{sum:02X}\x03");
    [b"\x02", inner, end.as_bytes()].concat()
}

/// How many sets there are.
const COUNT: usize = 107;

/// All of them, in a new folder of this name.
pub fn broken_sets(name: &str) -> Folder {
    let broken = Broken {
        folder: empty_folder(name),
    };
    texts_as_a_whole(&broken);
    files_on_disk(&broken);
    lines(&broken);
    values(&broken);
    several_files(&broken);
    opacity_as_a_whole(&broken);
    opacity_values(&broken);
    names_and_marks(&broken);
    unknown_days(&broken);
    days_and_times(&broken);
    broken.folder
}

/// Line ends, marks and encodings.
fn texts_as_a_whole(broken: &Broken) {
    broken.replace("01-lf-only", "DER", b"\r\n", b"\n");
    broken.edit("02-bom", "AC2", |text| {
        [b"\xEF\xBB\xBF", &text[..]].concat()
    });
    broken.edit("11-utf16", "DER", |text| utf16(&text));
    broken.edit("12-empty-der", "DER", |_| Vec::new());
    broken.edit("13-empty-gas", "GAS", |_| Vec::new());
    broken.edit("17-binary", "SOS", |_| formless(3000));
    broken.edit("32-no-final-crlf", "DER", |text| {
        text[..text.len() - 2].to_vec()
    });
    broken.edit("45-ctrl-z", "DER", |text| [&text[..], b"\x1A"].concat());
    broken.replace("47-cr-only", "DER", b"\r\n", b"\r");

    let path = file_of_car(&broken.car("16-huge"), "DER");
    let file = OpenOptions::new().write(true).open(path).expect("a file");
    file.set_len(50_000_000).expect("a long file");
}

/// Names, folders, links and pipes.
fn files_on_disk(broken: &Broken) {
    let folder = broken.car("14-ext-mixed-case");
    fs::rename(file_of_car(&folder, "DER"), file_of_car(&folder, "Der")).expect("another name");
    let folder = broken.car("15-ext-both");
    fs::copy(file_of_car(&folder, "DER"), file_of_car(&folder, "der")).expect("a copy");
    fs::create_dir(broken.without("18-dir-as-file", "DER")).expect("a folder");
    let path = file_of_car(&broken.car("19-unreadable"), "DER");
    fs::set_permissions(path, Permissions::from_mode(0o000)).expect("no permissions");
    let path = broken.without("20-symlink-loop", "DER");
    symlink(path.file_name().expect("a name"), &path).expect("a link");
    rename_all(&broken.car("21-small-stem"), b"aa123456");
    broken.car("22-two-sets");
    broken.copy("22-two-sets", "accepted-trailer");
    rename_all(&broken.car("23-nonutf8-name"), b"AA\xE81234");
    symlink("nowhere", broken.without("55-dangling-link", "DER")).expect("a link");
    let pipe = broken.without("56-fifo", "DER");
    let made = Command::new("mkfifo").arg(pipe).status();
    assert!(made.expect("mkfifo runs").success(), "mkfifo");
}

/// Lines, headings and names.
fn lines(broken: &Broken) {
    broken.edit("03-trailing-blank", "DER", |text| {
        [&text[..], b"\r\n"].concat()
    });
    broken.edit("06-missing-section", "GAS", |text| {
        let heading = b"[AnalisiGas]";
        let start = text.windows(heading.len()).position(|part| part == heading);
        text[start.expect("the heading")..].to_vec()
    });
    let line = b"Marca=OFFICINE VERDI\r\n";
    broken.replace("07-dup-line", "DER", line, &[line, &line[..]].concat());
    broken.replace("24-latin1-note", "DER", b"Note=", b"Note=perch\xE9 no");
    broken.replace(
        "25-utf8-note",
        "DER",
        b"Note=",
        "Note=qualit\u{e0}".as_bytes(),
    );
    broken.replace("26-tab-indent", "DER", b"Tipo=PD", b"\tTipo=PD");
    broken.replace("27-spaces-round-eq", "DER", b"Tipo=PD", b"Tipo = PD");
    broken.edit("28-comment", "DER", |text| {
        [b"; made by lane 2\r\n", &text[..]].concat()
    });
    broken.replace("29-case-name", "DER", b"Operatore=", b"operatore=");
    broken.replace("30-case-heading", "DER", b"[Deriva]", b"[DERIVA]");
    broken.edit("31-axle10", "DER", |text| {
        let axles = (3..=10).map(|axle| format!("[DerivaAsse_{axle}]\r\nDeriva=0.10\r\n"));
        [text, axles.collect::<String>().into_bytes()].concat()
    });
    broken.replace(
        "46-blank-mid",
        "DER",
        b"[DerivaAsse_2]",
        b"\r\n[DerivaAsse_2]",
    );
    broken.replace(
        "50-typo-entry",
        "GAS",
        b"MarcaAnalizzatore",
        b"MarcaAnalizatore",
    );
    broken.replace(
        "51-lf-one-line",
        "DER",
        b"Tipo=PD 4000\r\n",
        b"Tipo=PD 4000\n",
    );
    let long = |count: usize| [b"Note=".to_vec(), vec![b'x'; count]].concat();
    broken.replace("57-long-line", "DER", b"Note=", &long(600));
    broken.replace("58-note-321", "DER", b"Note=", &long(321));
    broken.replace("59-nul", "DER", b"Tipo=PD 4000", b"Tipo=PD\x004000");
}

/// Values by themselves, by what is due and by rules.
fn values(broken: &Broken) {
    broken.replace("04-lowercase-word", "AC2", b"=LEGGERO", b"=leggero");
    broken.replace("05-decimal-comma", "DER", b"-1.25", b"-1,25");
    broken.replace(
        "08-date-yyyymmdd",
        "DER",
        b"DataMisura=12052026",
        b"DataMisura=20260512",
    );
    broken.replace("09-space-after-word", "AC2", b"=BENZINA\r", b"=BENZINA \r");
    broken.replace(
        "10-space-after-num",
        "SOS",
        b"Differenza%=2\r",
        b"Differenza%=2 \r",
    );
    broken.replace(
        "33-time-colon",
        "DER",
        b"InizioMisura=091500",
        b"InizioMisura=09:15:00",
    );
    broken.replace(
        "34-grip-float",
        "SOS",
        b"Aderenza%Sx=72",
        b"Aderenza%Sx=72.0",
    );
    broken.replace("35-deriva-plus", "DER", b"Deriva=0.40", b"Deriva=+0.40");
    broken.replace("36-grip-100", "SOS", b"Aderenza%Sx=72", b"Aderenza%Sx=100");
    broken.replace(
        "37-diff-wrong",
        "SOS",
        b"Differenza%=11",
        b"Differenza%=-11",
    );
    broken.replace("38-year-acc", "ACC", b"2004", b"2005");
    broken.replace("39-acc-fuel", "ACC", b"BENZINA CAT", b"BENZINA");
    broken.replace("48-date-slashes", "AC2", b"15032004", b"15/03/2004");
    broken.replace("49-rpm-nohash-6digits", "GAS", b"#850", b"850.0");
    broken.edit("52-due-empty-many", "DER", |text| {
        let text = replaced(&text, b"=OFFICINE VERDI", b"=");
        replaced(&replaced(&text, b"=MARIO ROSSI", b"="), b"=PD 4000", b"=")
    });
    broken.replace(
        "53-leading-zero-space",
        "AC2",
        b"PosAssiStaz=NSNNNNNNN",
        b"PosAssiStaz=NS",
    );
    broken.replace("54-co-3dec", "GAS", b"COMin=0.215", b"COMin=0.21");
}

/// The identification answer, files that are missing, and rules between files.
fn several_files(broken: &Broken) {
    broken.edit("40-id-textmode", "ID", |text| [&text[..], b"\r\n"].concat());
    broken.replace("41-id-checksum", "ID", b"9C\x03", b"9D\x03");
    broken.edit("42-id-serial", "ID", |text| {
        let inner = &text[1..text.len() - 3];
        identification(&replaced(inner, b"0012345678", b"0012345679"))
    });
    broken.without("43-id-missing", "ID");
    broken.without("44-ac2-missing", "AC2");
    rename_all(&broken.copy("60-moped-acc", "accepted-moped"), b"AD100123");
    // Obeying advice must not end in acceptance without the gas test.
    let acc = broken.without("61-fuel-small-letters", "ACC");
    let ac2 = acc.with_extension("AC2");
    let text = fs::read(&ac2).expect("a file");
    fs::write(&ac2, replaced(&text, b"=BENZINA\r", b"=benzina\r")).expect("a file is written");
}

/// An opacity file that is missing, and what its device writes otherwise; the diesel's fuel.
fn opacity_as_a_whole(broken: &Broken) {
    let path = |folder: PathBuf| DIESEL.file(&folder, "OPA");
    fs::remove_file(path(broken.diesel("62-opacity-missing"))).expect("a file is removed");
    fs::write(path(broken.diesel("63-opacity-empty")), "").expect("a file is written");
    let opacity = path(broken.diesel("64-opacity-txt"));
    fs::rename(&opacity, opacity.with_extension("OPA.txt")).expect("another name");
    let opacity = path(broken.diesel("65-gas-for-opacity"));
    let gas = repository().join("samples/accepted-moped/AD900123.GAS");
    fs::copy(gas, opacity.with_extension("GAS")).expect("a copy");
    fs::remove_file(opacity).expect("a file is removed");
    // The device leaves out the peaks that it did not need.
    let opacity = path(broken.diesel("66-peaks-left-out"));
    change_file(&opacity, |text| {
        (4..=8).fold(text, |text, peak| {
            replaced(&text, format!("ValoreK{peak}=\r\n").as_bytes(), b"")
        })
    });
    broken.opacity(
        "67-name-of-gas",
        "NumVersSoftwareContagiri=",
        "NumVersioneSoftwareContagiri=",
    );
    broken.diesel_file("68-diesel-small-letters", "AC2", "=DIESEL\r", "=diesel\r");
}

/// Values of opacity by themselves and by what is due.
fn opacity_values(broken: &Broken) {
    let values = [
        ("69-peak-comma", "ValoreK1=0.62", "ValoreK1=0,62"),
        ("70-peak-one-digit", "ValoreK2=0.55", "ValoreK2=0.5"),
        ("71-limit-two-digits", "LimiteK=1.5", "LimiteK=1.50"),
        ("72-plate-of-three", "Targa=EZ518RM", "Targa=EZ5"),
        (
            "73-temperature-half",
            "TempAmbiente=-3",
            "TempAmbiente=-3.5",
        ),
        ("74-temperature-plus", "TempAmbiente=-3", "TempAmbiente=+3"),
        ("75-mark-behind", "=#85.0", "=85.0#"),
        ("76-mark-and-space", "=#4200", "=# 4200"),
        ("77-mark-on-peak", "ValoreK3=0.51", "ValoreK3=#0.51"),
        ("78-thousands", "=#4200", "=4.000"),
        ("79-humidity-percent", "=#71", "=71%"),
        ("80-humidity-float", "=#71", "=#71.0"),
        ("81-pressure-hpa", "=101.8", "=1018"),
        ("82-outcome-small", "Esito=R", "Esito=r"),
        ("83-outcome-word", "Esito=R", "Esito=REGOLARE"),
        (
            "84-version-point",
            "NumVersioneProtocollo=210",
            "NumVersioneProtocollo=2.10",
        ),
        ("85-counter-integrated", "=ESTERNO", "=INTEGRATO"),
        (
            "86-key-of-200",
            "NumVersioneProtocollo=210",
            "NumVersioneProtocollo=200",
        ),
    ];
    for (name, old, new) in values {
        broken.opacity(name, &format!("{old}\r"), &format!("{new}\r"));
    }
}

/// Files under another's name, headings and words that are none, and `#` where it does not belong.
fn names_and_marks(broken: &Broken) {
    let path = |folder: &Path, ending: &str| DIESEL.file(folder, ending);
    let folder = broken.diesel("87-opacity-as-gas");
    fs::rename(path(&folder, "OPA"), path(&folder, "GAS")).expect("another name");
    let folder = broken.car("88-gas-as-opacity");
    fs::rename(file_of_car(&folder, "GAS"), file_of_car(&folder, "OPA")).expect("another name");
    broken.opacity("89-heading-of-none", "[AnalisiOpacita]", "[AnalisiFumi]");
    broken.opacity("90-heading-gone", "[AnalisiOpacita]\r\n", "");
    broken.diesel_file("91-category-n4", "AC2", "=N1\r", "=N4\r");
    let values = [
        ("92-mark-at-name", "TempOlioMotore=#", "#TempOlioMotore="),
        ("93-mark-behind-name", "GiriMotoreMax=#", "GiriMotoreMax#="),
        ("94-mark-in-digits", "=#4200\r", "=4#00\r"),
        ("95-marks", "=#71\r", "=##71\r"),
        ("96-mark-alone", "LimiteK=1.5\r", "LimiteK=#\r"),
        ("97-placeholder", "ValoreK4=\r", "ValoreK4=---\r"),
    ];
    for (name, old, new) in values {
        broken.opacity(name, old, new);
    }
    // As if the device had measured it.
    broken.replace(
        "98-idle-mark-at-name",
        "GAS",
        b"NumGiriMotoreMin=#",
        b"#NumGiriMotoreMin=",
    );
}

/// The old booking's fuel where the day or the month is not known; all but the last passed before 02, 3/14.
fn unknown_days(broken: &Broken) {
    const BEFORE: Change = ("ACC", "=BENZINA NO CAT", "=BENZINA<86");
    broken.unknown_day("99-day-00", &[BEFORE]);
    broken.unknown_day(
        "100-day-00-no-directive",
        &[("AC2", "=RT1902", "=NESSUNA"), BEFORE],
    );
    broken.unknown_day(
        "101-day-00-of-2002",
        &[("AC2", "=00101986", "=00072002"), ("ACC", "=1986", "=2002")],
    );
    broken.unknown_day("102-month-00", &[("AC2", "=00101986", "=00001986")]);
}

/// Due dates, and when the measure was: before 02, 5/14 all of them passed but the analyser's.
fn days_and_times(broken: &Broken) {
    broken.replace("103-tester-overdue", "DER", b"=30062027", b"=30062025");
    let exchanged = |text: Vec<u8>| {
        let text = replaced(&text, b"InizioMisura=091500", b"InizioMisura=091742");
        replaced(&text, b"FineMisura=091742", b"FineMisura=091500")
    };
    broken.edit("104-times-exchanged", "DER", exchanged);
    broken.edit("105-times-exchanged-last-day", "DER", |text| {
        replaced(&exchanged(text), b"=30062027", b"=12052026")
    });
    // The identification answer has it right.
    broken.replace(
        "106-analyser-year",
        "GAS",
        b"Analizzatore=30062027",
        b"Analizzatore=30062007",
    );
    broken.replace("107-measure-year", "DER", b"=12052026", b"=12052062");
}

#[test]
fn broken_sets_are_told_apart() {
    let folder = broken_sets("broken");
    assert_eq!(files(&folder).len(), COUNT);
    check("broken.txt", &folder);
}

/// Every broken set stands in the transcript, but the one that depends on who runs the program.
#[test]
fn broken_sets_are_all_tried() {
    let transcripts = repository().join("station/tests/transcripts");
    let tried = fs::read_to_string(transcripts.join("broken.txt")).expect("a transcript");
    let root = broken_sets("broken-names");
    for path in files(&root) {
        let name = path.file_name().expect("a name").to_string_lossy();
        let stands = tried.contains(&format!("$ mctc judge {name} "));
        assert_eq!(stands, name != "19-unreadable", "{name}");
    }
}

/// Permissions do not bind root, who reads the file all the same.
#[test]
fn a_file_without_permissions() {
    let root = broken_sets("broken-permissions");
    let folder = root.join("19-unreadable");
    let may_read = File::open(file_of_car(&folder, "DER")).is_ok();
    let output = run(&folder, &["judge", ".", CAR.stem]);
    let said = String::from_utf8_lossy(&output.stderr).into_owned();
    if may_read {
        assert_eq!(output.status.code(), Some(0), "{said}");
    } else {
        assert_eq!(output.status.code(), Some(2), "{said}");
        assert!(said.contains("permission denied"), "{said}");
    }
}
