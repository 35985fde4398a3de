//! The program against stored transcripts: standard output, standard error and exit status of each command.
//!
//! A transcript has for each command a line `$ mctc ..`, its standard output, each line of its standard error behind
//! `2> `, and its exit status behind `=> `. `\xHH` in a word is that byte. Lines that begin with `# ` before a command
//! are comments.

use std::ffi::OsStr;
use std::fs::{self, File};
use std::os::unix::ffi::OsStrExt;
use std::os::unix::fs::symlink;
use std::path::{Path, PathBuf};
use std::process::Command;

use crate::broken::identification;
use crate::common::{empty_folder, put, repository, run, sample_pairs, sample_sets, Folder};

fn transcripts() -> PathBuf {
    repository().join("station/tests/transcripts")
}

/// Makes the commands of a transcript in this folder; the transcript must come out byte for byte.
pub fn check(name: &str, folder: &Path) {
    let stored = fs::read(transcripts().join(name)).expect("a transcript");
    let mut found = Vec::new();
    let mut within = false;
    for line in stored.split_inclusive(|byte| *byte == b'\n') {
        if let Some(words) = line.strip_prefix(b"$ mctc") {
            found.extend(line);
            found.extend(outcome(folder, words));
            within = true;
        } else if line.starts_with(b"=> ") {
            within = false;
        } else if !within {
            found.extend(line);
        }
    }
    if found != stored {
        let copy = Path::new(env!("CARGO_TARGET_TMPDIR")).join(name);
        put(&copy, &found);
        panic!(
            "the program answers otherwise than {name} has it:\n{}see {}",
            first_difference(&stored, &found),
            copy.display()
        );
    }
}

fn outcome(folder: &Path, words: &[u8]) -> Vec<u8> {
    let words: Vec<Vec<u8>> = words
        .split(u8::is_ascii_whitespace)
        .filter(|word| !word.is_empty())
        .map(unescaped)
        .collect();
    let words: Vec<&OsStr> = words.iter().map(|word| OsStr::from_bytes(word)).collect();
    let output = run(folder, &words);
    let mut text = output.stdout;
    if !text.is_empty() && !text.ends_with(b"\n") {
        text.extend(b"(no end of line)\n");
    }
    for line in output.stderr.split_inclusive(|byte| *byte == b'\n') {
        text.extend(b"2> ");
        text.extend(line);
    }
    let code = output.status.code().expect("an exit status");
    text.extend(format!("=> {code}\n").bytes());
    text
}

/// `\xHH` as the byte.
fn unescaped(word: &[u8]) -> Vec<u8> {
    let text = std::str::from_utf8(word).expect("a word of a transcript");
    let mut parts = text.split("\\x");
    let mut bytes = parts.next().unwrap_or_default().as_bytes().to_vec();
    for part in parts {
        let (digits, rest) = part.split_at(2);
        bytes.push(u8::from_str_radix(digits, 16).expect("two hexadecimal digits"));
        bytes.extend(rest.bytes());
    }
    bytes
}

fn first_difference(stored: &[u8], found: &[u8]) -> String {
    let lines = |text: &[u8]| -> Vec<String> {
        let lines = text.split_inclusive(|byte| *byte == b'\n');
        lines
            .map(|line| format!("{}", line.escape_ascii()))
            .collect()
    };
    let (stored, found) = (lines(stored), lines(found));
    let none = "nothing".to_string();
    let at = (0..)
        .find(|at| stored.get(*at) != found.get(*at))
        .expect("a difference");
    format!(
        "line {}\n  stored: {}\n  found:  {}\n",
        at + 1,
        stored.get(at).unwrap_or(&none),
        found.get(at).unwrap_or(&none)
    )
}

#[test]
fn help_and_usage() {
    check("help.txt", &repository());
    check("usage.txt", &repository());
}

#[test]
fn accepted_samples() {
    check("accepted.txt", &repository());
}

#[test]
fn refused_samples() {
    check("refused.txt", &repository());
}

#[test]
fn due_entries_of_samples_and_refusals_explained() {
    check("due.txt", &repository());
    check("explain.txt", &repository());
}

#[test]
fn files_read_formatted_and_joined() {
    check("read.txt", &repository());
    check("format.txt", &repository());
    check("join.txt", &repository());
}

/// Every sample stands in a transcript.
#[test]
fn samples_are_all_tried() {
    let tried = ["accepted.txt", "refused.txt", "join.txt"]
        .map(|name| fs::read_to_string(transcripts().join(name)).expect("a transcript"));
    let in_repository = |path: PathBuf| {
        let path = path.strip_prefix(repository()).expect("a sample");
        path.to_string_lossy().into_owned()
    };
    let sets = sample_sets().into_iter().map(in_repository);
    let sets = sets.map(|set| format!("$ mctc judge {set} "));
    let pairs = sample_pairs().into_iter().map(in_repository);
    let pairs = pairs.map(|pair| format!("$ mctc join {pair}/first.DER {pair}/second.DER\n"));
    for command in sets.chain(pairs) {
        let stands = tried.iter().any(|text| text.contains(&command));
        assert!(stands, "no transcript has {command}");
    }
}

/// A folder with all that can be odd about files on disk.
fn odd_files() -> Folder {
    let folder = empty_folder("odd-files");
    let sample = |name: &str| fs::read(repository().join("samples").join(name)).expect("a sample");
    let ac2 = sample("accepted-trailer/AC204711.ac2");
    let drift = sample("accepted-trailer/AC204711.der");
    let gas = sample("refused-11-not-due/AB131111.GAS");

    put(folder.join("endings/AC204711.Ac2"), &ac2);
    put(folder.join("endings/AC204711.DER"), &drift);
    put(folder.join("endings/ac204711.AC2"), &ac2);
    put(folder.join("endings/README"), "no file of a set\n");

    put(folder.join("twice/AC204711.AC2"), &ac2);
    put(folder.join("twice/AC204711.der"), &drift);
    put(folder.join("twice/AC204711.DER"), &drift);

    put(folder.join("unreadable/AC000001.AC2"), &ac2);
    fs::create_dir_all(folder.join("unreadable/AC000001.GAS")).expect("a folder");
    put(folder.join("unreadable/AC000002.AC2"), &ac2);
    symlink("nowhere", folder.join("unreadable/AC000002.DER")).expect("a link");
    put(folder.join("unreadable/AC000003.AC2"), &ac2);
    let pipe = folder.join("unreadable/AC000003.ID");
    let made = Command::new("mkfifo")
        .arg(pipe)
        .status()
        .expect("mkfifo runs");
    assert!(made.success(), "mkfifo");
    symlink("AC000003.AC2", folder.join("unreadable/AC000004.AC2")).expect("a link");

    put(folder.join("empty/AC204711.AC2"), &ac2);
    put(folder.join("empty/AC204711.GAS"), "");
    put(folder.join("empty/AC204711.ID"), "");

    fs::create_dir_all(folder.join("nothing")).expect("a folder");

    put(folder.join("mixed/AC204711.AC2"), &ac2);
    put(folder.join("mixed/AC204712.DER"), &drift);
    put(folder.join("mixed/AC204713.AC2"), &ac2);
    put(folder.join("mixed/AC204713.ac2"), &ac2);
    put(folder.join("mixed/AC204714.AC2"), &ac2);
    put(folder.join("mixed/AC204714.GAS"), &gas);
    put(folder.join("mixed/.ID"), "x");
    put(folder.join(OsStr::from_bytes(b"mixed/A\xFFB\n.AC2")), &ac2);
    put(folder.join("mixed/\u{e8} \"\\.AC2"), &ac2);

    let with_line = |line: &[u8]| [b"[Deriva]\r\n".as_slice(), line].concat();
    let long = [b"Marca=".as_slice(), &[b'x'; 600], b"\r\nTipo=A\r\n"].concat();
    let lines: [(&str, &[u8]); 7] = [
        ("AC000001", b"Marca=A\x00\x1B\xE8\r\nTipo=B\r\n"),
        ("AC000002", b"Marca=A\nTipo=B\r\n"),
        ("AC000003", b"Marca=A"),
        ("AC000004", b"Marca=A\rB\r\n"),
        ("AC000005", b"\r\nMarca=A\r\n"),
        ("AC000006", &long),
        ("AC000007", b"Marca=A\r"),
    ];
    for (stem, line) in lines {
        put(folder.join(format!("lines/{stem}.AC2")), &ac2);
        put(folder.join(format!("lines/{stem}.DER")), with_line(line));
    }

    put(folder.join("big/AC204711.AC2"), &ac2);
    for name in ["big/AC204711.DER", "big/AC204711.GAS"] {
        let file = File::create(folder.join(name)).expect("a file");
        file.set_len(1 << 40)
            .expect("a file of a terabyte, with nothing on the disk");
    }

    let text = |name: &str| String::from_utf8(sample(name)).expect("a text");
    let car = |ending: &str| text(&format!("accepted-car/AA123456.{ending}"));
    let opacity = text("accepted-diesel/AE305518.OPA");
    let several = [
        ("AC2", car("AC2")),
        ("ACC", car("ACC").replace("=2004", "=04")),
        (
            "DER",
            car("DER")
                .replace("=0.40", "=0.4")
                .replace("=12052026", "=2026"),
        ),
        (
            "SOS",
            car("SOS")
                .replace("=72", "=100")
                .replace("Marca=", "marca="),
        ),
        (
            "GAS",
            car("GAS")
                .replace("=TECNOGAS", "=")
                .replace("ModuloChiaveContagiriRS=", "ModuloChiaveContagiriRS=x"),
        ),
    ];
    for (ending, text) in several {
        put(folder.join(format!("several/AA123456.{ending}")), text);
    }
    put(folder.join("several/AA123456.ID"), b"\x02GAS");

    for ending in ["AC2", "ACC", "SOS", "GAS", "ID"] {
        let text = sample(&format!("accepted-car/AA123456.{ending}"));
        put(folder.join(format!("axles/AA123456.{ending}")), text);
    }
    let axle = car("DER") + "[DerivaAsse_3]\r\nDeriva=0.10\r\n";
    put(folder.join("axles/AA123456.DER"), &axle);

    for ending in ["AC2", "ACC", "DER", "SOS"] {
        let text = sample(&format!("accepted-car/AA123456.{ending}"));
        put(folder.join(format!("names/AA123456.{ending}")), text);
    }
    put(folder.join("names/AA123456.GAS.txt"), car("GAS"));
    put(folder.join("names/AA123456.der "), car("DER"));
    put(folder.join("names/AA123456.pdf"), "%PDF");
    put(folder.join("names/AA1234567.GAS.txt"), car("GAS"));

    let code = car("DER").replace("CodErrore=\r\n", "");
    put(folder.join("lacking/code.DER"), &code);
    put(
        folder.join("lacking/code-and-note.DER"),
        code.replace("Note=\r\n", ""),
    );
    put(
        folder.join("lacking/note.DER"),
        car("DER").replace("Note=\r\n", ""),
    );
    for (name, ending, from) in [("first-axle.SOS", "SOS", 1), ("gap.DER", "DER", 2)] {
        // From the highest on, so that none has another's number.
        let renumbered = (from..=2).rev().fold(car(ending), |text, axle| {
            text.replace(&format!("Asse_{axle}]"), &format!("Asse_{}]", axle + 1))
        });
        put(folder.join("lacking").join(name), renumbered);
    }
    let mean = opacity.replace("OpacitaMedia=\r\n", "");
    put(folder.join("lacking/mean.OPA"), &mean);
    put(
        folder.join("lacking/mean-and-plate.OPA"),
        mean.replace("Targa=EZ518RM\r\n", "")
            .replace("CodErrore=\r\n", ""),
    );

    put(folder.join("cut/last.DER"), car("DER").trim_end());
    put(
        folder.join("cut/feeds.DER"),
        car("DER").trim_end().replace("\r\n", "\n"),
    );
    put(
        folder.join("cut/mark.DER"),
        car("DER").trim_end().to_string() + "\x1A",
    );

    let drift_values = [
        ("day", "=30062027", "=31041999"),
        ("month", "=30062027", "=01132027"),
        ("year", "=30062027", "=30062100"),
        ("hour", "=091500", "=240000"),
        ("minute", "=091500", "=096000"),
        ("second", "=091500", "=091560"),
        ("unit", "=0.40", "=0.40 m"),
        ("letter", "=0.40", "=O.40"),
        ("words", "=0.40", "=none"),
        ("link", "=RETE", "=SERIALE"),
        ("whole", "=0.40", "=40"),
        ("minus-twice", "=0.40", "=--0.40"),
    ];
    let gas_values = [
        ("gas-long", "=14.50", "=1400.50"),
        ("gas-revs", "=#850", "=123456"),
        ("gas-sign", "=118", "=-118"),
        ("gas-key", "=K0117", "=K011"),
        ("gas-marks", "=#850", "=##850"),
        ("revs", "=#850", "=#85O"),
        ("days", "=118", "=1l8"),
    ];
    let opacity_values = [
        ("cold", "=-3\r", "=-100\r"),
        ("hot", "=-3\r", "=#1000\r"),
        ("degrees", "=-3\r", "=-3C\r"),
        ("mark-inside", "=-3\r", "=-#3\r"),
        ("mark-alone", "=#85.0", "=#"),
        ("mark-no-point", "=#85.0", "=#85"),
        ("mark-on-limit", "LimiteK=1.5", "LimiteK=#1.5"),
        ("oil-long", "=#85.0", "=#1185.0"),
        ("humidity", "=#71", "=#7,1"),
        ("plate", "Targa=EZ518RM", "Targa=EZ518RM PROVA"),
        ("letter", "=0.62", "=O.62"),
        ("outcome", "Esito=R", "Esito=NO"),
        ("outcome-point", "Esito=R", "Esito=R."),
        ("marks", "=-3\r", "=##3\r"),
        ("marks-oil", "=#85.0", "=##85.0"),
        ("marks-revs", "=#4200", "=##4200"),
        ("marks-on-limit", "LimiteK=1.5", "LimiteK=##1.5"),
        ("marks-alone", "=#71", "=##"),
        ("mark-between", "=#85.0", "=8#5"),
        ("mark-at-point", "=#85.0", "=8#5.0"),
        ("mark-in-limit", "LimiteK=1.5", "LimiteK=1#5"),
        ("mark-on-least", "=80\r", "=#80\r"),
        ("mark-for-peak", "ValoreK4=", "ValoreK4=#"),
        ("mark-at-peak", "ValoreK3=", "#ValoreK3="),
        ("mark-twice", "TempOlioMotore=", "#TempOlioMotore="),
        ("mark-at-empty", "CodErrore=", "#CodErrore="),
        ("mark-no-sign", "TempOlioMotore=#", "#TempOlioMotore "),
        ("minus", "=-3\r", "=-\r"),
        ("minus-twice", "=-3\r", "=--3\r"),
        ("minus-for-peak", "ValoreK4=", "ValoreK4=-"),
        ("zero-for-peak", "ValoreK4=", "ValoreK4=0"),
        ("letters-for-peak", "ValoreK4=", "ValoreK4=N.D."),
        ("stars-for-peak", "ValoreK4=", "ValoreK4=*****"),
        ("space-for-peak", "ValoreK4=", "ValoreK4= "),
        ("peak-long", "ValoreK4=", "ValoreK4=0.555"),
        ("least", "=80\r", "=N.D.\r"),
        ("no-day", "=14012027", "=-"),
    ];
    let values = [
        ("DER", car("DER"), &drift_values[..]),
        ("GAS", car("GAS"), &gas_values[..]),
        ("OPA", opacity.clone(), &opacity_values[..]),
    ];
    for (ending, text, values) in values {
        for (name, old, new) in values {
            assert!(text.contains(old), "{name}");
            put(
                folder.join(format!("values/{name}.{ending}")),
                text.replace(old, new),
            );
        }
    }

    let month = car("AC2").replace("=15032004", "=15002004");
    put(folder.join("values/month.AC2"), month);
    for stem in ["AA12345O", "A1123456", "AB12-4-6"] {
        put(folder.join(format!("stems/{stem}.AC2")), &ac2);
    }
    let twice = |new: &str| car("DER").replace("Tipo=PD 4000\r\n", new);
    put(
        folder.join("twice-in-file/second.DER"),
        twice("Tipo=PD 4000\r\nTipo=\r\n"),
    );
    put(
        folder.join("twice-in-file/first.DER"),
        twice("Tipo=\r\nTipo=PD 4000\r\n"),
    );

    for (name, new) in [("grip-l", "=l2"), ("grip-o", "=7O")] {
        put(
            folder.join(format!("values/{name}.SOS")),
            car("SOS").replace("=72", new),
        );
    }

    for (name, ending) in [
        ("drift.SOS", "DER"),
        ("suspension.DER", "SOS"),
        ("old.AC2", "ACC"),
        ("new.ACC", "AC2"),
        ("gas.DER", "GAS"),
        ("gas.OPA", "GAS"),
    ] {
        put(folder.join("types").join(name), car(ending));
    }
    put(folder.join("types/opacity.GAS"), &opacity);

    let diesel = |ending: &str| text(&format!("accepted-diesel/AE305518.{ending}"));
    let acc = diesel("ACC").replace("=2015", "=2016");
    for (ending, text) in [
        ("AC2", diesel("AC2")),
        ("ACC", acc),
        ("GAS", opacity.clone()),
    ] {
        put(folder.join(format!("misplaced/AE305518.{ending}")), text);
    }
    put(folder.join("misplaced/AE305517.AC2"), &ac2);
    put(folder.join("misplaced/AE305517.GAS"), &opacity);
    put(folder.join("misplaced/AE305519.AC2"), car("AC2"));
    put(folder.join("misplaced/AE305519.GAS"), car("DER"));

    let answers: [(&str, &[&str]); 4] = [
        (
            "address",
            &["GAS", "0001", "ID", "a", "b", "c", "d", "e", "f", "g"],
        ),
        (
            "empty",
            &["GAS", "1", "ID", "a", "", "c", "d", "e", "f", "g"],
        ),
        (
            "word",
            &["GAS", "1", "Id", "a", "b", "c", "d", "e", "f", "g"],
        ),
        ("fields", &["GAS", "1", "ID", "a", "b", "c", "d", "e", "f"]),
    ];
    for (name, fields) in answers {
        let answer = identification(fields.join("\x17").as_bytes());
        put(folder.join(format!("answers/{name}.ID")), answer);
    }
    put(folder.join("answers/none.ID"), "");
    put(folder.join("answers/answer"), b"\x02GAS");

    put(folder.join("mend/lf.DER"), "[DerivaAsse_1]\nDeriva=0.40\n");
    put(
        folder.join("mend/mixed"),
        "\u{feff}[DerivaAsse_1]\r\nA=1\nB=2\rC=3\r\r\nD=\u{e8}",
    );
    put(folder.join("mend/right.DER"), &drift);
    put(folder.join("mend/wide.DER"), b"\xFF\xFE[\0D\0]\0");
    put(
        folder.join("mend/binary.DER"),
        b"MZ\x90\0\x03\0\0\0\x04\0\0\0",
    );

    put(folder.join("out/there"), "stays\n");
    put(folder.join("out/AC204711.DER"), &drift);
    folder
}

#[test]
fn odd_files_on_disk() {
    let folder = odd_files();
    check("odd-files.txt", &folder);
    let out = |name: &str| fs::read(folder.join("out").join(name)).expect("a file");
    assert_eq!(out("there"), b"stays\n", "a file was overwritten");
    for new in ["new", "told"] {
        assert_eq!(
            out(new),
            out("AC204711.DER"),
            "in table order before, so the same bytes"
        );
    }
    let mend = |name: &str| fs::read(folder.join("mend").join(name)).expect("a file");
    assert_eq!(mend("new"), b"[DerivaAsse_1]\r\nDeriva=0.40\r\n");
    assert_eq!(mend("same"), mend("right.DER"), "nothing was to be mended");
    assert!(!folder.join("mend/none").exists(), "no text was mended");
    assert!(
        !folder.join("out/refused").exists(),
        "a file was left by a refusal"
    );
}
