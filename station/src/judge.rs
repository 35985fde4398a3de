//! `mctc judge FOLDER STEM`: one set judged.

use std::ffi::OsStr;
use std::os::unix::ffi::OsStrExt;
use std::path::Path;

use mctc::{Acceptance, Places};

use crate::case::Case;
use crate::disk::{stem_shown, Folder, SetOnDisk};
use crate::explain::{about_refusal, explain, Explained, Subject};
use crate::file_types::{ACC, DRIFT, FILE_TYPES, GAS, OPACITY, SUSPENSION};
use crate::further::further;
use crate::json::Object;
use crate::measure::Measure;
use crate::not_as_due::doubts;
use crate::out_of_date::is_over_midnight;
use crate::output::{Output, Status, Trouble};
use crate::page::labelled;
use crate::shown::{counted, length, names_compared, IDLE_BY_HAND};

/// What is asked for besides the verdict.
#[derive(Clone, Copy, Debug, PartialEq, Eq)]
pub struct Wish {
    /// For programs.
    pub json: bool,
    /// Further findings.
    pub all: bool,
}

pub fn run(folder: &Path, stem: &OsStr, wish: Wish, out: &mut Output) -> Result<Status, Trouble> {
    let set = named_set(folder, stem, wish.json, out)?;
    let judged = Judged::new(set, wish.all);
    let text = match wish.json {
        true => judged.json() + "\n",
        false => judged.page(),
    };
    out.text(&text)?;
    Ok(judged.status())
}

/// The set of this stem. That its files cannot be read is printed for programs too.
pub fn named_set(
    folder: &Path,
    stem: &OsStr,
    json: bool,
    out: &mut Output,
) -> Result<SetOnDisk, Trouble> {
    let stem = stem.as_bytes();
    let set = Folder::list(folder).and_then(|folder| folder.named_set(stem));
    if let (Err(trouble), true) = (&set, json) {
        out.text(&(not_judged_json(stem, trouble) + "\n"))?;
    }
    set
}

/// What is printed for programs where the files of a stem cannot be read.
pub fn not_judged_json(stem: &[u8], trouble: &Trouble) -> String {
    let object = Object::default().string("stem", &stem_shown(stem));
    object.string("error", &trouble.0).text()
}

/// A set with the library's verdict.
pub struct Judged {
    set: SetOnDisk,
    places: Places,
    verdict: Result<Acceptance, Explained>,
    /// Beside the verdict, where they are asked for.
    further: Option<Vec<Explained>>,
    /// Beside the verdict: files that are near in name. Beside an acceptance also values by which nothing is due, but
    /// which may be meant otherwise, axles that a file lacks, and times that look exchanged.
    noted: Vec<String>,
}

impl Judged {
    /// With all further findings, or with the verdict alone.
    pub fn new(set: SetOnDisk, all: bool) -> Judged {
        let mut places = Places::default();
        let case = Case::set(&set);
        let verdict = mctc::judge(&case.lent(), &mut places).map_err(|refusal| {
            let subject = Subject::of_set(&set, refusal.file);
            explain(case, refusal, subject)
        });
        let further = all.then(|| match &verdict {
            Ok(_) => Vec::new(),
            Err(explained) => further(&set, explained.refusal),
        });
        let mut noted: Vec<String> = match &verdict {
            Ok(acceptance) => {
                let axles = other_axles(&set, acceptance);
                let times = exchanged_times(&case, acceptance);
                let doubts = doubts(&case).into_iter();
                doubts.chain(axles).chain(times).collect()
            }
            Err(_) => Vec::new(),
        };
        noted.extend(set.near_names());
        Judged {
            set,
            places,
            verdict,
            further,
            noted,
        }
    }

    pub fn status(&self) -> Status {
        Status::of(&self.verdict)
    }

    /// Of an accepted set; 0 where it is refused.
    pub fn names_compared(&self) -> u32 {
        let acceptance = self.verdict.as_ref();
        acceptance.map_or(0, |acceptance| acceptance.names_compared)
    }

    fn page(&self) -> String {
        let stem = self.set.stem_shown();
        match &self.verdict {
            Ok(acceptance) => {
                let files = self.accepted_files(acceptance);
                let look_up = detail("look-up", &names_compared(acceptance.names_compared.into()));
                let notes = self.noted.iter().map(|note| labelled("note", note));
                let notes: String = notes.collect();
                format!("{stem}: accepted\n{files}{look_up}{notes}")
            }
            Err(explained) => {
                let (number, page) = (explained.refusal.number, explained.page());
                format!(
                    "{stem}: refused, number {number}\n{page}{}{}",
                    self.notes(explained),
                    self.further_page()
                )
            }
        }
    }

    fn further(&self) -> impl Iterator<Item = &Explained> {
        self.further.iter().flatten()
    }

    fn further_page(&self) -> String {
        match &self.further {
            None => String::new(),
            Some(findings) if findings.is_empty() => {
                labelled("further", "nothing more can be said before this is mended")
            }
            Some(findings) => findings.iter().map(Explained::further_lines).collect(),
        }
    }

    /// A line for each further finding.
    pub fn further_in_short(&self) -> String {
        let lines = self.further().map(|finding| {
            let number = finding.refusal.number;
            format!("{:10}further {number:2}  {}\n", "", finding.in_short())
        });
        lines.collect()
    }

    /// What is to be noted beside a refusal, which speaks of its own file.
    fn notes(&self, explained: &Explained) -> String {
        let noted = self.noted.iter().map(|note| labelled("note", note));
        let mut notes: String = noted.collect();
        for name in self.set.empty_files() {
            if explained.name.as_deref() != Some(name) {
                notes += &labelled("note", &counts_as_not_given(name));
            }
        }
        notes
    }

    /// The verdict with its stem, and where and why it is refused.
    pub fn verdict_lines(&self) -> String {
        let stem = self.set.stem_shown();
        match &self.verdict {
            Ok(_) => format!("{stem}: accepted\n"),
            Err(explained) => {
                let why = labelled("why", &explained.in_short());
                let number = explained.refusal.number;
                format!("{stem}: refused, number {number}\n{why}")
            }
        }
    }

    /// In a few words, behind its stem.
    pub fn in_short(&self) -> String {
        let verdict = match &self.verdict {
            Ok(acceptance) => {
                let (marks, idle) = (marks_in_short(acceptance), idle_in_short(acceptance));
                format!("accepted{marks}{idle}")
            }
            Err(explained) => {
                let number = explained.refusal.number;
                format!("refused {number:2}  {}", explained.in_short())
            }
        };
        let notes = self.noted.iter().map(|note| format!("  (note: {note})"));
        let notes: String = notes.collect();
        let empty: Vec<&str> = self.set.empty_files().collect();
        let empty = match empty.as_slice() {
            [] => String::new(),
            names => format!("  (empty, so not given: {})", names.join(", ")),
        };
        verdict + &notes + &empty
    }

    fn accepted_files(&self, acceptance: &Acceptance) -> String {
        let mut lines = String::new();
        for file in &FILE_TYPES {
            let what = match self.set.file(file.number) {
                None => "not given".to_string(),
                Some(on_disk) if on_disk.text.is_empty() => counts_as_not_given(&on_disk.name),
                Some(on_disk) => {
                    format!("{}{}", on_disk.name, self.about(file.number, acceptance))
                }
            };
            lines += &detail(file.title, &what);
        }
        lines
    }

    /// What the acceptance says of a given file.
    fn about(&self, file: u32, acceptance: &Acceptance) -> String {
        let axles = match file {
            DRIFT => Some(acceptance.drift_axles),
            SUSPENSION => Some(acceptance.suspension_axles),
            _ => None,
        };
        let axles = axles.map(|axles| counted(axles as usize, "axle"));
        let length = seconds(acceptance, file).map(|seconds| {
            let midnight = match is_over_midnight(&Case::set(&self.set), file) {
                true => " over midnight",
                false => "",
            };
            format!("{}{midnight}", length(seconds))
        });
        let mark = mark(acceptance, file).map(|is_set| match is_set {
            true => "marked: CodErrore is filled".to_string(),
            false => "no mark".to_string(),
        });
        let unread = (file == ACC && self.places.value(ACC, 0).is_none())
            .then(|| "not read with category L".to_string());
        let said = axles.into_iter().chain(length).chain(mark).chain(unread);
        let said: String = said.map(|what| format!(", {what}")).collect();
        match file {
            GAS => format!("{said}; {}", idle(acceptance)),
            _ => said,
        }
    }

    /// The first members of an object: the stem, and what is refused.
    pub fn verdict_json(&self) -> Object {
        let explained = self.verdict.as_ref().err();
        let object = Object::default()
            .string("stem", &self.set.stem_shown())
            .truth("accepted", explained.is_none());
        about_refusal(object, explained)
    }

    /// One object; the same members for acceptance and refusal.
    pub fn json(&self) -> String {
        let acceptance = self.verdict.as_ref().copied().unwrap_or_default();
        let object = self
            .verdict_json()
            .number("drift_axles", acceptance.drift_axles)
            .number("suspension_axles", acceptance.suspension_axles)
            .truth("drift_mark", acceptance.drift_mark)
            .truth("suspension_mark", acceptance.suspension_mark)
            .truth("gas_mark", acceptance.gas_mark)
            .truth("opacity_mark", acceptance.opacity_mark)
            .truth("idle_by_hand", acceptance.idle_by_hand)
            .number("names_compared", acceptance.names_compared)
            .number("drift_seconds", acceptance.drift_seconds)
            .number("suspension_seconds", acceptance.suspension_seconds)
            .number("gas_seconds", acceptance.gas_seconds)
            .number("opacity_seconds", acceptance.opacity_seconds)
            .strings("empty", self.set.empty_files())
            .strings("notes", self.noted.iter().map(String::as_str));
        let object = match &self.further {
            None => object,
            Some(findings) => object.objects("further", findings.iter().map(Explained::json)),
        };
        object.text()
    }
}

/// Of drift and suspension with different counts of axles, where both are given.
fn other_axles(set: &SetOnDisk, acceptance: &Acceptance) -> Option<String> {
    let (drift, suspension) = (acceptance.drift_axles, acceptance.suspension_axles);
    let both = set.is_given(DRIFT) && set.is_given(SUSPENSION);
    (both && drift != suspension).then(|| {
        let drift = counted(drift as usize, "axle");
        format!("drift has {drift} and suspension {suspension}: see that neither file is cut off")
    })
}

/// Of measures over midnight that are shorter with InizioMisura and FineMisura exchanged.
fn exchanged_times(case: &Case, acceptance: &Acceptance) -> Vec<String> {
    let notes = FILE_TYPES.iter().filter_map(|file| {
        let (number, title) = (file.number, file.title);
        let measure = Measure::of(number, case.text(number))?;
        let text = measure.exchanged().apply(case.text(number));
        let exchanged = case.with_text(number, &text);
        let exchanged = mctc::judge(&exchanged.lent(), &mut Places::default()).ok()?;
        let lasted = seconds(acceptance, number)?;
        let shorter = seconds(&exchanged, number)?;
        let looks_exchanged = shorter < lasted && is_over_midnight(case, number);
        looks_exchanged.then(|| {
            let (lasted, shorter, times) = (length(lasted), length(shorter), measure.times());
            format!(
                "{title} lasted {lasted} over midnight: see that {times} are not exchanged, which would give {shorter}"
            )
        })
    });
    notes.collect()
}

pub fn counts_as_not_given(name: &str) -> String {
    format!("{name} is empty and counts as not given")
}

/// A line of an acceptance: a file or the look-up, and what is said of it.
fn detail(title: &str, what: &str) -> String {
    format!("  {title:14}  {what}\n")
}

/// Whether a result file is marked; None of the other files.
fn mark(acceptance: &Acceptance, file: u32) -> Option<bool> {
    match file {
        DRIFT => Some(acceptance.drift_mark),
        SUSPENSION => Some(acceptance.suspension_mark),
        GAS => Some(acceptance.gas_mark),
        OPACITY => Some(acceptance.opacity_mark),
        _ => None,
    }
}

/// How long the measure of a result file lasted; None of the other files.
fn seconds(acceptance: &Acceptance, file: u32) -> Option<u32> {
    match file {
        DRIFT => Some(acceptance.drift_seconds),
        SUSPENSION => Some(acceptance.suspension_seconds),
        GAS => Some(acceptance.gas_seconds),
        OPACITY => Some(acceptance.opacity_seconds),
        _ => None,
    }
}

/// The marked files of an acceptance.
fn marks_in_short(acceptance: &Acceptance) -> String {
    let marked: Vec<&str> = FILE_TYPES
        .iter()
        .filter(|file| mark(acceptance, file.number) == Some(true))
        .map(|file| file.title)
        .collect();
    match marked.as_slice() {
        [] => String::new(),
        names => format!(", marked (CodErrore is filled): {}", names.join(", ")),
    }
}

/// Where the idle speed of a given gas file came from. A set whose gas file has none is not accepted.
fn idle(acceptance: &Acceptance) -> &'static str {
    match acceptance.idle_by_hand {
        true => IDLE_BY_HAND,
        false => "idle speed measured",
    }
}

/// What stands behind the marked files of an acceptance; `;`, so that it does not look like one of them.
fn idle_in_short(acceptance: &Acceptance) -> String {
    match acceptance.idle_by_hand {
        true => format!("; {IDLE_BY_HAND}"),
        false => String::new(),
    }
}
