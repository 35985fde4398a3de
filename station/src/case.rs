//! What the library was asked, kept so that it can be asked again with a change: advice is tried before it is given.

use mctc::{Column, Places, Refusal};

use crate::disk::SetOnDisk;
use crate::edit::{Action, Edit};
use crate::file_types::{by_number, place, FileType, AC2, COUNT, FILE_TYPES, IDENTIFICATION};
use crate::placed;
use crate::shown;
use crate::table;

/// The refusal of a file that is missing but due, or given but not due.
const NOT_AS_DUE: u32 = 11;

/// The refusal of an entry that is filled but not due, or due but empty.
const ENTRY_NOT_AS_DUE: u32 = 10;

/// A set, or one file that is read alone.
#[derive(Clone, Copy)]
pub struct Case<'a> {
    stem: &'a [u8],
    texts: [&'a [u8]; COUNT],
    /// All files of the set on disk, those too that the library is not lent.
    beside: [&'a [u8]; COUNT],
    /// The number of the file that is read alone.
    alone: Option<u32>,
    /// The folder has a set with this stem in capitals, which a change of the stem would meet.
    twin: bool,
}

impl<'a> Case<'a> {
    pub fn set(set: &'a SetOnDisk) -> Case<'a> {
        let texts = FILE_TYPES.map(|file| set.text(file.number));
        Case {
            stem: &set.stem,
            texts,
            beside: texts,
            alone: None,
            twin: set.twin,
        }
    }

    /// A set of these files, which are on no disk.
    pub fn made_up(stem: &'a [u8], files: &[(u32, &'a [u8])]) -> Case<'a> {
        let none = Case {
            stem,
            texts: Default::default(),
            beside: Default::default(),
            alone: None,
            twin: false,
        };
        let with = |case: Case<'a>, (file, text): &(u32, &'a [u8])| case.with_text(*file, text);
        files.iter().fold(none, with)
    }

    /// One file of a set, read alone.
    pub fn one_of(set: &'a SetOnDisk, number: u32) -> Case<'a> {
        Case {
            alone: Some(number),
            ..Case::set(set)
        }
    }

    /// One file alone, apart from any set.
    pub fn file(number: u32, text: &'a [u8]) -> Case<'a> {
        let case = Case {
            stem: &[],
            texts: Default::default(),
            beside: Default::default(),
            alone: Some(number),
            twin: false,
        };
        case.with_text(number, text)
    }

    pub fn stem(&self) -> &'a [u8] {
        self.stem
    }

    /// Whether the other files of a set are at hand.
    pub fn is_of_set(&self) -> bool {
        !self.stem.is_empty()
    }

    pub fn has_twin(&self) -> bool {
        self.twin
    }

    /// The text of a file, empty where it is not given.
    pub fn text(&self, file: u32) -> &'a [u8] {
        text(&self.texts, file)
    }

    /// The text that a file of the set has on disk, whether the library is lent it or not.
    pub fn beside(&self, file: u32) -> &'a [u8] {
        text(&self.beside, file)
    }

    pub fn with_text<'b>(&self, file: u32, text: &'b [u8]) -> Case<'b>
    where
        'a: 'b,
    {
        let mut case: Case<'b> = *self;
        if let Some(old) = place(file).and_then(|at| case.texts.get_mut(at)) {
            *old = text;
        }
        case
    }

    /// The same with these files and no others.
    pub fn only(&self, files: &[u32]) -> Case<'a> {
        let none = Case {
            texts: Default::default(),
            ..*self
        };
        files
            .iter()
            .fold(none, |case, file| case.with_text(*file, self.text(*file)))
    }

    fn with_stem<'b>(&self, stem: &'b [u8]) -> Case<'b>
    where
        'a: 'b,
    {
        Case { stem, ..*self }
    }

    /// The library's refusal, None where it accepts.
    pub fn refusal(&self) -> Option<Refusal> {
        let mut places = Places::default();
        match self.alone {
            Some(IDENTIFICATION) => mctc::identification(self.text(IDENTIFICATION)).err(),
            Some(number) => mctc::read(number, self.text(number), &mut places).err(),
            None => mctc::judge(&self.lent(), &mut places).err(),
        }
    }

    /// As the library takes a set.
    pub fn lent(&self) -> mctc::Set<'a> {
        let [ac2, acc, drift, suspension, gas, identification, opacity] = self.texts;
        mctc::Set {
            stem: self.stem,
            ac2,
            acc,
            drift,
            suspension,
            gas,
            identification,
            opacity,
        }
    }

    /// Line and value of an entry, where the library reads the file.
    pub fn value(&self, file: u32, entry: u32) -> Option<(u32, &'a [u8])> {
        placed::value(file, usize::try_from(entry).ok()?, self.text(file))
    }

    /// What the library refuses this for, where that is due and not there.
    pub fn lacking(&self) -> Option<String> {
        let refused = Refused {
            case: *self,
            refusal: self.refusal()?,
        };
        let file = by_number(refused.refusal.file)?;
        match (refused.refusal.number, refused.entry()) {
            (NOT_AS_DUE, _) if refused.text().is_empty() => Some(missing(file)),
            (ENTRY_NOT_AS_DUE, Some((name, []))) => {
                let (name, line) = (shown::bytes(name), refused.refusal.line);
                Some(format!(
                    "{name} ({} line {line}) is due, but empty",
                    file.ending
                ))
            }
            _ => None,
        }
    }

    /// What is due in a file, where that can be said.
    pub fn due(&self, file: u32) -> Option<Column> {
        let mut places = Places::default();
        mctc::due(file, self.text(AC2), self.text(file), &mut places).ok()
    }
}

fn text<'a>(texts: &[&'a [u8]; COUNT], file: u32) -> &'a [u8] {
    let text = place(file).and_then(|at| texts.get(at));
    text.copied().unwrap_or_default()
}

/// Of a file that is due.
pub fn missing(file: &FileType) -> String {
    format!("{} is due, but missing", file.ending)
}

/// A case that the library refused.
#[derive(Clone, Copy)]
pub struct Refused<'a> {
    pub case: Case<'a>,
    pub refusal: Refusal,
}

impl<'a> Refused<'a> {
    /// The text of the file that the refusal names.
    pub fn text(&self) -> &'a [u8] {
        self.case.text(self.refusal.file)
    }

    /// Name and value on the refusal's line.
    pub fn entry(&self) -> Option<(&'a [u8], &'a [u8])> {
        shown::entry_on_line(self.text(), self.refusal.line)
    }

    /// A change at the refusal's file and line.
    pub fn edit(&self, action: Action) -> Edit {
        let Refusal { file, line, .. } = self.refusal;
        Edit { file, line, action }
    }

    /// The refusal's line with another value.
    pub fn with_value(&self, value: &[u8]) -> Option<Edit> {
        let (name, _) = self.entry()?;
        let line = [name, b"=", value].concat();
        Some(self.edit(Action::Replace(line)))
    }

    /// Whether the library, asked again with the change, accepts or refuses at a later place.
    pub fn helps(&self, edit: &Edit) -> bool {
        if let Action::Rename(stem) = &edit.action {
            let after = self.case.with_stem(stem).refusal();
            return after.is_none_or(|after| after.number != self.refusal.number);
        }
        let text = edit.apply(self.case.text(edit.file));
        // An empty file is not given: only the last resort takes one out.
        if text.is_empty() && edit.action != Action::Remove {
            return false;
        }
        let case = self.case.with_text(edit.file, &text);
        case.refusal()
            .is_none_or(|refusal| self.is_before(edit, Refused { case, refusal }))
    }

    /// Whether this refusal stands before the one after a change.
    fn is_before(&self, edit: &Edit, after: Refused) -> bool {
        let refusal = after.refusal;
        match edit.action {
            // The count of lines may have changed, so lines are compared from the start.
            Action::LineEnds if refusal.file == self.refusal.file => {
                refusal.number != self.refusal.number || refusal.line > self.refusal.line
            }
            _ => after.rank() > self.rank(),
        }
    }

    /// The change, where it helps.
    pub fn tried(&self, edit: Edit) -> Option<Edit> {
        self.helps(&edit).then_some(edit)
    }

    /// Where the refusal stands in the order of judging (01, Judging): its file, the step, and the place in that step.
    fn rank(&self) -> (u32, u32, usize) {
        let Refusal { number, file, line } = self.refusal;
        let text = self.text();
        let entry = || placed::entry_at(file, text, line).unwrap_or_default();
        let (step, place) = match number {
            11 => (0, 0),
            3 => (1, 0),
            // From the end, as lines above may be taken out.
            4..=6 => (2, usize::MAX - shown::lines_behind(text, line)),
            7 => (3, table::missing_section(file, text).map_or(0, |at| at.0)),
            8 => (4, table::first_missing_entry(file, text, line)),
            // The file is not read, so it has no places.
            9 => (5, table::entry_at(file, text, line).unwrap_or_default()),
            10 => (6, entry()),
            19 => (7, entry()),
            12 | 13 => (8, entry()),
            _ => (number, 0),
        };
        (file, step, place)
    }
}
