//! What is due in a set and what is found: file by file, and entry by entry.

use mctc::{Column, Due, Places};

use crate::case::Case;
use crate::disk::SetOnDisk;
use crate::explain::{explain, Explained, Subject};
use crate::file_types::{FileType, AC2, GAS, IDENTIFICATION};
use crate::placed::{self, EntryRead};
use crate::reasons::Why;

/// Whether a file or an entry is due, and whether it is there.
#[derive(Clone, Copy, Debug, PartialEq, Eq)]
pub struct DueAndFound {
    /// None where it is unknown.
    due: Option<Due>,
    is_there: bool,
    /// What is said of one that is there, and of one that is not.
    words: [&'static str; 2],
}

impl DueAndFound {
    pub fn file(due: Option<Due>, is_given: bool) -> DueAndFound {
        DueAndFound {
            due,
            is_there: is_given,
            words: ["given", "absent"],
        }
    }

    pub fn entry(due: Due, is_filled: bool) -> DueAndFound {
        DueAndFound {
            due: Some(due),
            is_there: is_filled,
            words: ["filled", "empty"],
        }
    }

    /// None where it is unknown.
    pub fn due(self) -> Option<&'static str> {
        self.due.map(|due| match due {
            Due::Due => "due",
            Due::NotDue => "not due",
            Due::Free => "free",
        })
    }

    pub fn found(self) -> &'static str {
        let [there, not_there] = self.words;
        match self.is_there {
            true => there,
            false => not_there,
        }
    }

    pub fn disagrees(self) -> bool {
        self.disagreement().is_some()
    }

    /// In the words of 01, row 10: `due, empty`, or `filled, not due`; of a file likewise.
    pub fn disagreement(self) -> Option<String> {
        let found = self.found();
        match (self.due?, self.is_there) {
            (Due::Due, false) => Some(format!("due, {found}")),
            (Due::NotDue, true) => Some(format!("{found}, not due")),
            _ => None,
        }
    }
}

/// An entry of a file that has a column.
pub struct EntryFound {
    pub read: EntryRead,
    pub due_and_found: DueAndFound,
    /// Why it is due or not, where it disagrees.
    pub why: Option<String>,
}

/// Why a file has no column.
pub enum NoColumn {
    NotGiven,
    /// It is there, but empty.
    Empty,
    /// The identification answer.
    NoEntries,
    /// An old booking with category L.
    NotRead,
    /// What is due cannot be said.
    BookingRefused,
    Refused(Box<Explained>),
}

impl NoColumn {
    pub fn words(&self) -> String {
        match self {
            NoColumn::NotGiven => "not given".to_string(),
            NoColumn::Empty => "empty, which counts as not given".to_string(),
            NoColumn::NoEntries => "no entries".to_string(),
            NoColumn::NotRead => "not read with category L".to_string(),
            NoColumn::BookingRefused => "the new booking is refused".to_string(),
            NoColumn::Refused(explained) => format!("refused, number {}", explained.refusal.number),
        }
    }

    /// The refusal of this file.
    pub fn refusal(&self) -> Option<&Explained> {
        match self {
            NoColumn::Refused(explained) => Some(explained),
            _ => None,
        }
    }
}

/// A file of a set.
pub struct FileFound {
    pub file: &'static FileType,
    /// Its name, None where the folder does not have it.
    pub name: Option<String>,
    pub due_and_found: DueAndFound,
    /// Why it is due or not, where it disagrees.
    pub why: Option<String>,
    pub column: Result<Vec<EntryFound>, NoColumn>,
}

impl FileFound {
    pub fn of(set: &SetOnDisk, file: &'static FileType) -> FileFound {
        let case = Case::set(set);
        let number = file.number;
        let due_and_found = DueAndFound::file(file_due(&case, number), set.is_given(number));
        let why = why(due_and_found, || Why::file(&case, number));
        FileFound {
            file,
            name: set.file(number).map(|on_disk| on_disk.name.clone()),
            due_and_found,
            why,
            column: column(set, file),
        }
    }

    /// Only what disagrees or is refused; None where nothing is.
    pub fn marked(mut self) -> Option<FileFound> {
        if let Ok(entries) = &mut self.column {
            entries.retain(|entry| entry.due_and_found.disagrees());
        }
        self.is_marked().then_some(self)
    }

    /// Whether something of it disagrees or is refused.
    pub fn is_marked(&self) -> bool {
        self.due_and_found.disagrees() || self.has_marked_column()
    }

    /// Whether an entry disagrees, or what is due in the file cannot be said.
    pub fn has_marked_column(&self) -> bool {
        match &self.column {
            Ok(_) => self.disagreeing() > 0,
            Err(NoColumn::BookingRefused | NoColumn::Refused(_)) => true,
            Err(_) => false,
        }
    }

    /// How many entries disagree.
    pub fn disagreeing(&self) -> usize {
        let entries = self.column.iter().flatten();
        let disagreeing = entries.filter(|entry| entry.due_and_found.disagrees());
        disagreeing.count()
    }
}

/// Whether a file is due. None where the stem or a file that decides it is refused, so that nothing can be said: the new
/// booking, and for the identification answer gas.
fn file_due(case: &Case, file: u32) -> Option<Due> {
    let deciding: &[u32] = match file {
        AC2 => &[],
        IDENTIFICATION => &[AC2, GAS],
        _ => &[AC2],
    };
    let refusal = case.only(deciding).refusal();
    let is_open =
        refusal.is_some_and(|refusal| refusal.file == 0 || deciding.contains(&refusal.file));
    let why = Why::file(case, file).filter(|_| !is_open)?;
    why.due()
}

/// The reasons in words, of what disagrees.
fn why<'a>(found: DueAndFound, reasons: impl FnOnce() -> Option<Why<'a>>) -> Option<String> {
    let reasons = found.disagrees().then(reasons)?;
    reasons.map(|reasons| reasons.words())
}

fn column(set: &SetOnDisk, file: &FileType) -> Result<Vec<EntryFound>, NoColumn> {
    match set.file(file.number) {
        // Where it is not given, it is refused.
        _ if file.number == AC2 => read_column(set, AC2),
        None => Err(NoColumn::NotGiven),
        Some(on_disk) if on_disk.text.is_empty() => Err(NoColumn::Empty),
        Some(_) if !file.has_entries() => Err(NoColumn::NoEntries),
        Some(_) => read_column(set, file.number),
    }
}

/// The column of a file that the library reads.
fn read_column(set: &SetOnDisk, number: u32) -> Result<Vec<EntryFound>, NoColumn> {
    let mut places = Places::default();
    match mctc::due(number, set.text(AC2), set.text(number), &mut places) {
        Ok(column) if column.entries.is_empty() => Err(NoColumn::NotRead),
        Ok(column) => {
            let read = placed::entries(number, set.text(number), &places);
            let entries = read.into_iter();
            let found = entries.filter_map(|entry| entry_found(set, number, &column, entry));
            Ok(found.collect())
        }
        Err(refusal) if refusal.file != number => Err(NoColumn::BookingRefused),
        Err(refusal) => {
            let case = Case::one_of(set, number);
            let explained = explain(case, refusal, Subject::of_set(set, number));
            Err(NoColumn::Refused(Box::new(explained)))
        }
    }
}

fn entry_found(set: &SetOnDisk, file: u32, column: &Column, read: EntryRead) -> Option<EntryFound> {
    let due = column.entries.get(read.number)?;
    let due_and_found = DueAndFound::entry(*due, read.is_filled());
    let entry = u32::try_from(read.number).ok()?;
    let why = why(due_and_found, || Why::entry(&Case::set(set), file, entry));
    Some(EntryFound {
        read,
        due_and_found,
        why,
    })
}

#[cfg(test)]
mod tests {
    use super::DueAndFound;
    use mctc::Due;

    fn words(judged: DueAndFound) -> (Option<&'static str>, &'static str, Option<String>) {
        (judged.due(), judged.found(), judged.disagreement())
    }

    #[test]
    fn entries_disagree_in_the_words_of_the_paper() {
        for (due, is_filled, right) in [
            (Due::Due, true, (Some("due"), "filled", None)),
            (Due::Due, false, (Some("due"), "empty", Some("due, empty"))),
            (
                Due::NotDue,
                true,
                (Some("not due"), "filled", Some("filled, not due")),
            ),
            (Due::NotDue, false, (Some("not due"), "empty", None)),
            (Due::Free, true, (Some("free"), "filled", None)),
            (Due::Free, false, (Some("free"), "empty", None)),
        ] {
            let (due_word, found, mark) = right;
            let right = (due_word, found, mark.map(String::from));
            assert_eq!(words(DueAndFound::entry(due, is_filled)), right);
        }
    }

    #[test]
    fn files_disagree_where_it_is_known() {
        for (due, is_given, mark) in [
            (Some(Due::Due), false, Some("due, absent")),
            (Some(Due::NotDue), true, Some("given, not due")),
            (Some(Due::Free), true, None),
            (None, true, None),
            (None, false, None),
        ] {
            let judged = DueAndFound::file(due, is_given);
            assert_eq!(judged.disagreement().as_deref(), mark);
            assert_eq!(judged.disagrees(), mark.is_some());
        }
    }
}
