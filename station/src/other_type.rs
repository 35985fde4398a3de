//! A whole file that stands where another of the set belongs: read alone, it is one of the other types.

use mctc::{Due, Places};

use crate::case::{Case, Refused};
use crate::disk::stem_shown;
use crate::file_types::{by_number, FileType, FILE_TYPES};
use crate::finding::Finding;
use crate::reasons::Why;
use crate::words;

/// Of refusals 5, 6 and 7.
pub fn finding(refused: &Refused) -> Option<Finding> {
    let number = refused.refusal.file;
    let expected = by_number(number)?;
    let other = type_of(refused.text(), number)?;
    let meaning = match refused.refusal.number {
        5 => "the heading is not one of this file",
        6 => "the entry is not one of this section",
        other => words::meaning(other),
    };
    let (is, belongs) = (article(other.title), article(expected.title));
    let cause = format!("this is {is} file, where {belongs} file belongs");
    let finding = Finding::cause(cause).meaning(meaning);
    let rename = renamed(&refused.case, "it", other);
    let put = match refused.case.is_of_set() {
        true => format!("put the {} file here", expected.title),
        false => format!("name the {} file", expected.title),
    };
    let advice = match (is_wanted(&refused.case, other), due(&refused.case, number)) {
        (true, Some(Due::Due)) => format!("{rename}, and {put}"),
        (true, _) => rename,
        (false, Some(Due::NotDue)) => {
            format!(
                "find out where it belongs: no {} file is due here",
                expected.title
            )
        }
        (false, _) => put,
    };
    Some(finding.advice(advice))
}

/// Of refusal 11 where the file is given and not due: it is of a type that the set may have and lacks.
pub fn misplaced(refused: &Refused) -> Option<Finding> {
    let other = type_of(refused.text(), refused.refusal.file)?;
    is_wanted(&refused.case, other).then(|| {
        let (is, ending) = (article(other.title), other.ending);
        let cause = format!("this is {is} file, and none is given as {ending}");
        Finding::cause(cause).advice(renamed(&refused.case, "it", other))
    })
}

/// Of refusal 11 where the file is due and missing: another of the set that is of its type.
pub fn elsewhere(refused: &Refused) -> Option<Finding> {
    let missing = by_number(refused.refusal.file)?;
    let mut files = FILE_TYPES.iter();
    let found = files.find(|file| {
        let other = type_of(refused.case.text(file.number), file.number);
        other == Some(missing)
    })?;
    let (is, what) = (article(missing.title), format!("the {} file", found.ending));
    let cause = format!("{what} is {is} file");
    Some(Finding::cause(cause).advice(renamed(&refused.case, &what, missing)))
}

/// The type that a text is of, where it is not of the one that it is given as.
fn type_of(text: &[u8], number: u32) -> Option<&'static FileType> {
    let mut others = FILE_TYPES.iter().filter(|_| !is_of(number, text));
    others.find(|other| is_of(other.number, text))
}

/// Whether all lines of a text are those of a file of this type: only entries that are absent or values of the wrong
/// kind may be refused.
fn is_of(number: u32, text: &[u8]) -> bool {
    let read = mctc::read(number, text, &mut Places::default());
    read.is_ok() || read.is_err_and(|refusal| matches!(refusal.number, 8 | 9))
}

/// Whether the set may have such a file and has none.
fn is_wanted(case: &Case, file: &FileType) -> bool {
    let may_be = matches!(due(case, file.number), Some(Due::Due | Due::Free));
    may_be && case.text(file.number).is_empty()
}

/// None of a file apart from any set, and where the new booking, which decides, is refused.
fn due(case: &Case, number: u32) -> Option<Due> {
    let why = Why::file(case, number).filter(|_| case.is_of_set());
    why?.due()
}

/// The advice to give a file the name that one of this type has in the set.
fn renamed(case: &Case, what: &str, file: &FileType) -> String {
    let stem = stem_shown(case.stem());
    format!("give {what} the name {stem}.{}", file.ending)
}

/// `a drift`, `an old booking`.
fn article(title: &str) -> String {
    let article = match title.starts_with(['a', 'e', 'i', 'o', 'u']) {
        true => "an",
        false => "a",
    };
    format!("{article} {title}")
}
