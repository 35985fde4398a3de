//! What a value of each kind looks like, in words.

use mctc::{Form, Kind};

use crate::shown::{counted, word_list};

/// A day that may be known in part.
const FIRST_DAY: &str = "a day as ddmmyyyy, years 1900 to 2099; day `00` where it is not known, \
                         and month `00` only with day `00`";

const TEMPERATURE: &str = "a whole number from -99 to 999: 1 to 3 digits, or `-` and 1 or 2 digits";

/// The words of a list that do not speak for themselves, with their meaning (001, 1.3.1: type E).
const OUTCOMES: [(&str, &str); 3] = [("R", "regular"), ("I", "irregular"), ("N", "not required")];

/// The fewest bytes of opacity's Targa.
const SHORTEST_PLATE: u32 = 4;

/// What is expected at an entry.
pub fn expected(file: u32, entry: u32) -> Option<String> {
    mctc::kind(file, entry).ok().map(|kind| words(&kind))
}

pub fn words(kind: &Kind) -> String {
    let (least, most) = (least(kind), most(kind));
    match kind.form {
        Form::Text | Form::Targa => {
            format!("{least} to {most} plain letters, digits, signs or spaces")
        }
        Form::Exact => format!("exactly {most} plain letters, digits, signs or spaces"),
        Form::Number => digits(most),
        Form::NumberByHand => or_by_hand(&digits(most)),
        Form::Fixed => fixed(kind),
        Form::FixedByHand => or_by_hand(&fixed(kind)),
        Form::Day => "a day as ddmmyyyy, years 1900 to 2099".to_string(),
        Form::Time => "a time as hhmmss, `000000` to `235959`".to_string(),
        Form::Deriva => "an optional `-`, one or two digits, a point, two digits".to_string(),
        Form::DataPrimaImm => FIRST_DAY.to_string(),
        Form::AnnoPrimaImm => "a year of four digits".to_string(),
        Form::PosAssiStaz => "nine letters `S` or `N`".to_string(),
        Form::TempAmbiente => or_by_hand(TEMPERATURE),
        Form::Word => format!("one of {}", meanings(&kind.words).join(", ")),
        Form::Other(_) => format!("at most {most} bytes"),
    }
}

fn digits(most: u32) -> String {
    match most {
        1 => "one digit".to_string(),
        2 => "one or two digits".to_string(),
        _ => format!("1 to {most} digits"),
    }
}

fn fixed(kind: &Kind) -> String {
    let (behind, most) = (counted(kind.decimals as usize, "digit"), most(kind));
    format!("digits, a point, {behind}, at most {most} bytes in all")
}

fn or_by_hand(words: &str) -> String {
    format!("{words}; with `#` before them where entered by hand")
}

/// The words of a list; of outcomes, each with its meaning.
fn meanings(words: &[String]) -> Vec<String> {
    if !words.iter().eq(OUTCOMES.iter().map(|(word, _)| word)) {
        return word_list(words);
    }
    let outcomes = OUTCOMES.iter();
    outcomes
        .map(|(word, meaning)| format!("`{word}` ({meaning})"))
        .collect()
}

/// What to do about a `#` where the kind lets none stand. To take it away may hide that a person put in what only the
/// device may say; what is no measurement, a person may.
pub fn not_by_hand(without: &str) -> String {
    format!("if it is a measurement that was entered by hand, have it measured; else {without}")
}

/// Whether `#` may stand before a value, which says that it was entered by hand.
pub fn may_be_by_hand(kind: &Kind) -> bool {
    matches!(
        kind.form,
        Form::NumberByHand | Form::FixedByHand | Form::TempAmbiente
    )
}

/// The most bytes of a value, without the `#` of one that was entered by hand.
pub fn most(kind: &Kind) -> u32 {
    match may_be_by_hand(kind) {
        true => kind.most.saturating_sub(1),
        false => kind.most,
    }
}

/// The fewest bytes of a value, where they are counted.
pub fn least(kind: &Kind) -> u32 {
    match kind.form {
        Form::Exact
        | Form::Day
        | Form::Time
        | Form::DataPrimaImm
        | Form::AnnoPrimaImm
        | Form::PosAssiStaz => kind.most,
        Form::Targa => SHORTEST_PLATE,
        _ => 1,
    }
}

#[cfg(test)]
mod tests {
    use mctc::{Form, Places};

    use super::{expected, least, may_be_by_hand, most};
    use crate::file_types::{FILE_TYPES, OPACITY};
    use crate::table::{self, Section};

    /// Whether the library reads a file in which this entry alone is filled, all axles there.
    fn is_right(file: u32, sections: &[Section], entry: usize, value: &str) -> bool {
        let mut text = String::new();
        for section in sections {
            text += &format!("{}\r\n", section.heading);
            for other in &section.entries {
                let value = if other.number == entry { value } else { "" };
                text += &format!("{}={value}\r\n", other.name);
            }
        }
        mctc::read(file, text.as_bytes(), &mut Places::default()).is_ok()
    }

    /// What is said of the count of bytes is what the library lets in.
    #[test]
    fn bytes_are_counted_as_the_library_does() {
        for file in FILE_TYPES.iter().map(|file| file.number) {
            let sections = table::sections(file);
            let entries = sections.iter().flat_map(|section| &section.entries);
            for entry in entries {
                let kind = mctc::kind(file, entry.number as u32).expect("a kind");
                let byte = match kind.form {
                    Form::Text | Form::Exact | Form::Targa => "x",
                    Form::Number | Form::NumberByHand => "1",
                    Form::PosAssiStaz => "S",
                    _ => continue,
                };
                let (least, most) = (least(&kind) as usize, most(&kind) as usize);
                for count in [least - 1, least, most, most + 1] {
                    let value = byte.repeat(count);
                    let right = count == 0 || (least..=most).contains(&count);
                    let is_right = |value: &str| is_right(file, &sections, entry.number, value);
                    assert_eq!(is_right(&value), right, "{file} {} {value}", entry.name);
                    let marked = may_be_by_hand(&kind) && right && count > 0;
                    assert!(!marked || is_right(&format!("#{value}")), "{}", entry.name);
                }
            }
        }
    }

    /// The kinds that only opacity has: their words, what passes and what does not.
    #[test]
    fn words_of_opacity_are_true() {
        let sections = table::sections(OPACITY);
        let cases: [(&str, &str, &[&str], &[&str]); 6] = [
            (
                "Targa",
                "4 to 10 plain letters, digits, signs or spaces",
                &["AB12", "AB 123 CD4"],
                &["AB1", "AB123456789"],
            ),
            (
                "LimiteK",
                "digits, a point, 1 digit, at most 3 bytes in all",
                &["1.5", "0.0"],
                &["1.50", "10.5", "15", ".5", "#1.5"],
            ),
            (
                "TempOlioMotore",
                "digits, a point, 1 digit, at most 5 bytes in all; with `#` before them where entered by hand",
                &["85.0", "#85.0", "100.5", "#100.5"],
                &["85", "1000.5", "#1000.5", "-5.0", "85.0#", "##85.0", "#"],
            ),
            (
                "TempAmbiente",
                "a whole number from -99 to 999: 1 to 3 digits, or `-` and 1 or 2 digits; with `#` before them where \
                 entered by hand",
                &["0", "-0", "007", "-05", "999", "-99", "#999", "#-99"],
                &["1000", "-100", "5.5", "+5", "-#9", "-", "#", "#-"],
            ),
            (
                "UmiditaRelativa",
                "1 to 3 digits; with `#` before them where entered by hand",
                &["5", "100", "#100"],
                &["1000", "#1000", "45%", "4.5"],
            ),
            (
                "Esito",
                "one of `R` (regular), `I` (irregular), `N` (not required)",
                &["R", "I", "N"],
                &["r", "RI"],
            ),
        ];
        for (name, words, right, wrong) in cases {
            let entries = sections.iter().flat_map(|section| &section.entries);
            let mut entries = entries.filter(|entry| entry.name == name);
            let entry = entries.next().expect("an entry").number;
            assert_eq!(expected(OPACITY, entry as u32).as_deref(), Some(words));
            for value in right {
                assert!(is_right(OPACITY, &sections, entry, value), "{name}={value}");
            }
            for value in wrong {
                assert!(
                    !is_right(OPACITY, &sections, entry, value),
                    "{name}={value}"
                );
            }
        }
    }
}
