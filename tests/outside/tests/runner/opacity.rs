//! Faults in what 02, 2/14 asks.

use outside::judge::{Call, Set, BY_HAND, OPACITY_MARK};
use outside::reference::places::{first_place, Triple};
use outside::reference::tables::{table, AC2, IDENTIFICATION, OPACITY};
use outside::reference::PLACES;

use super::holds;

#[derive(Clone, Copy, Debug)]
pub enum Opacity {
    NotAskedOf(char),
    AskedOfL,
    AsksForSlice6,
    LeastPlacesAsBefore,
    TriplesOneOff,
    MarkInNumber7,
    NeverMarked,
    NotReadAlone,
    NotWritten,
    /// A speed by hand sets number 9.
    SpeedInNumber9(&'static str),
    MadeDue(&'static str),
    PlateOf3LetIn,
    LetIn(&'static str, &'static str),
    KeptOut(&'static str, &'static str),
}

pub const FAULTS: [Opacity; 28] = [
    Opacity::NotAskedOf('M'),
    Opacity::NotAskedOf('N'),
    Opacity::AskedOfL,
    Opacity::AsksForSlice6,
    Opacity::LeastPlacesAsBefore,
    Opacity::TriplesOneOff,
    Opacity::MarkInNumber7,
    Opacity::NeverMarked,
    Opacity::NotReadAlone,
    Opacity::NotWritten,
    Opacity::SpeedInNumber9("NumGiriMotoreMax"),
    Opacity::SpeedInNumber9("NumGiriMotoreMinMis"),
    Opacity::SpeedInNumber9("NumGiriMotoreMaxMis"),
    // With INTEGRATO too.
    Opacity::MadeDue("NumVersioneProtocolloContagiri"),
    Opacity::MadeDue("ChecksumRS"),
    Opacity::MadeDue("TempMinOlioMotore"),
    Opacity::MadeDue("ValoreK4"),
    Opacity::MadeDue("OpacitaMedia"),
    Opacity::PlateOf3LetIn,
    Opacity::LetIn("TempAmbiente", "-100"),
    Opacity::LetIn("TempAmbiente", "5.5"),
    Opacity::LetIn("TempAmbiente", "+5"),
    Opacity::LetIn("TempAmbiente", "-#9"),
    Opacity::KeptOut("TempAmbiente", "-0"),
    Opacity::KeptOut("TempAmbiente", "-05"),
    Opacity::KeptOut("TempAmbiente", "007"),
    Opacity::KeptOut("TempAmbiente", "#-99"),
    Opacity::KeptOut("Esito", "I"),
];

/// Whether a line of a text behind its heading is this entry with this value.
fn has(text: &[u8], name: &str, value: &str) -> bool {
    holds(text, &format!("\n{name}={value}\r\n"))
}

fn has_plate_of_3(text: &[u8]) -> bool {
    let text = String::from_utf8_lossy(text);
    let plate = text.lines().find_map(|line| line.strip_prefix("Targa="));
    plate.is_some_and(|plate| plate.len() == 3)
}

pub fn refuse(answer: &mut [u32], refusal: [u32; 3]) {
    answer.fill(0);
    answer[..3].copy_from_slice(&refusal);
}

impl Opacity {
    /// Spoils the answer to a call, its places or its column.
    pub fn spoil(self, call: &Call, places: &mut [u32], column: &mut [u32], answer: &mut [u32]) {
        let accepted = answer[0] == 0;
        match (self, call) {
            // As many as there are before opacity's.
            (Opacity::LeastPlacesAsBefore, Call::Judge { .. })
                if answer[0] == 1 && places.len() >= first_place(OPACITY) =>
            {
                answer.fill(0);
            }
            (Opacity::NotReadAlone, Call::Read { file: OPACITY, .. })
            | (Opacity::NotWritten, Call::Write { file: OPACITY, .. }) => {
                refuse(answer, [16, OPACITY, 0]);
            }
            (Opacity::MadeDue(name), Call::Due { file: OPACITY, .. }) if accepted => {
                let mut entries = table(OPACITY).sections[0].entries.iter();
                let at = entries.position(|entry| entry.name == name);
                column[at.expect("an entry of opacity")] = 1;
            }
            (_, Call::Judge { set, .. }) if accepted => self.spoil_accepted(set, places, answer),
            (_, Call::Judge { set, .. }) => self.spoil_refused(set, answer),
            (
                _,
                Call::Read {
                    file: OPACITY,
                    text,
                    ..
                },
            ) => self.spoil_text(text, answer),
            _ => {}
        }
    }

    fn spoil_accepted(self, set: &Set, places: &mut [u32], answer: &mut [u32]) {
        let (ac2, opacity) = (set.slice(AC2), set.slice(OPACITY));
        match self {
            Opacity::AskedOfL
                if has(ac2, "Alimentazione_1", "DIESEL")
                    && holds(ac2, "\nCategoriaInternazionale=L") =>
            {
                refuse(answer, [11, OPACITY, 0]);
            }
            Opacity::AsksForSlice6 if has(opacity, "TipoCollegamento", "RS SENZA ESITO") => {
                refuse(answer, [11, IDENTIFICATION, 0]);
            }
            Opacity::TriplesOneOff => {
                places[first_place(OPACITY)..PLACES].rotate_right(Triple::NUMBERS);
            }
            Opacity::MarkInNumber7 => answer.swap(7, OPACITY_MARK),
            Opacity::NeverMarked => answer[OPACITY_MARK] = 0,
            Opacity::MadeDue(name) if has(opacity, name, "") => refuse(answer, [10, OPACITY, 2]),
            _ => self.spoil_text(opacity, answer),
        }
    }

    fn spoil_refused(self, set: &Set, answer: &mut [u32]) {
        let missing = answer[..2] == [11, OPACITY] && set.slice(OPACITY).is_empty();
        match self {
            Opacity::NotAskedOf(category)
                if missing
                    && holds(
                        set.slice(AC2),
                        &format!("\nCategoriaInternazionale={category}"),
                    ) =>
            {
                answer.fill(0);
            }
            _ => self.spoil_text(set.slice(OPACITY), answer),
        }
    }

    /// Spoils what comes of opacity's text, in a set or alone.
    fn spoil_text(self, text: &[u8], answer: &mut [u32]) {
        let accepted = answer[0] == 0;
        let wrong_kind = answer[..2] == [9, OPACITY];
        match self {
            Opacity::SpeedInNumber9(name) if accepted && holds(text, &format!("\n{name}=#")) => {
                answer[BY_HAND] = 1;
            }
            Opacity::PlateOf3LetIn if wrong_kind && has_plate_of_3(text) => answer.fill(0),
            Opacity::LetIn(name, value) if wrong_kind && has(text, name, value) => answer.fill(0),
            Opacity::KeptOut(name, value) if accepted && has(text, name, value) => {
                refuse(answer, [9, OPACITY, 2]);
            }
            _ => {}
        }
    }
}
