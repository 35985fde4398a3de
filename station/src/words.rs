//! What each refusal means and what to do, in plain words.

use crate::file_types::{by_number, numbers_and_titles, FILE_TYPES, SUSPENSION};
use crate::identification;
use crate::out_of_date::{self, OUT_OF_DATE};
use crate::page::labelled;
use crate::reasons;

/// The last number of a refusal.
pub const LAST: u32 = 22;

/// All that is said of refusals with this number.
pub fn page(number: u32) -> String {
    let mut page = format!("Refusal {number}\n");
    page += &labelled("meaning", meaning(number));
    page += &labelled("where", place(number));
    page += &labelled("comes", calls(number));
    page += &labelled("to do", &advice(number));
    let rules = match number {
        11 => FILE_TYPES
            .iter()
            .map(|file| format!("{}: {}", file.title, reasons::when_given(file.number)))
            .collect(),
        12 => booking_rules(),
        19 => out_of_date::rules(),
        _ => Vec::new(),
    };
    for rule in rules {
        page += &labelled("rule", &rule);
    }
    page
}

/// 01's table: what a refusal carries.
pub fn place(number: u32) -> &'static str {
    match number {
        1 | 2 | 21 => "no file and no line",
        3 | 7 | 11 | 14 | 15 | 16 | 22 => "a file, and no line",
        8 => "a file, and the line of the section's heading",
        9 => {
            "a file and the line; in writing and in quoting a length, the line that the entry would have"
        }
        17 => "a file, and the line that the entry would have",
        18 => "a file, and no line; in joining no file either",
        20 => "2 for the second file, and the line there of the first such entry in the order of the table",
        _ => "a file and the line",
    }
}

/// In which calls a refusal comes, with the commands that make them.
fn calls(number: u32) -> &'static str {
    match number {
        1 => "in every call with places; never from this program, which lends enough",
        14 => "in judging a set, and in reading an identification answer alone (`mctc judge`, `mctc read`)",
        2 | 12 | 13 | 15 | 19 => "in judging a set (`mctc judge`)",
        3..=8 => {
            "in judging a set, in reading a file alone and in joining two (`mctc judge`, `mctc due`, `mctc read`, \
             `mctc format`, `mctc join`)"
        }
        9 => {
            "in judging a set, in reading a file alone, in writing one or quoting its length, and in joining two \
             (`mctc judge`, `mctc due`, `mctc read`, `mctc format`, `mctc join`)"
        }
        10 => {
            "in judging a set and in joining two files (`mctc judge`, `mctc join`; `mctc due` shows all entries)"
        }
        11 => {
            "in judging a set; of an empty file also in reading it alone and in joining (`mctc judge`, `mctc due`, \
             `mctc read`, `mctc format`, `mctc join`)"
        }
        16 => {
            "in every call with a file's number but judging; from this program where an identification answer, which \
             has no entries, is to be written in table order (`mctc format`)"
        }
        17 => {
            "in writing and in quoting a length; never from this program, which writes what it has read"
        }
        20 | 21 => "in joining two drift files (`mctc join`)",
        22 => "in writing by a quoted length; never from this program, which hands in what the quote answered",
        _ => "in writing, joining, names and due columns; never from this program, which lends enough",
    }
}

/// What a refusal means, by its number (01's table).
pub fn meaning(number: u32) -> &'static str {
    match number {
        1 => "the places are too short",
        2 => "the stem is not two capital letters and six digits",
        3 => "the file has more than 16,384 bytes",
        4 => "the line does not have the form of a line",
        5 => "the heading is not one of this file, or stands here again",
        6 => "the entry is not one of this section, or stands here again",
        7 => "a section is missing",
        8 => "an entry is missing in the section that begins at this line",
        9 => "the value is not of the kind that this entry asks for",
        10 => "the value is filled but not due, or due but empty",
        11 => "the file is missing but due, or given but not due",
        12 => "the value breaks a rule of the bookings",
        13 => "Differenza% is not the larger grip less the smaller",
        14 => "the identification answer does not have the right form",
        15 => "the identification answer differs from the gas file",
        16 => "there is no such file, or it has no entries",
        17 => "a value lies outside the text",
        18 => "the output is too short",
        19 => "a device is out of date on the day on which the measure ends",
        20 => "the [Deriva] sections of the two files differ in another entry than InizioMisura and FineMisura",
        21 => "the two files have more than nine axles together",
        22 => "the length that was handed in is not the quoted one",
        _ => "the library refuses with a number that this program does not know",
    }
}

/// What to do about a refusal, by its number.
pub fn advice(number: u32) -> String {
    match number {
        1 => format!("lend the library at least {} numbers", mctc::PLACES),
        15 => {
            let fields = identification::fields().into_iter();
            let shared = fields.filter(|field| field.entry.is_some());
            let names: Vec<String> = shared.map(|field| field.name).collect();
            format!(
                "compare the last seven fields with gas: {}",
                names.join(", ")
            )
        }
        16 => {
            let files = FILE_TYPES.iter().filter(|file| file.has_entries());
            format!("name the file's number: {}", numbers_and_titles(files))
        }
        other => fixed_advice(other).to_string(),
    }
}

/// What to do about a file that is not as it was made: one of a set, or one that a command names.
pub fn as_made(is_of_set: bool) -> &'static str {
    match is_of_set {
        true => "put the file there as the device or the booking office made it",
        false => "name the file that the device or the booking office made",
    }
}

fn fixed_advice(number: u32) -> &'static str {
    match number {
        2 => "give all files of the set one name of two capital letters and six digits, such as AB123456",
        3 => as_made(true),
        4 => "retype the line: a heading in [ ], or name=value below a heading; 1 to 512 bytes of 20 to 7E hex, then \
              CR LF (0D 0A hex)",
        5 => "correct the heading; if it stands above already, move its entries there",
        6 => "correct the name, or move the line to its section; if the entry stands twice, remove one of the two",
        7 => {
            "add the section with all its entries; if it is an axle's and no measured axle is missing, number the axles \
             from 1 without a gap"
        }
        8 => "add the entry to this section",
        9 => "correct the value: `mctc explain ENTRY` says what an entry of that name must look like",
        10 => {
            "fill in what is due and empty; for what is filled and not due, look first at the values that decide it, \
             and only if all of them are right leave nothing behind the `=`"
        }
        11 => {
            "add what is due; for a file that is given and not due, look first at the values that decide it, and only \
             if they are right take it out of the set"
        }
        12 => "correct the value, or what it hangs on if that is wrong",
        13 => "correct Aderenza%Sx, Aderenza%Dx or Differenza% of this axle",
        14 => "have the analyser's answer recorded again: 02 hex, ten fields separated by 17 hex (GAS, address, ID and \
               seven values), the checksum as two capital hexadecimal digits, 03 hex; at most 512 bytes",
        17 => "lend the places that reading this text gave",
        18 => {
            "lend more: in writing one file as many bytes as its quote answers, in joining as many as both texts have \
             together, for names as many as the longest name, heading or word has; for a due column as many numbers as \
             the file has entries"
        }
        19 => {
            "correct the due date if it is not the one on the device's certificate, or DataMisura, InizioMisura or \
             FineMisura if one of them is wrong; else have the measure made again with a device in date"
        }
        20 => {
            "find out which of the two values is right, and correct the other in its own file, which may be either; if \
             each is right for its file, the two cannot be joined, and the measure is to be made again"
        }
        21 => {
            "see that neither file is joined already, and that the two were not measured on the same axles; more than \
             nine axles do not fit one drift file"
        }
        22 => {
            "quote the length again, from the text, places, file number and axles that the file is to be written from, \
             and hand in what the quote answers"
        }
        _ => "report this to whoever maintains the program",
    }
}

/// The rules of both bookings, each with its entry.
fn booking_rules() -> Vec<String> {
    let files = [1, 2].into_iter();
    let entries = files.flat_map(|file| {
        let entries = (0..).map_while(move |entry| mctc::entry_name(file, entry).ok());
        entries.map(move |entry| (file, entry.name))
    });
    entries
        .filter_map(|(file, name)| {
            let rule = booking_rule(file, name.as_bytes())?;
            let ending = by_number(file)?.ending;
            Some(format!("{ending}, {name}: {rule}"))
        })
        .collect()
}

/// The rule at an entry, with the number that its line is refused with.
pub fn rule(file: u32, entry: &[u8]) -> Option<(u32, String)> {
    let fixed = |number: u32, rule: Option<&str>| Some((number, rule?.to_string()));
    fixed(12, booking_rule(file, entry))
        .or_else(|| fixed(13, grip_rule(file, entry)))
        .or_else(|| Some((OUT_OF_DATE, out_of_date::rule(file, entry)?)))
}

/// 01, Results: the rule at an entry of a suspension axle.
fn grip_rule(file: u32, entry: &[u8]) -> Option<&'static str> {
    (file == SUSPENSION && entry == b"Differenza%")
        .then_some("the larger of Aderenza%Sx and Aderenza%Dx less the smaller")
}

/// 01, Bookings: the rule at an entry of a booking.
pub fn booking_rule(file: u32, entry: &[u8]) -> Option<&'static str> {
    let rule = match (file, entry) {
        (1, b"TipoVeicolo") => {
            "M1, N1, O1 and O2 are LEGGERO, the other M, N and O PESANTE, all L MOTOVEICOLO"
        }
        (1, b"AzionamentoFrenoStazionamento") => "NON PRESENTE only with category L",
        (2, b"TipoVeicolo") => "the same as in the new booking",
        (2, b"DescrizioneVeicolo") => {
            "M1 AUTOVETTURA, PROMISCUO, AUTOCARAVAN, TRASPORTO SPECIFICO, USO SPECIALE; M2, M3 AUTOBUS; N AUTOCARRO, \
             TRATTORE STRADALE, TRATTORE PER SEMIRIMORCHIO, TRASPORTO SPECIFICO, USO SPECIALE; O RIMORCHIO, \
             SEMIRIMORCHIO"
        }
        (2, b"AnnoPrimaImm") => "the year of the new booking's DataPrimaImm",
        (2, b"Alimentazione_1") => {
            "where the new booking has BENZINA: BENZINA CAT with directive 91/441/CEE or 98/69/CE; BENZINA<86 with \
             RT1902 or NESSUNA and a DataPrimaImm before 01/10/1986; BENZINA NO CAT with RT1902 and one from then and \
             before 01/07/2002; else no value fits. For both dates day 00 with a known month counts as day 01, and \
             month 00 as before every month of its year. Where it has DIESEL: DIESEL TURBO COMPRESSO with Turbo S; else \
             DIESEL ASPIRATO SENZA CORRETTORE with CorrettorePressione N and DIESEL ASPIRATO CON CORRETTORE with S. \
             Else the same as in the new booking"
        }
        (2, b"FrenoStazionamento") => {
            "MANO or PEDALE where the new booking has ELETTRICO, else the same as there"
        }
        (2, b"NumAssiStazionamento") => "the number of S in the new booking's PosAssiStaz",
        _ => return None,
    };
    Some(rule)
}
