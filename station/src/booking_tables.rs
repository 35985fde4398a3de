//! The rules of the bookings as tables, for `mctc rules`: bookings are made up and judged, and what passes is listed.

use mctc::{Places, Set, Test};

use crate::candidates;
use crate::file_types::{AC2, ACC};
use crate::made_up::{self, Values};
use crate::shown::word_list;

/// Days on both sides of those by which the fuel of the old booking changes.
pub const DAYS: [&str; 4] = ["30091986", "01101986", "30062002", "01072002"];

/// The same with days that are not known, two of them in a month that is not known either (02, 3/14).
pub const UNKNOWN_DAYS: [&str; 6] = [
    "00001986", "00091986", "00101986", "00002002", "00062002", "00072002",
];

/// What both bookings have where nothing else is said: a car without any rule to break but the one that is tried.
const PLAIN: [(&str, &str); 11] = [
    ("TargaNominale", "AB123CD"),
    ("TipoVeicolo", "LEGGERO"),
    ("CategoriaInternazionale", "M1"),
    ("DataPrimaImm", "01012000"),
    ("Alimentazione_1", "GPL"),
    ("AzionamentoFrenoStazionamento", "MANO"),
    ("PosAssiStaz", "NNNNNNNNN"),
    ("DescrizioneVeicolo", "AUTOVETTURA"),
    ("AnnoPrimaImm", "2000"),
    ("FrenoStazionamento", "MANO"),
    ("NumAssiStazionamento", "0"),
];

/// A booking with these values, the plain ones where there is none.
pub fn booking(file: u32, values: &Values) -> Vec<u8> {
    made_up::text(file, &[values, &PLAIN].concat())
}

/// Whether the library lets bookings pass: it accepts, or refuses a file behind them.
fn passes(ac2: &Values, acc: Option<&Values>) -> bool {
    let set = Set {
        stem: made_up::STEM,
        ac2: &booking(AC2, ac2),
        acc: &acc.map_or(Vec::new(), |acc| booking(ACC, acc)),
        ..Set::default()
    };
    let verdict = mctc::judge(&set, &mut Places::default());
    verdict.err().is_none_or(|refusal| refusal.file > ACC)
}

/// The words of an entry of the new booking.
fn words_of(name: &str) -> Vec<String> {
    let mut entries = (0..).map_while(|entry| {
        let found = mctc::entry_name(AC2, entry).ok()?;
        Some((found.name, entry))
    });
    let entry = entries.find(|(other, _)| other == name);
    let kind = entry.and_then(|(_, entry)| mctc::kind(AC2, entry).ok());
    kind.map_or(Vec::new(), |kind| kind.words)
}

/// The words that pass at an entry of the old booking.
fn fitting(ac2: &Values, name: &str, acc: &Values) -> Vec<String> {
    let fits = |word: &String| {
        let acc = [&[(name, word.as_str())], acc].concat();
        passes(ac2, Some(&acc))
    };
    candidates::words().filter(fits).collect()
}

fn or_none(mut words: Vec<String>) -> String {
    let mut seen = Vec::new();
    words.retain(|word| {
        let is_new = !seen.contains(word);
        seen.push(word.clone());
        is_new
    });
    match words.as_slice() {
        [] => "none".to_string(),
        words => word_list(words).join(", "),
    }
}

/// A category, its TipoVeicolo and its DescrizioneVeicolo.
pub fn categories() -> Vec<[String; 3]> {
    let rows = words_of("CategoriaInternazionale")
        .into_iter()
        .map(|category| {
            // A trailer has no fuel.
            let fuel = match Test::NotO.passes(category.as_bytes()) {
                true => "GPL",
                false => "",
            };
            let values = [
                ("CategoriaInternazionale", category.as_str()),
                ("Alimentazione_1", fuel),
            ];
            let is_type = |word: &String| {
                let values = [&[("TipoVeicolo", word.as_str())], &values[..]].concat();
                passes(&values, None)
            };
            let types: Vec<String> = words_of("TipoVeicolo")
                .into_iter()
                .filter(is_type)
                .collect();
            let first = types.first().map_or("", String::as_str);
            let values = [&[("TipoVeicolo", first)], &values[..]].concat();
            let descriptions = match Test::NotL.passes(category.as_bytes()) {
                true => or_none(fitting(&values, "DescrizioneVeicolo", &values)),
                false => "not read".to_string(),
            };
            [format!("`{category}`"), or_none(types), descriptions]
        });
    rows.collect()
}

/// Whether a word of the old booking passes with this fuel of the new one, with some directive and day, or with some
/// Turbo and CorrettorePressione.
pub fn goes_with(fuel: &str, word: &str) -> bool {
    let fits = |values: &Values| {
        let fuels = [&[("Alimentazione_1", fuel)], values].concat();
        let acc = [&[("Alimentazione_1", word)], values].concat();
        passes(&fuels, Some(&acc))
    };
    let directives = words_of("DirettivaEmissioniGasBenzinaAuto");
    let petrol = directives.iter().any(|directive| {
        DAYS.iter().any(|day| {
            fits(&[
                ("DirettivaEmissioniGasBenzinaAuto", directive.as_str()),
                ("DataPrimaImm", day),
                ("AnnoPrimaImm", year(day)),
            ])
        })
    });
    petrol
        || words_of("Turbo").iter().any(|turbo| {
            words_of("CorrettorePressione").iter().any(|corrector| {
                fits(&[
                    ("Turbo", turbo.as_str()),
                    ("CorrettorePressione", corrector.as_str()),
                ])
            })
        })
}

/// Whether the fuel that passes in the old booking changes with one of these values of the new one, by trial with others
/// in its place.
pub fn changes_fuel(values: &Values, name: &str) -> bool {
    let others = match name {
        "DataPrimaImm" => DAYS.map(String::from).to_vec(),
        name => words_of(name),
    };
    let found = fuels(values);
    others.iter().any(|other| {
        let changed = fuels_with(values, name, other);
        changed.is_some() && changed != found
    })
}

/// The fuels that pass in the old booking with this in place of one of these values of the new one.
pub fn fuels_with(values: &Values, name: &str, other: &str) -> Option<Vec<String>> {
    fuels(&[&[(name, other)], values].concat())
}

/// The fuels that pass in the old booking; None where the new one does not pass.
pub fn fuels(values: &Values) -> Option<Vec<String>> {
    let day = values.iter().find(|(name, _)| *name == "DataPrimaImm");
    let years = day.map(|(_, day)| ("AnnoPrimaImm", year(day)));
    let years: Vec<(&str, &str)> = years.into_iter().collect();
    passes(values, None).then(|| fitting(values, "Alimentazione_1", &years))
}

fn year(day: &str) -> &str {
    day.get(4..).unwrap_or_default()
}

/// A car's directive, and the old booking's fuel for each of these days.
pub fn petrol(days: &[&str]) -> Vec<Vec<String>> {
    let rows = words_of("DirettivaEmissioniGasBenzinaAuto").into_iter();
    let rows = rows.map(|directive| {
        let fuels = days.iter().map(|day| petrol_on(&directive, day));
        let cells = std::iter::once(format!("`{directive}`")).chain(fuels);
        cells.collect()
    });
    rows.collect()
}

fn petrol_on(directive: &str, day: &str) -> String {
    let values = [
        ("Alimentazione_1", "BENZINA"),
        ("DirettivaEmissioniGasBenzinaAuto", directive),
        ("DataPrimaImm", day),
        ("AnnoPrimaImm", year(day)),
    ];
    or_none(fitting(&values, "Alimentazione_1", &values))
}

/// Turbo, CorrettorePressione, and the old booking's fuel.
pub fn diesel() -> Vec<[String; 3]> {
    let mut rows = Vec::new();
    for turbo in words_of("Turbo") {
        for corrector in words_of("CorrettorePressione") {
            let values = [
                ("Alimentazione_1", "DIESEL"),
                ("Turbo", turbo.as_str()),
                ("CorrettorePressione", corrector.as_str()),
            ];
            let fuel = or_none(fitting(&values, "Alimentazione_1", &values));
            rows.push([format!("`{turbo}`"), format!("`{corrector}`"), fuel]);
        }
    }
    rows
}

/// The parking brake of the new booking, and of the old one.
pub fn brakes() -> Vec<[String; 2]> {
    let rows = words_of("AzionamentoFrenoStazionamento").into_iter();
    let rows = rows.map(|brake| {
        let values = [("AzionamentoFrenoStazionamento", brake.as_str())];
        let fitting = fitting(&values, "FrenoStazionamento", &[]);
        [format!("`{brake}`"), or_none(fitting)]
    });
    rows.collect()
}

#[cfg(test)]
mod tests {
    use super::petrol_on;

    /// 02, 3/14: day 00 with a known month counts as its day 01, month 00 is before every month of its year.
    #[test]
    fn unknown_days_count_as_the_first() {
        let (before, from, none) = ("`BENZINA<86`", "`BENZINA NO CAT`", "none");
        for (day, rt1902, nessuna) in [
            ("00001986", before, before),
            ("00091986", before, before),
            ("30091986", before, before),
            ("00101986", from, none),
            ("01101986", from, none),
            ("00111986", from, none),
            ("00001987", from, none),
            ("00002002", from, none),
            ("00062002", from, none),
            ("30062002", from, none),
            ("00072002", none, none),
            ("01072002", none, none),
            ("00082002", none, none),
            ("00002003", none, none),
        ] {
            assert_eq!(petrol_on("RT1902", day), rt1902, "RT1902 {day}");
            assert_eq!(petrol_on("NESSUNA", day), nessuna, "NESSUNA {day}");
            assert_eq!(petrol_on("98/69/CE", day), "`BENZINA CAT`", "{day}");
        }
    }
}
