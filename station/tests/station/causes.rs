//! Refusals 10 and 11, and those of 12 that come from the same values: each names the values that decide.

use std::fs;
use std::path::Path;

use crate::common::{changed, empty_folder, put, repository, Change};
use crate::transcripts::check;

/// A set made from a sample: what is changed, and which files go.
struct Made {
    name: &'static str,
    sample: &'static str,
    changes: &'static [Change],
    gone: &'static [&'static str],
    /// A file of another sample, which stands here under the set's own stem.
    more: Option<&'static str>,
}

const fn moped(name: &'static str, changes: &'static [Change]) -> Made {
    Made {
        name,
        sample: "accepted-moped",
        changes,
        gone: &[],
        more: None,
    }
}

const fn car(name: &'static str, changes: &'static [Change], gone: &'static [&str]) -> Made {
    Made {
        name,
        sample: "accepted-car",
        changes,
        gone,
        more: None,
    }
}

const fn diesel(name: &'static str, changes: &'static [Change], gone: &'static [&str]) -> Made {
    Made {
        name,
        sample: "accepted-diesel",
        changes,
        gone,
        more: None,
    }
}

const fn unknown_day(name: &'static str, changes: &'static [Change]) -> Made {
    Made {
        name,
        sample: "accepted-unknown-day",
        changes,
        gone: &[],
        more: None,
    }
}

impl Made {
    const fn without(self, gone: &'static [&'static str]) -> Made {
        Made { gone, ..self }
    }

    const fn with(self, more: &'static str) -> Made {
        Made {
            more: Some(more),
            ..self
        }
    }
}

const GAS_FILE: &str = "accepted-car/AA123456.GAS";
const OPACITY_FILE: &str = "accepted-diesel/AE305518.OPA";

const FUEL: Change = ("AC2", "=BENZINA\r", "=benzina\r");
const OLD_WORD: Change = ("AC2", "=BENZINA\r", "=BENZINA CAT\r");
const DIRECTIVE: Change = ("AC2", "=98/69/CE", "=");

const NO_TURBO: Change = ("AC2", "Turbo=S", "Turbo=");
const NO_CORRECTOR: Change = ("AC2", "CorrettorePressione=N", "CorrettorePressione=");

const SETS: [Made; 57] = [
    moped("category", &[("AC2", "=L1e", "=L3e")]),
    moped("plate", &[("AC2", "=X2ABCD", "=X2ABCDE")]),
    moped(
        "motorcycle",
        &[("AC2", "=L1e", "=L3e"), ("AC2", "=CIC0012345", "=")],
    ),
    moped(
        "motorcycle-directive",
        &[
            ("AC2", "=L1e", "=L3e"),
            ("AC2", "=CIC0012345", "="),
            ("AC2", "Motociclo=", "Motociclo=nessuna"),
        ],
    ),
    moped("fuel-typing", &[("AC2", "=BENZINA", "=BENZNA")]),
    moped("bench-version", &[("GAS", "=201", "=210")]),
    moped(
        "bench-checksum",
        &[(
            "GAS",
            "ChecksumProvaVelocitaRS=",
            "ChecksumProvaVelocitaRS=x",
        )],
    ),
    moped("acceleration", &[("GAS", "COMinAcc=", "COMinAcc=0.100")]),
    moped("key", &[("GAS", "IDChiaveRS=", "IDChiaveRS=abcde")]),
    moped("counter", &[("GAS", "=INTEGRATO", "=ESTERNO")]),
    car("link", &[("GAS", "=RS SENZA ESITO", "=RETE")], &[]),
    car("gas-not-due", &[FUEL, DIRECTIVE], &["ACC"]),
    car("answer-not-due", &[FUEL, DIRECTIVE], &["ACC", "GAS"]),
    car("old-booking", &[FUEL, DIRECTIVE], &["GAS", "ID"]),
    car("noted", &[FUEL, DIRECTIVE], &["ACC", "GAS", "ID"]),
    car("other-fuel", &[("AC2", "=BENZINA\r", "=GPL\r")], &[]),
    car(
        "bookings-gpl",
        &[("AC2", "=BENZINA\r", "=GPL\r"), DIRECTIVE],
        &["GAS", "ID"],
    ),
    car(
        "bookings-diesel",
        &[
            ("AC2", "=BENZINA\r", "=DIESEL\r"),
            ("AC2", "Turbo=", "Turbo=S"),
            ("AC2", "CorrettorePressione=", "CorrettorePressione=N"),
            DIRECTIVE,
        ],
        &["GAS", "ID"],
    ),
    car(
        "bookings-methane",
        &[
            ("AC2", "=BENZINA\r", "=GPL\r"),
            ("ACC", "=BENZINA CAT\r", "=METANO\r"),
            DIRECTIVE,
        ],
        &["GAS", "ID"],
    ),
    car("directive-and-day", &[("AC2", "=98/69/CE", "=RT1902")], &[]),
    car(
        "old-directive",
        &[
            ("AC2", "=98/69/CE", "=RT1902"),
            ("AC2", "=15032004", "=15032000"),
            ("ACC", "=2004", "=2000"),
        ],
        &[],
    ),
    car("old-word", &[OLD_WORD, DIRECTIVE], &["GAS", "ID"]),
    car("old-word-directive", &[OLD_WORD], &["GAS", "ID"]),
    car(
        "two-fuels",
        &[("AC2", "=BENZINA\r", "=BENZINA/GPL\r"), DIRECTIVE],
        &["ACC", "GAS", "ID"],
    ),
    car(
        "short-fuel",
        &[("AC2", "=BENZINA\r", "=BENZ.\r"), DIRECTIVE],
        &["GAS", "ID"],
    ),
    diesel("wrong-test", &[], &["OPA"]).with(GAS_FILE),
    car("opacity-with-petrol", &[], &[]).with(OPACITY_FILE),
    moped(
        "opacity-with-quadricycle",
        &[
            ("AC2", "=L1e", "=L6e"),
            ("AC2", "=BENZINA", "=DIESEL"),
            ("AC2", "Turbo=", "Turbo=N"),
            ("AC2", "CorrettorePressione=", "CorrettorePressione=N"),
        ],
    )
    .without(&["GAS"])
    .with(OPACITY_FILE),
    diesel(
        "opacity-small-letters",
        &[("AC2", "=DIESEL\r", "=diesel\r"), NO_TURBO, NO_CORRECTOR],
        &["ACC"],
    ),
    diesel(
        "gasolio",
        &[("AC2", "=DIESEL\r", "=GASOLIO\r"), NO_TURBO, NO_CORRECTOR],
        &["ACC", "OPA"],
    ),
    diesel(
        "gasolio-old-booking",
        &[("AC2", "=DIESEL\r", "=GASOLIO\r"), NO_TURBO, NO_CORRECTOR],
        &["OPA"],
    ),
    diesel(
        "bookings-diesel-gpl",
        &[("AC2", "=DIESEL\r", "=GPL\r"), NO_TURBO, NO_CORRECTOR],
        &["OPA"],
    ),
    diesel(
        "gasolio-opacity",
        &[("AC2", "=DIESEL\r", "=GASOLIO\r"), NO_TURBO, NO_CORRECTOR],
        &["ACC"],
    ),
    diesel(
        "gasolio-turbo",
        &[("AC2", "=DIESEL\r", "=GASOLIO\r")],
        &["ACC"],
    ),
    diesel(
        "gasolio-hybrid",
        &[
            ("AC2", "=DIESEL\r", "=GASOLIO/ELETTRICO\r"),
            NO_TURBO,
            NO_CORRECTOR,
        ],
        &["ACC"],
    ),
    diesel(
        "hybrid-gasolio",
        &[("AC2", "=DIESEL\r", "=IBRIDO GASOLIO\r"), NO_TURBO],
        &["ACC"],
    ),
    car(
        "gasolio-gas",
        &[("AC2", "=BENZINA\r", "=GASOLIO\r"), DIRECTIVE],
        &["ACC"],
    ),
    car(
        "two-fuels-gas",
        &[("AC2", "=BENZINA\r", "=BENZINA/GPL\r"), DIRECTIVE],
        &["ACC"],
    ),
    car(
        "short-fuel-answer",
        &[("AC2", "=BENZINA\r", "=BENZ.\r"), DIRECTIVE],
        &["ACC", "GAS"],
    ),
    diesel("opacity-link", &[("OPA", "=RS SENZA ESITO", "=DIR")], &[]),
    diesel(
        "opacity-no-key",
        &[("OPA", "IDChiaveRS=K0231", "IDChiaveRS=")],
        &[],
    ),
    diesel(
        "opacity-counter-200",
        &[("OPA", "Contagiri=210", "Contagiri=200")],
        &[],
    ),
    diesel(
        "opacity-version-201",
        &[(
            "OPA",
            "NumVersioneProtocollo=210",
            "NumVersioneProtocollo=201",
        )],
        &[],
    ),
    unknown_day(
        "day-00-plain-fuel",
        &[("ACC", "=BENZINA NO CAT", "=BENZINA")],
    ),
    unknown_day(
        "day-00-other-fuel",
        &[("ACC", "=BENZINA NO CAT", "=METANO")],
    ),
    unknown_day(
        "day-00-near-word",
        &[("ACC", "=BENZINA NO CAT", "=benzina <86")],
    ),
    unknown_day(
        "day-00-catalyst-word",
        &[("ACC", "=BENZINA NO CAT", "=BENZINA CAT")],
    ),
    unknown_day("day-00-month-before", &[("AC2", "=00101986", "=00091986")]),
    unknown_day(
        "day-00-month-behind",
        &[
            ("AC2", "=00101986", "=00111986"),
            ("ACC", "=BENZINA NO CAT", "=BENZINA<86"),
        ],
    ),
    unknown_day("day-00-catalyst", &[("AC2", "=RT1902", "=98/69/CE")]),
    unknown_day("day-00-year", &[("ACC", "=1986", "=1987")]),
    unknown_day(
        "day-00-no-fuel-diesel",
        &[
            ("AC2", "=RT1902", "=NESSUNA"),
            ("ACC", "=BENZINA NO CAT", "=DIESEL TURBO COMPRESSO"),
        ],
    ),
    unknown_day(
        "day-00-no-fuel-methane",
        &[
            ("AC2", "=RT1902", "=NESSUNA"),
            ("ACC", "=BENZINA NO CAT", "=METANO"),
        ],
    ),
    unknown_day(
        "month-00-of-2002",
        &[
            ("AC2", "=00101986", "=00002002"),
            ("ACC", "=1986", "=2002"),
            ("ACC", "=BENZINA NO CAT", "=BENZINA<86"),
        ],
    ),
    unknown_day(
        "month-00-catalyst-word",
        &[
            ("AC2", "=00101986", "=00001986"),
            ("ACC", "=BENZINA NO CAT", "=BENZINA CAT"),
        ],
    ),
    unknown_day(
        "month-00-no-directive",
        &[
            ("AC2", "=00101986", "=00001986"),
            ("AC2", "=RT1902", "=NESSUNA"),
        ],
    ),
    unknown_day(
        "day-known",
        &[
            ("AC2", "=00101986", "=15101986"),
            ("AC2", "=RT1902", "=NESSUNA"),
        ],
    ),
];

impl Made {
    fn put(&self, root: &Path) {
        let folder = root.join(self.name);
        let files = changed(self.sample, self.changes);
        let (first, _) = files.first().expect("a file");
        if let Some(more) = self.more.map(Path::new) {
            let text = fs::read(repository().join("samples").join(more)).expect("a sample");
            let name = first.with_extension(more.extension().expect("an ending"));
            put(folder.join(name), text);
        }
        for (name, text) in &files {
            let ending = name.extension().expect("an ending");
            if !self.gone.iter().any(|gone| ending == *gone) {
                put(folder.join(name), text);
            }
        }
    }
}

#[test]
fn causes_are_named() {
    let folder = empty_folder("causes");
    SETS.iter().for_each(|made| made.put(&folder));
    check("causes.txt", &folder);
}
