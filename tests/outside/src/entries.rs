//! What the papers ask of entries by their names alone, said apart from the reference's judging of it.

use crate::measures;
use crate::reference::tables::{table, Entry, AC2, ACC, DRIFT, GAS, OPACITY, SUSPENSION};

/// The entries of a file that may be filled or empty. 01, Due entries: "Note and CodErrore may be filled or empty", and in
/// ACC Alimentazione_1; 02, 2/14: what "hangs on data outside the set", and TempMinOlioMotore, printed `(*)`.
pub fn free_entries(file: u32) -> &'static [&'static str] {
    match file {
        AC2 => &[],
        ACC => &["Alimentazione_1"],
        OPACITY => &[
            "TempMinOlioMotore",
            "ValoreK4",
            "ValoreK5",
            "ValoreK6",
            "ValoreK7",
            "ValoreK8",
            "OpacitaMedia",
            "Note",
            "CodErrore",
        ],
        _ => &["Note", "CodErrore"],
    }
}

/// 02, 8/14: the entries that must agree where two drift files are joined, those of [Deriva] "in all but InizioMisura and
/// FineMisura", in table order.
pub fn entries_to_agree() -> impl Iterator<Item = &'static Entry> {
    let [_, times @ ..] = &measures::ENTRIES;
    let entries = table(DRIFT).sections[0].entries.iter();
    entries.filter(move |entry| !times.contains(&entry.name.as_str()))
}

/// 02, 5/14: the due dates of a result file's devices, in entry order.
pub fn due_dates(file: u32) -> &'static [&'static str] {
    match file {
        DRIFT | SUSPENSION => &["DataScadenza"],
        GAS => &[
            "DataScadenzaAnalizzatore",
            "DataScadenzaContagiri",
            BENCH_DUE_DATE,
        ],
        OPACITY => &["DataScadenzaOpacimetro", "DataScadenzaContagiri"],
        _ => &[],
    }
}

/// The only due date that is not always filled.
pub const BENCH_DUE_DATE: &str = "DataScadenzaProvaVelocita";

/// 01, Due entries, and 02, 2/14: the entries that are "filled exactly when" something holds.
pub fn is_conditional(file: u32, name: &str) -> bool {
    match file {
        AC2 => matches!(
            name,
            "CodiceCIC"
                | "Alimentazione_1"
                | "Turbo"
                | "CorrettorePressione"
                | "DirettivaEmissioniGasBenzinaAuto"
                | "DirettivaEmissioniGasMotociclo"
        ),
        GAS => hangs_on_links(name) || name == "COMinAcc" || name.ends_with("ProvaVelocita"),
        OPACITY => hangs_on_links(name),
        _ => false,
    }
}

/// Those that hang on the links and versions of devices.
fn hangs_on_links(name: &str) -> bool {
    name == "NumVersioneProtocolloContagiri" || name.ends_with("RS")
}
