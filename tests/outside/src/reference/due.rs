//! 01, Due entries, and those of opacity (02, 2/14).

use super::files::FileRead;
use super::tables::{AC2, ACC, GAS, OPACITY};
use super::Refusal;

/// What 01 asks of an entry.
#[derive(Clone, Copy, Debug, PartialEq, Eq)]
pub enum Due {
    Filled,
    Empty,
    Free,
}

fn filled_when(condition: bool) -> Due {
    if condition {
        Due::Filled
    } else {
        Due::Empty
    }
}

/// The category, as a text.
pub fn category(ac2: &FileRead) -> String {
    String::from_utf8_lossy(ac2.value("CategoriaInternazionale")).into_owned()
}

/// 01, Bookings: "all L".
pub fn is_l(ac2: &FileRead) -> bool {
    category(ac2).starts_with('L')
}

/// 01, Due entries: "with M or N".
fn is_m_or_n(ac2: &FileRead) -> bool {
    category(ac2).starts_with(['M', 'N'])
}

/// 01, Due entries: "Gas is given exactly when AC2 has BENZINA (ours)".
pub fn is_gas_due(ac2: &FileRead) -> bool {
    has_fuel(ac2, "BENZINA")
}

/// 02, 2/14: "The file is given exactly when AC2 has DIESEL with an M or N category."
pub fn is_opacity_due(ac2: &FileRead) -> bool {
    has_fuel(ac2, "DIESEL") && is_m_or_n(ac2)
}

fn has_fuel(ac2: &FileRead, fuel: &str) -> bool {
    ac2.value("Alimentazione_1") == fuel.as_bytes()
}

fn is_moped(ac2: &FileRead) -> bool {
    matches!(category(ac2).as_str(), "L1e" | "L2e" | "L6e")
}

/// 01, Due entries: "condition P, that is L1e, L2e or L6e, or Motociclo directive NESSUNA".
fn condition_p(ac2: &FileRead) -> bool {
    is_moped(ac2) || ac2.value("DirettivaEmissioniGasMotociclo") == b"NESSUNA"
}

/// What 01 asks of each entry of a file, in entry order: 1 filled, 2 empty, 3 free.
pub fn due_column(read: &FileRead, ac2: &FileRead) -> Vec<u32> {
    let entries = read.entries();
    let due = entries.map(|(entry, _)| due(&entry.name, read, ac2));
    due.map(|due| match due {
        Due::Filled => 1,
        Due::Empty => 2,
        Due::Free => 3,
    })
    .collect()
}

/// 01, row 10: "filled, not due; or due, empty", in entry order.
pub fn judge_due(read: &FileRead, ac2: &FileRead) -> Result<(), Refusal> {
    judge_each(read, |name| due(name, read, ac2))
}

/// Likewise of a drift file, in which nothing hangs on AC2.
pub fn judge_due_in_drift(drift: &FileRead) -> Result<(), Refusal> {
    judge_each(drift, due_unless_free)
}

/// Row 10 by what is asked of each entry.
fn judge_each(read: &FileRead, due: impl Fn(&str) -> Due) -> Result<(), Refusal> {
    for (entry, found) in read.entries() {
        let filled = found.length > 0;
        let right = match due(&entry.name) {
            Due::Filled => filled,
            Due::Empty => !filled,
            Due::Free => true,
        };
        if !right {
            return Err(Refusal::new(10, read.table.file, found.line));
        }
    }
    Ok(())
}

/// 01, Due entries: "All else is due (filled) except, filled exactly when".
pub fn due(name: &str, read: &FileRead, ac2: &FileRead) -> Due {
    match read.table.file {
        AC2 => due_in_ac2(name, ac2),
        ACC if name == "Alimentazione_1" => Due::Free,
        GAS => due_in_gas(name, read, ac2),
        OPACITY => due_in_opacity(name, read),
        _ => due_unless_free(name),
    }
}

/// 01, Due entries: "Note and CodErrore may be filled or empty. All else is due (filled)".
fn due_unless_free(name: &str) -> Due {
    match name {
        "Note" | "CodErrore" => Due::Free,
        _ => Due::Filled,
    }
}

/// 01, Due entries: CodiceCIC, Alimentazione_1, Turbo, CorrettorePressione, directives.
fn due_in_ac2(name: &str, ac2: &FileRead) -> Due {
    let category = category(ac2);
    let petrol = has_fuel(ac2, "BENZINA");
    match name {
        "CodiceCIC" => filled_when(is_moped(ac2) && ac2.value("TargaNominale").len() == 6),
        "Alimentazione_1" => filled_when(!category.starts_with('O')),
        "Turbo" | "CorrettorePressione" => filled_when(has_fuel(ac2, "DIESEL")),
        "DirettivaEmissioniGasBenzinaAuto" => filled_when(petrol && is_m_or_n(ac2)),
        "DirettivaEmissioniGasMotociclo" => {
            filled_when(petrol && matches!(category.as_str(), "L3e" | "L4e" | "L5e" | "L7e"))
        }
        _ => Due::Filled,
    }
}

/// 01, Due entries: COMinAcc and, by condition P and the bench's version, what ends in ProvaVelocita or ProvaVelocitaRS.
fn due_in_gas(name: &str, gas: &FileRead, ac2: &FileRead) -> Due {
    let p = condition_p(ac2);
    let bench = gas.value("NumVersioneProtocolloProvaVelocita");
    match name {
        "COMinAcc" => {
            let directive = ac2.value("DirettivaEmissioniGasBenzinaAuto");
            filled_when(directive == b"91/441/CEE" || directive == b"98/69/CE")
        }
        "MarcaProvaVelocita"
        | "TipoProvaVelocita"
        | "NumOmologaProvaVelocita"
        | "NumSerieProvaVelocita"
        | "NumVersioneSoftwareProvaVelocita"
        | "NumVersioneProtocolloProvaVelocita"
        | "DataScadenzaProvaVelocita" => filled_when(p),
        "IDChiaveProvaVelocitaRS"
        | "DataRegChiaveProvaVelocitaRS"
        | "ModuloChiaveProvaVelocitaRS"
        | "EsponenteChiaveProvaVelocitaRS" => filled_when(p && bench == b"210"),
        "ChecksumProvaVelocitaRS" => filled_when(p && bench == b"200"),
        _ => due_by_links(name, gas),
    }
}

/// 02, 2/14: "An entry whose printed condition hangs on data outside the set may be filled or empty"; the others by the
/// links printed in 001, 3.3.3.7.
fn due_in_opacity(name: &str, opacity: &FileRead) -> Due {
    match name {
        "TempMinOlioMotore" | "ValoreK4" | "ValoreK5" | "ValoreK6" | "ValoreK7" | "ValoreK8"
        | "OpacitaMedia" => Due::Free,
        _ => due_by_links(name, opacity),
    }
}

/// What hangs on the links and versions of the file's own device and of its rev counter, alike in gas and in opacity.
/// 01, Due entries: "Key ID, date, module, exponent: version 210; checksum: version 200. The version is the device's own
/// number, and besides it T nothing needs RS SENZA ESITO, Contagiri ESTERNO".
fn due_by_links(name: &str, read: &FileRead) -> Due {
    let serial = read.value("TipoCollegamento") == b"RS SENZA ESITO";
    let external = read.value("TipoCollegamentoContagiri") == b"ESTERNO";
    let own = read.value("NumVersioneProtocollo");
    let counter = read.value("NumVersioneProtocolloContagiri");
    match name {
        "NumVersioneProtocolloContagiri" => filled_when(external),
        "IDChiaveRS" | "DataRegChiaveRS" | "ModuloChiaveRS" | "EsponenteChiaveRS" => {
            filled_when(serial && own == b"210")
        }
        "ChecksumRS" => filled_when(serial && own == b"200"),
        "IDChiaveContagiriRS"
        | "DataRegChiaveContagiriRS"
        | "ModuloChiaveContagiriRS"
        | "EsponenteChiaveContagiriRS" => filled_when(external && counter == b"210"),
        "ChecksumContagiriRS" => filled_when(external && counter == b"200"),
        _ => due_unless_free(name),
    }
}
