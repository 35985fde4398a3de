//! 01, Bookings: the rules of AC2 and ACC, row 12.

use super::due::{category, is_l};
use super::files::FileRead;
use super::kinds::{date_number, number};
use super::tables::{AC2, ACC};
use super::Refusal;

/// 01, Bookings: "M1, N1, O1, O2 are LEGGERO, the other M, N, O PESANTE, all L MOTOVEICOLO."
fn vehicle_type(category: &str) -> &'static str {
    match category {
        "M1" | "N1" | "O1" | "O2" => "LEGGERO",
        _ if category.starts_with('L') => "MOTOVEICOLO",
        _ => "PESANTE",
    }
}

/// 01, row 12: "AC2: line of TipoVeicolo, then of AzionamentoFrenoStazionamento".
pub fn judge_ac2(ac2: &FileRead) -> Result<(), Refusal> {
    let refused = |name: &str| Err(Refusal::new(12, AC2, ac2.line(name)));
    if ac2.value("TipoVeicolo") != vehicle_type(&category(ac2)).as_bytes() {
        return refused("TipoVeicolo");
    }
    // 01, Bookings: "NON PRESENTE only with L."
    if ac2.value("AzionamentoFrenoStazionamento") == b"NON PRESENTE" && !is_l(ac2) {
        return refused("AzionamentoFrenoStazionamento");
    }
    Ok(())
}

/// 01, Bookings: ACC's DescrizioneVeicolo by category.
fn descriptions(category: &str) -> &'static [&'static str] {
    match category {
        "M1" => &[
            "AUTOVETTURA",
            "PROMISCUO",
            "AUTOCARAVAN",
            "TRASPORTO SPECIFICO",
            "USO SPECIALE",
        ],
        "M2" | "M3" => &["AUTOBUS"],
        "N1" | "N2" | "N3" => &[
            "AUTOCARRO",
            "TRATTORE STRADALE",
            "TRATTORE PER SEMIRIMORCHIO",
            "TRASPORTO SPECIFICO",
            "USO SPECIALE",
        ],
        "O1" | "O2" | "O3" | "O4" => &["RIMORCHIO", "SEMIRIMORCHIO"],
        _ => panic!("ACC is not read with category {category}"),
    }
}

/// A first registration as the number that is compared. 02, 3/14: "day 00 with a known month counts as day 01 when
/// compared with the two fuel dates; 00001986 remains before."
fn compared_with_fuel_dates(first_registration: &[u8]) -> u32 {
    let date = date_number(first_registration);
    let (month, day) = (date / 100 % 100, date % 100);
    if day == 0 && month != 0 {
        date + 1
    } else {
        date
    }
}

/// 01, Bookings: the value of Alimentazione_1 that ACC needs; None where no value fits.
pub fn old_fuel<'a>(
    fuel: &'a [u8],
    directive: &[u8],
    first_registration: &[u8],
    turbo: &[u8],
    corrector: &[u8],
) -> Option<&'a [u8]> {
    if fuel == b"BENZINA" {
        let date = compared_with_fuel_dates(first_registration);
        let early = date < date_number(b"01101986");
        let late = date >= date_number(b"01072002");
        return match directive {
            b"91/441/CEE" | b"98/69/CE" => Some(b"BENZINA CAT"),
            b"RT1902" | b"NESSUNA" if early => Some(b"BENZINA<86"),
            b"RT1902" if !late => Some(b"BENZINA NO CAT"),
            _ => None,
        };
    }
    if fuel == b"DIESEL" {
        return match (turbo, corrector) {
            (b"S", _) => Some(b"DIESEL TURBO COMPRESSO"),
            (_, b"N") => Some(b"DIESEL ASPIRATO SENZA CORRETTORE"),
            _ => Some(b"DIESEL ASPIRATO CON CORRETTORE"),
        };
    }
    Some(fuel)
}

/// 01, Bookings: "Otherwise (000, 4.2.9), in this order"; row 12: "ACC: of the rule's
/// first-named entry".
pub fn judge_acc(acc: &FileRead, ac2: &FileRead) -> Result<(), Refusal> {
    let rule = |kept: bool, name: &str| {
        if kept {
            Ok(())
        } else {
            Err(Refusal::new(12, ACC, acc.line(name)))
        }
    };
    rule(
        acc.value("TipoVeicolo") == ac2.value("TipoVeicolo"),
        "TipoVeicolo",
    )?;
    let description = acc.value("DescrizioneVeicolo");
    rule(
        descriptions(&category(ac2))
            .iter()
            .any(|word| word.as_bytes() == description),
        "DescrizioneVeicolo",
    )?;
    rule(
        acc.value("AnnoPrimaImm") == &ac2.value("DataPrimaImm")[4..],
        "AnnoPrimaImm",
    )?;
    let fuel = old_fuel(
        ac2.value("Alimentazione_1"),
        ac2.value("DirettivaEmissioniGasBenzinaAuto"),
        ac2.value("DataPrimaImm"),
        ac2.value("Turbo"),
        ac2.value("CorrettorePressione"),
    );
    rule(
        fuel == Some(acc.value("Alimentazione_1")),
        "Alimentazione_1",
    )?;
    let brake = acc.value("FrenoStazionamento");
    rule(
        match ac2.value("AzionamentoFrenoStazionamento") {
            b"ELETTRICO" => brake == b"MANO" || brake == b"PEDALE",
            same => brake == same,
        },
        "FrenoStazionamento",
    )?;
    let braked = ac2.value("PosAssiStaz").iter().filter(|b| **b == b'S');
    rule(
        number(acc.value("NumAssiStazionamento")) == braked.count() as u32,
        "NumAssiStazionamento",
    )
}
