//! 01, Identification answer: rows 14 and 15.

use super::files::FileRead;
use super::lines::is_printable;
use super::tables::IDENTIFICATION;
use super::Refusal;

/// 01, Identification answer: "at most 512 bytes".
pub const LONGEST_ANSWER: usize = 512;

const STX: u8 = 0x02;
const ETX: u8 = 0x03;
const ETB: u8 = 0x17;

/// 01, Identification answer: "The seven equal gas's six analyser entries, in the order
/// Marca, Tipo, NumOmologa, NumSerie, DataScadenza, NumVersSoftware, then
/// NumVersioneProtocollo."
pub const SEVEN_ENTRIES: [&str; 7] = [
    "MarcaAnalizzatore",
    "TipoAnalizzatore",
    "NumOmologaAnalizzatore",
    "NumSerieAnalizzatore",
    "DataScadenzaAnalizzatore",
    "NumVersSoftwareAnalizzatore",
    "NumVersioneProtocollo",
];

/// 01, Identification answer: "The checksum is the sum of all bytes between 02 and itself,
/// modulo 256, as two capital hexadecimal digits".
pub fn checksum(between: &[u8]) -> [u8; 2] {
    let sum = between.iter().fold(0u32, |sum, b| sum + u32::from(*b)) % 256;
    const DIGITS: &[u8; 16] = b"0123456789ABCDEF";
    [DIGITS[(sum / 16) as usize], DIGITS[(sum % 16) as usize]]
}

/// 01, Identification answer: the address and the seven fields; None for a wrong form.
pub fn fields(answer: &[u8]) -> Option<(&[u8], [&[u8]; 7])> {
    if answer.len() > LONGEST_ANSWER || answer.len() < 4 {
        return None;
    }
    let (&first, rest) = answer.split_first()?;
    let (between, end) = rest.split_at(rest.len() - 3);
    if first != STX || end[2] != ETX || end[..2] != checksum(between) {
        return None;
    }
    let fields: Vec<&[u8]> = between.split(|byte| *byte == ETB).collect();
    let [b"GAS", address, b"ID", seven @ ..] = fields.as_slice() else {
        return None;
    };
    if !(1..=3).contains(&address.len()) || !address.iter().all(u8::is_ascii_digit) {
        return None;
    }
    let seven: [&[u8]; 7] = seven.try_into().ok()?;
    let right = |field: &&[u8]| {
        (1..=64).contains(&field.len()) && field.iter().all(|byte| is_printable(*byte))
    };
    if !seven.iter().all(right) {
        return None;
    }
    Some((address, seven))
}

/// 01, Judging: a lawful record's identification "is the answer above with that address and
/// gas's seven values".
pub fn answer(address: &[u8], seven: [&[u8]; 7]) -> Vec<u8> {
    let mut fields: Vec<&[u8]> = vec![b"GAS", address, b"ID"];
    fields.extend(seven);
    let between = fields.join(&ETB);
    let mut bytes = vec![STX];
    bytes.extend(&between);
    bytes.extend(checksum(&between));
    bytes.push(ETX);
    bytes
}

/// 01, row 14: "answer's form (0)"; row 15: "answer differs from gas (0)".
pub fn judge_identification(bytes: &[u8], gas: &FileRead) -> Result<(), Refusal> {
    let Some((_, seven)) = fields(bytes) else {
        return Err(Refusal::new(14, IDENTIFICATION, 0));
    };
    if seven != SEVEN_ENTRIES.map(|name| gas.value(name)) {
        return Err(Refusal::new(15, IDENTIFICATION, 0));
    }
    Ok(())
}
