//! Values at the boundaries of their kinds.

use super::one_of;
use crate::generator::printable;
use crate::random::Random;
use crate::reference::kinds::Kind;

/// A right or wrong value at a boundary of its kind, of bytes 20 to 7E hex.
pub fn edge_value(random: &mut Random, kind: Kind) -> Vec<u8> {
    let texts = match kind {
        Kind::Text(width) => {
            let length = random.pick(&[1, width - 1, width, width + 1, width + 2]);
            return match random.below(4) {
                0 => vec![b' '; length],
                _ => printable(random, length),
            };
        }
        Kind::Exact(width) => {
            let length = random.pick(&[1, width - 1, width, width + 1]);
            return printable(random, length);
        }
        Kind::Plate => {
            let length = random.pick(&[1, 3, 4, 9, 10, 11]);
            return printable(random, length);
        }
        Kind::NumberByHand(width) => {
            let number = edge_value(random, Kind::Number(width));
            return edge_hash(random, &number);
        }
        Kind::DecimalByHand { decimals, width } => {
            let decimal = edge_value(random, Kind::Decimal { decimals, width });
            return edge_hash(random, &decimal);
        }
        Kind::Number(width) => {
            let mut value = match random.below(3) {
                0 => random.digits(width),
                1 => random.digits(width + 1),
                _ => vec![b'0'; width],
            };
            if random.chance(50) {
                spoil_digit(random, &mut value);
            }
            return value;
        }
        Kind::Decimal { decimals, width } => {
            let whole = random.between(0, width - decimals);
            let fraction = random.pick(&[decimals, decimals, decimals - 1, decimals + 1]);
            let mut value = random.digits(whole);
            value.push(b'.');
            value.extend(random.digits(fraction));
            if random.chance(30) {
                spoil_digit(random, &mut value);
            }
            return value;
        }
        Kind::Word(words) => return edge_word(random, words),
        Kind::Date => {
            "29021900|29022000|29022001|29022004|29022096|28022099|30022000|31011999|31031999|\
             31041999|30041999|31051999|31061999|31071999|31081999|31091999|31101999|31111999|\
             31121999|32011999|00011999|00001999|01001999|01131999|01121999|31121899|01011900|\
             31122099|01012100|1011999|011019990|0101199a|01/11999|0101199 | 1011999|99999999|\
             00000000"
        }
        Kind::FirstRegistration => {
            "29021900|29022000|00031994|00001994|02001997|00131994|00121994|00001899|00001900|\
             00002099|00002100|31121899|01012100|32011990|31041990|01131990|0003199|000319940|\
             0003199x|0a031994"
        }
        Kind::Time => {
            "000000|235959|240000|236000|235960|126000|125960|120060|120059|115900|200000|\
             190000|23595|2359590|23595:|2359 9|/00000|-10000"
        }
        Kind::Drift => {
            "5.0|5.00|-5.00|99.99|-99.99|100.00|-100.00|-0.00|0.00|00.00|-00.00|05.00|+5.00|\
             .50|-.50|5|-|5.|5.000|--5.00|5,00|5.0a|a.00| 5.00|5.00 |-5.0|1.-0|9.99|10.00"
        }
        Kind::Revs => {
            "#850|850|#|##850|12345|#12345|123456|#123456|850#|0|#0|# 850|-850|8.5|00850|\
             #00850|8#5"
        }
        Kind::Temperature => "-100|5.5|+5|-#9|-0|-05|007|#-99|1000|-|#|##5|#-100|--5|5-|#999",
        Kind::Axles => {
            "SSSSSSSSS|NNNNNNNNN|SNSNSNSNS|SSSSSSSS|SSSSSSSSSS|sSSSSSSSS|SSSSSSSSn|SSSS SSSS|\
             SSSSXSSSS|S|N"
        }
        Kind::Year => "1986|986|19860|198x|0000|9999| 986|1900",
    };
    one_of(random, texts)
}

/// `#` before a value, once, twice or not; behind it; alone.
fn edge_hash(random: &mut Random, value: &[u8]) -> Vec<u8> {
    match random.below(8) {
        0..=2 => [b"#", value].concat(),
        3 => [b"##", value].concat(),
        4 => [value, b"#"].concat(),
        5 => b"#".to_vec(),
        _ => value.to_vec(),
    }
}

/// Another byte in place of a digit, also the neighbours of 0 and 9.
fn spoil_digit(random: &mut Random, value: &mut [u8]) {
    let at = random.below(value.len());
    value[at] = random.pick(b" -+.,/:A#");
}

fn edge_word(random: &mut Random, words: &[&str]) -> Vec<u8> {
    let word = random.pick(words).as_bytes();
    match random.below(8) {
        0 => word.to_ascii_lowercase(),
        1 => [word, b" "].concat(),
        2 => [b" ", word].concat(),
        3 => word[..word.len() - 1].to_vec(),
        4 => [word, b"x"].concat(),
        5 => word.to_vec(),
        _ => one_of(
            random,
            "M1G|N1G|M0|M4|N0|N4|O0|O5|L0e|L8e|L1|L1E|S|N|SI|DIR|RETE|RS SENZA ESITO|\
             RS CON ESITO|RS|ESTERNO|INTEGRATO|NESSUNA|RT1902|91/441/CEE|98/69/CE|MANO|\
             NON PRESENTE|LEGGERO|PESANTE|MOTOVEICOLO|R|I|RI",
        ),
    }
}
