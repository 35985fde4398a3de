//! Changes to a set.

use super::files::{
    change_file, change_lines, empty_filled, lines_of, name_of, pick_line, set_value, value_of,
    with_value, CHANGES_OF_ENTRIES,
};
use super::one_of;
use crate::dates::{self, Date};
use crate::entries::{due_dates, is_conditional};
use crate::generator::{
    self, fuel_day, identification, join_lines, printable, Record, Size, Values,
};
use crate::judge::Set;
use crate::measures::Measure;
use crate::random::Random;
use crate::reference::lines::LONGEST_FILE;
use crate::reference::tables::{
    table, AC2, ACC, DRIFT, FILES, GAS, IDENTIFICATION, OPACITY, RESULT_FILES, SUSPENSION,
};

type Change = fn(&mut Random, &Record, &mut Set);

/// A change's name, weight and function.
type Weighted = (&'static str, usize, Change);

/// The changes to a set other than those to one file.
const CHANGES: &[Weighted] = &[
    ("stem", 4, change_stem),
    ("slice dropped", 5, drop_slice),
    ("slice added", 8, add_slice),
    ("slices swapped", 2, swap_slices),
    ("ACC with L", 4, acc_with_l),
    ("AC2 entry", 10, change_ac2),
    ("ACC entries", 20, change_acc),
    ("old fuel", 32, change_old_fuel),
    ("differences", 8, change_differences),
    ("axle entry emptied or dropped", 12, change_axle),
    ("gas link or version", 8, |random, _, set| {
        change_device(random, GAS, set)
    }),
    ("gas entry emptied", 14, |random, _, set| {
        empty_conditional(random, GAS, set)
    }),
    ("identification", 26, change_identification),
    ("opacity given or not", 6, give_opacity),
    ("due dates", 48, change_due_dates),
    ("measure moved", 10, move_measure),
];

/// Those to a set with opacity besides, which is seldom given and has the most entries.
const CHANGES_WITH_OPACITY: &[Weighted] = &[
    ("opacity entries", 60, change_opacity_entries),
    ("opacity link or version", 12, |random, _, set| {
        change_device(random, OPACITY, set)
    }),
    ("opacity entry emptied", 24, |random, _, set| {
        empty_conditional(random, OPACITY, set)
    }),
];

/// Changes a set up to four times; the names of the changes.
pub fn change_set(random: &mut Random, record: &Record, set: &mut Set) -> Vec<&'static str> {
    let mut changes = Vec::new();
    let count = random.pick(&[1, 1, 1, 1, 1, 2, 3, 4]);
    let one_file = random.chance(30).then(|| pick_file(random, set));
    for _ in 0..40 {
        let before = set.clone();
        let name = match one_file {
            Some(file) => change_file(random, file, set.slice_mut(file)),
            None => change_once(random, record, set),
        };
        if let (Some(name), true) = (name, *set != before) {
            changes.push(name);
        }
        if changes.len() == count {
            break;
        }
    }
    changes
}

fn change_once(random: &mut Random, record: &Record, set: &mut Set) -> Option<&'static str> {
    if random.chance(50) {
        let file = pick_file(random, set);
        return change_file(random, file, set.slice_mut(file));
    }
    let with_opacity: &[Weighted] = match set.slice(OPACITY) {
        [] => &[],
        _ => CHANGES_WITH_OPACITY,
    };
    let changes = CHANGES.iter().chain(with_opacity);
    let all: usize = changes.clone().map(|(_, weight, _)| weight).sum();
    let mut at = random.below(all);
    for (name, weight, change) in changes {
        if at < *weight {
            change(random, record, set);
            return Some(name);
        }
        at -= weight;
    }
    unreachable!("the weights sum to {all}")
}

/// One of the files given, AC2 if none is.
fn pick_file(random: &mut Random, set: &Set) -> u32 {
    pick_given(random, set, &FILES).unwrap_or(AC2)
}

/// One of these files, if one is given; gas more often, which has many entries, and opacity, which besides is seldom given.
fn pick_given(random: &mut Random, set: &Set, files: &[u32]) -> Option<u32> {
    let weight = |file: u32| match file {
        GAS => 3,
        OPACITY => 9,
        _ => 1,
    };
    let given = files.iter().filter(|file| !set.slice(**file).is_empty());
    let weighted: Vec<u32> = given.flat_map(|file| vec![*file; weight(*file)]).collect();
    (!weighted.is_empty()).then(|| random.pick(&weighted))
}

fn change_stem(random: &mut Random, _record: &Record, set: &mut Set) {
    let stem = &mut set.stem;
    if stem.len() != 8 {
        return;
    }
    let at = random.below(8);
    match random.below(6) {
        0 => stem.truncate(at),
        1 => stem.push(random.digit()),
        2 => stem[at] = random.byte(),
        3 => stem[at] = random.pick(b"@[`{/:0A9Z a"),
        4 => stem.make_ascii_lowercase(),
        _ => {
            *stem = one_of(
                random,
                "AA12345|AA1234567|aA123456|Aa123456|A1234567|AAA12345|AA12345A|AA 12345|\
                 AA123456\0|ZZ999999|AA000000|",
            )
        }
    }
}

/// The numbers of the slices that are given, or that are not.
fn slices_where(set: &Set, given: bool) -> Vec<usize> {
    let fits = |at: &usize| set.slices[*at].is_empty() != given;
    (0..set.slices.len()).filter(fits).collect()
}

fn drop_slice(random: &mut Random, _record: &Record, set: &mut Set) {
    let given = slices_where(set, true);
    if !given.is_empty() {
        set.slices[random.pick(&given)].clear();
    }
}

/// A slice that was not given: a lawful one of another set, or any bytes.
fn add_slice(random: &mut Random, _record: &Record, set: &mut Set) {
    let missing = slices_where(set, false);
    if missing.is_empty() {
        return;
    }
    let at = random.pick(&missing);
    if random.chance(20) {
        set.slices[at] = random.bytes(3);
        return;
    }
    for _ in 0..20 {
        let other = generator::record(random);
        if !other.set.slices[at].is_empty() {
            set.slices[at].clone_from(&other.set.slices[at]);
            return;
        }
    }
}

fn swap_slices(random: &mut Random, _record: &Record, set: &mut Set) {
    let count = set.slices.len();
    set.slices.swap(random.below(count), random.below(count));
}

/// ACC given with a category L, whatever the stem's first digit.
fn acc_with_l(random: &mut Random, record: &Record, set: &mut Set) {
    let ac2 = record.file(AC2).expect("AC2 is always given");
    if !ac2.get("CategoriaInternazionale").starts_with(b"L") || set.stem.len() < 3 {
        return;
    }
    *set.slice_mut(ACC) = match random.below(3) {
        0 => vec![b'x'; LONGEST_FILE + 1],
        1 => b"x".to_vec(),
        _ => Values::by_kinds(random, ACC, 0).text(random),
    };
    set.stem[2] = random.digit();
}

/// One of AC2's entries with another right value, so that the rules of the whole set are at
/// their edges.
fn change_ac2(random: &mut Random, _record: &Record, set: &mut Set) {
    let entries = &table(AC2).sections[0].entries;
    let entry = &entries[random.below(entries.len())];
    let value = match entry.name.as_str() {
        "Alimentazione_1" => one_of(random, "BENZINA|DIESEL|GPL|"),
        "TargaNominale" => {
            let length = random.between(5, 7);
            printable(random, length)
        }
        "DirettivaEmissioniGasMotociclo" if random.chance(60) => b"NESSUNA".to_vec(),
        _ if random.chance(15) => Vec::new(),
        _ => generator::value(random, entry.kind, Size::Mixed),
    };
    set_value(set.slice_mut(AC2), &entry.name, &value);
}

/// One to three of ACC's entries with values of the booking rules.
fn change_acc(random: &mut Random, record: &Record, set: &mut Set) {
    let ac2 = record.file(AC2).expect("AC2 is always given");
    if ac2.get("CategoriaInternazionale").starts_with(b"L") {
        return;
    }
    if set.slice(ACC).is_empty() {
        let fuel = generator::old_fuel(ac2).unwrap_or_default();
        *set.slice_mut(ACC) = generator::acc(random, ac2, &fuel).text(random);
    }
    for _ in 0..random.pick(&[1, 1, 1, 2, 3]) {
        let (name, texts) = match random.below(10) {
            0..=4 => ("DescrizioneVeicolo", DESCRIPTIONS),
            5 => ("TipoVeicolo", "LEGGERO|PESANTE|MOTOVEICOLO|leggero"),
            6 => ("AnnoPrimaImm", "1986|2002|1985|1987|0000"),
            7 => ("Alimentazione_1", OLD_FUELS),
            8 => ("FrenoStazionamento", "MANO|PEDALE|ELETTRICO|NON PRESENTE"),
            _ => ("NumAssiStazionamento", "0|1|2|3|4|5|6|7|8|9"),
        };
        set_value(set.slice_mut(ACC), name, &one_of(random, texts));
    }
}

const DESCRIPTIONS: &str = "AUTOVETTURA|PROMISCUO|AUTOCARAVAN|TRASPORTO SPECIFICO|USO SPECIALE|\
    AUTOBUS|AUTOCARRO|TRATTORE STRADALE|TRATTORE PER SEMIRIMORCHIO|RIMORCHIO|SEMIRIMORCHIO|\
    AUTOVETTURA |TRATTORE";

const OLD_FUELS: &str = "|BENZINA|BENZINA CAT|BENZINA<86|BENZINA NO CAT|DIESEL|\
    DIESEL TURBO COMPRESSO|DIESEL ASPIRATO SENZA CORRETTORE|DIESEL ASPIRATO CON CORRETTORE";

/// Both bookings anew, with any fuel in ACC, also where none fits.
fn change_old_fuel(random: &mut Random, record: &Record, set: &mut Set) {
    let mut ac2 = record.file(AC2).expect("AC2 is always given").clone();
    let fuel = if random.chance(70) {
        make_petrol_car(random, &mut ac2);
        one_of(random, "BENZINA<86|BENZINA NO CAT|BENZINA CAT|BENZINA|")
    } else {
        one_of(random, OLD_FUELS)
    };
    if ac2.get("CategoriaInternazionale").starts_with(b"L") {
        return;
    }
    if ac2.get("Alimentazione_1") == b"DIESEL" {
        ac2.set("Turbo", one_of(random, "S|N"));
        ac2.set("CorrettorePressione", one_of(random, "S|N"));
    }
    let acc = generator::acc(random, &ac2, &fuel);
    *set.slice_mut(AC2) = ac2.text(random);
    *set.slice_mut(ACC) = acc.text(random);
}

/// AC2 as that of a category M or N with BENZINA, any directive and a day at a limit.
fn make_petrol_car(random: &mut Random, ac2: &mut Values) {
    let (category, vehicle_type) = random.pick(&[
        ("M1", "LEGGERO"),
        ("M2", "PESANTE"),
        ("M3", "PESANTE"),
        ("N1", "LEGGERO"),
        ("N2", "PESANTE"),
        ("N3", "PESANTE"),
    ]);
    ac2.set("CategoriaInternazionale", category);
    ac2.set("TipoVeicolo", vehicle_type);
    ac2.set("Alimentazione_1", "BENZINA");
    ac2.empty(&[
        "CodiceCIC",
        "Turbo",
        "CorrettorePressione",
        "DirettivaEmissioniGasMotociclo",
    ]);
    let directive = one_of(random, "NESSUNA|NESSUNA|RT1902|RT1902|91/441/CEE|98/69/CE");
    ac2.set("DirettivaEmissioniGasBenzinaAuto", directive);
    let day = match random.below(4) {
        0 => one_of(random, "00111986|00001987|00082002|00002003"),
        _ => fuel_day(random),
    };
    ac2.set("DataPrimaImm", day);
    ac2.set(
        "AzionamentoFrenoStazionamento",
        one_of(random, "MANO|PEDALE|ELETTRICO"),
    );
}

/// One to three of suspension's values Differenza% or grips changed.
fn change_differences(random: &mut Random, _record: &Record, set: &mut Set) {
    let text = set.slice_mut(SUSPENSION);
    let mut lines = lines_of(text);
    for _ in 0..random.pick(&[1, 1, 2, 3]) {
        let name = one_of(
            random,
            "Differenza%=|Differenza%=|Aderenza%Sx=|Aderenza%Dx=",
        );
        let Some(at) = pick_line(random, &lines, |line| line.starts_with(&name)) else {
            return;
        };
        let number = std::str::from_utf8(&lines[at][name.len()..])
            .ok()
            .and_then(|text| text.parse::<u32>().ok())
            .map_or(0, |number| number.min(999));
        let value = match random.below(6) {
            0 => format!("{}", number + 1),
            1 => format!("{}", number.saturating_sub(1)),
            2 => format!("{number:02}"),
            3 => format!("{number}"),
            4 => format!("{}", (100 - number.min(100)) % 100),
            _ => format!("{}", random.below(100)),
        };
        lines[at] = with_value(&lines[at], value.as_bytes());
    }
    *text = join_lines(&lines);
}

/// A due date that does not cover this day, most often by one day.
fn expired(random: &mut Random, end: Date) -> Option<Date> {
    let before = end.previous()?;
    Some(match random.below(10) {
        0..=4 => before,
        5..=7 => before.previous().unwrap_or(before),
        8 => dates::FIRST,
        _ => Date::from_digits(&generator::date(random)).min(before),
    })
}

/// When something was measured, seldom over the midnight behind the last day.
fn any_measure(random: &mut Random) -> Measure {
    let measure = generator::measure(random);
    if measure.is_over_midnight() && random.chance(12) {
        let day = dates::LAST;
        return Measure { day, ..measure };
    }
    measure
}

/// A result file's measure anew, and its due dates about the day on which it ends, some or all of them too early. Seldom
/// with a wrong Differenza%, which comes behind, or with an empty entry, which comes before.
fn change_due_dates(random: &mut Random, record: &Record, set: &mut Set) {
    let Some(file) = pick_given(random, set, &RESULT_FILES) else {
        return;
    };
    let measure = any_measure(random);
    let text = set.slice_mut(file);
    for (name, value) in measure.entries() {
        set_value(text, name, &value);
    }
    let too_early = random.pick(&[20, 50, 100]);
    for name in due_dates(file) {
        let early = random.chance(too_early);
        let due = match expired(random, measure.end()).filter(|_| early) {
            Some(due) => due,
            None => generator::covering(random, measure.end()).min(dates::LAST),
        };
        set_filled(text, name, &due.digits());
    }
    match random.below(8) {
        0 => {
            change_lines(random, file, text, empty_filled);
        }
        1..=3 if file == SUSPENSION => change_differences(random, record, set),
        _ => {}
    }
}

/// Sets the value of an entry that is not empty, as the bench's is where it is not due.
fn set_filled(text: &mut Vec<u8>, name: &str, value: &[u8]) {
    let empty = [name.as_bytes(), b"="].concat();
    if !lines_of(text).contains(&empty) {
        set_value(text, name, value);
    }
}

/// A lawful file's measure a day later, or with its times swapped.
fn move_measure(random: &mut Random, record: &Record, set: &mut Set) {
    let Some(file) = pick_given(random, set, &RESULT_FILES) else {
        return;
    };
    let Some(values) = record.file(file) else {
        return;
    };
    let measure = values.measure();
    let (start, finish) = (measure.finish, measure.start);
    let moved = if random.chance(50) {
        let day = measure.day.next().min(dates::LAST);
        Measure { day, ..measure }
    } else {
        Measure {
            start,
            finish,
            ..measure
        }
    };
    for (name, value) in moved.entries() {
        set_value(set.slice_mut(file), name, &value);
    }
}

/// An entry of one of the axles of drift or suspension emptied or dropped.
fn change_axle(random: &mut Random, _record: &Record, set: &mut Set) {
    let file = random.pick(&[DRIFT, SUSPENSION, SUSPENSION]);
    let name = match file {
        DRIFT => b"Deriva=".to_vec(),
        _ => one_of(random, "Aderenza%Sx=|Aderenza%Dx=|Differenza%="),
    };
    let text = set.slice_mut(file);
    let mut lines = lines_of(text);
    if let Some(at) = pick_line(random, &lines, |line| line.starts_with(&name)) {
        if random.chance(50) {
            lines[at] = name;
        } else {
            lines.remove(at);
        }
        *text = join_lines(&lines);
    }
}

/// Opacity dropped, or a lawful one added, whatever fuel and category.
fn give_opacity(random: &mut Random, _record: &Record, set: &mut Set) {
    let size = Size::any(random);
    let opacity = set.slice_mut(OPACITY);
    if opacity.is_empty() {
        *opacity = generator::opacity(random, size).text(random);
    } else {
        opacity.clear();
    }
}

/// Some of opacity's many entries absent, of another kind or empty.
fn change_opacity_entries(random: &mut Random, _record: &Record, set: &mut Set) {
    let change = random.pick(&CHANGES_OF_ENTRIES);
    change_lines(random, OPACITY, set.slice_mut(OPACITY), change);
}

/// Link or version of one of the devices of a file changed, the rest as it was.
fn change_device(random: &mut Random, file: u32, set: &mut Set) {
    let (name, value) = match random.below(5) {
        0 => (
            "TipoCollegamento",
            one_of(random, "DIR|RETE|RS SENZA ESITO"),
        ),
        1 => (
            "TipoCollegamentoContagiri",
            one_of(random, "ESTERNO|INTEGRATO"),
        ),
        2 => ("NumVersioneProtocollo", generator::version(random)),
        3 => ("NumVersioneProtocolloContagiri", generator::version(random)),
        _ => (
            "NumVersioneProtocolloProvaVelocita",
            generator::version(random),
        ),
    };
    set_value(set.slice_mut(file), name, &value);
}

/// One of the filled entries of a file that are not always due emptied.
fn empty_conditional(random: &mut Random, file: u32, set: &mut Set) {
    let text = set.slice_mut(file);
    let mut lines = lines_of(text);
    let found = pick_line(random, &lines, |line| {
        let name = String::from_utf8_lossy(name_of(line));
        is_conditional(file, &name) && !value_of(line).is_empty()
    });
    if let Some(at) = found {
        lines[at] = with_value(&lines[at], b"");
        *text = join_lines(&lines);
    }
}

/// The identification answer changed: its fields, with a right checksum, or its frame.
fn change_identification(random: &mut Random, record: &Record, set: &mut Set) {
    let Some(fields) = &record.fields else {
        return;
    };
    let answer = if random.chance(60) {
        let mut fields = fields.clone();
        change_fields(random, &mut fields);
        identification(&fields)
    } else {
        let mut answer = identification(fields);
        change_frame(random, &mut answer);
        answer
    };
    *set.slice_mut(IDENTIFICATION) = answer;
}

fn change_fields(random: &mut Random, fields: &mut Vec<Vec<u8>>) {
    let seven = random.between(3, 9);
    match random.below(12) {
        0 => fields[0] = one_of(random, "OPA|gas|GA|GAS |"),
        1 => fields[1] = one_of(random, "|1234|0|000|999|01|1a|A|-1| 1|1 |/|:"),
        2 => fields[2] = one_of(random, "VA|id|I|IDX|"),
        3 => {
            fields.remove(random.below(10));
        }
        4 => {
            let field = printable(random, 3);
            fields.insert(random.below(11), field);
        }
        5 => {
            let other = random.below(10);
            fields.swap(seven, other);
        }
        6 => {
            let length = random.pick(&[0, 1, 63, 64, 65, 66]);
            fields[seven] = printable(random, length);
        }
        7 => {
            let bytes = &[
                0x1F, 0x7F, 0x00, 0x02, 0x03, 0x17, 0x80, 0xFF, 0x0D, 0x20, 0x7E,
            ];
            let at = random.below(fields[seven].len());
            fields[seven][at] = random.pick(bytes);
        }
        8 => {
            // The longest answer, one less, or one more; the field is too long.
            let length = random.pick(&[511, 512, 513]);
            let more = length - identification(fields).len();
            fields[seven].extend(vec![b'x'; more]);
        }
        _ => {
            // Another value of right form, near the right one.
            let field = &mut fields[seven];
            match random.below(5) {
                0 => field.push(b' '),
                1 => {
                    field.pop();
                }
                2 => field.insert(0, b'0'),
                3 => field.make_ascii_lowercase(),
                _ => {
                    let at = random.below(field.len());
                    field[at] = random.between(0x20, 0x7E) as u8;
                }
            }
        }
    }
}

fn checksum(bytes: impl Iterator<Item = u8>) -> Vec<u8> {
    let sum = bytes.fold(0u8, u8::wrapping_add);
    format!("{sum:02X}").into_bytes()
}

fn change_frame(random: &mut Random, answer: &mut Vec<u8>) {
    let length = answer.len();
    let both = length - 3..length - 1;
    match random.below(10) {
        0 => answer[both].make_ascii_lowercase(),
        1 => {
            // 02 hex summed too.
            let wrong = checksum(answer[..length - 3].iter().copied());
            answer.splice(both, wrong);
        }
        2 => {
            // The separators left out of the sum.
            let between = answer[1..length - 3].iter().copied();
            let wrong = checksum(between.filter(|byte| *byte != 0x17));
            answer.splice(both, wrong);
        }
        3 => answer[both.start + random.below(2)] ^= 1,
        4 => answer[0] = random.byte(),
        5 => answer[length - 1] = random.byte(),
        6 => answer.truncate(random.below(length)),
        7 => match random.below(4) {
            0 => answer.push(0x03),
            1 => answer.insert(0, 0x02),
            2 => answer.insert(length - 3, 0x17),
            _ => answer.extend(vec![0; 600]),
        },
        8 => answer.truncate(random.below(6)),
        _ => {
            let at = random.below(length);
            answer[at] ^= 1 << random.below(8);
        }
    }
}
