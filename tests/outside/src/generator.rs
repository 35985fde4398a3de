//! Lawful sets, and files that are right by their kinds alone.
//!
//! What is due is built here entry by entry, without the reference's judging of it.

use crate::dates::{self, Date};
use crate::devices;
use crate::entries::{due_dates, free_entries};
use crate::judge::Set;
use crate::measures::{self, Measure};
use crate::old_fuels;
use crate::random::Random;
use crate::reference::kinds::Kind;
use crate::reference::places::{put_triples, Triple};
use crate::reference::tables::{
    table, Table, AC2, ACC, DRIFT, GAS, IDENTIFICATION, OPACITY, SUSPENSION,
};
use crate::reference::PLACES;

/// How long the values of a record are.
#[derive(Clone, Copy, Debug, PartialEq, Eq)]
pub enum Size {
    Shortest,
    Mixed,
    Longest,
}

impl Size {
    pub fn any(random: &mut Random) -> Size {
        match random.below(20) {
            0..=1 => Size::Shortest,
            2..=3 => Size::Longest,
            _ => Size::Mixed,
        }
    }

    /// A length of 1 to `longest`.
    fn length(self, random: &mut Random, longest: usize) -> usize {
        match self {
            Size::Shortest => 1,
            Size::Longest => longest,
            Size::Mixed => match random.below(20) {
                0 => longest,
                1..=4 => random.between(1, longest),
                _ => random.between(1, longest.min(12)),
            },
        }
    }
}

/// Bytes of 20 to 7E hex: plain ones, any, or those with a meaning in a line. Some begin with
/// `#`, which has a meaning only in values that may be entered by hand.
pub fn printable(random: &mut Random, count: usize) -> Vec<u8> {
    const PLAIN: &[u8] = b"ABCDEFGHIJKLMNOPQRSTUVWXYZ0123456789 -./";
    const MARKS: &[u8] = b"=[]# ~";
    let choice = random.below(8);
    let mut bytes: Vec<u8> = (0..count)
        .map(|_| match choice {
            0..=4 => PLAIN[random.below(PLAIN.len())],
            5 => MARKS[random.below(MARKS.len())],
            _ => random.between(0x20, 0x7E) as u8,
        })
        .collect();
    if let (true, Some(first)) = (random.chance(8), bytes.first_mut()) {
        *first = b'#';
    }
    bytes
}

/// A day of kind D.
pub fn day(random: &mut Random) -> Date {
    let year = match random.below(8) {
        0 => 1900,
        1 => 2000,
        2 => 2099,
        _ => random.between(1900, 2099),
    };
    let month = random.between(1, 12);
    let last = Date::last_of_month(month, year);
    match random.below(4) {
        0 => last,
        _ => Date::new(random.between(1, last.day), month, year),
    }
}

/// A value of kind D.
pub fn date(random: &mut Random) -> Vec<u8> {
    day(random).digits()
}

/// A first registration about the two fuel dates (02, 3/14).
pub fn fuel_day(random: &mut Random) -> Vec<u8> {
    let (day, _) = random.pick(&old_fuels::DAYS);
    day.as_bytes().to_vec()
}

/// A value of DataPrimaImm, often near the two fuel dates.
pub fn first_registration(random: &mut Random) -> Vec<u8> {
    const NEAR: &[&[u8]] = &[
        b"02101986",
        b"00111986",
        b"00001987",
        b"31121986",
        b"01011986",
        b"02072002",
        b"00082002",
        b"00002003",
        b"31122002",
        b"01012002",
    ];
    match random.below(10) {
        0..=2 => fuel_day(random),
        3..=5 => random.pick(NEAR).to_vec(),
        6 => {
            let (month, year) = (random.between(0, 12), random.between(1900, 2099));
            format!("00{month:02}{year:04}").into_bytes()
        }
        _ => date(random),
    }
}

/// A value that may be entered by hand: `#` before it or not.
fn with_hash(random: &mut Random, size: Size, value: Vec<u8>) -> Vec<u8> {
    let by_hand = match size {
        Size::Shortest => false,
        Size::Mixed => random.chance(40),
        Size::Longest => true,
    };
    if by_hand {
        [b"#", &value[..]].concat()
    } else {
        value
    }
}

/// A whole number of -99 to 999, often at a limit or with zeros first.
fn temperature(random: &mut Random, size: Size) -> Vec<u8> {
    const NEAR: &[&[u8]] = &[
        b"-99", b"-0", b"-05", b"-00", b"-9", b"0", b"007", b"099", b"999",
    ];
    match (size, random.below(4)) {
        (Size::Shortest, _) => random.digits(1),
        (Size::Mixed, 0) => random.pick(NEAR).to_vec(),
        (Size::Mixed, 1) => value(random, Kind::Number(3), size),
        (Size::Longest, 0..=1) => random.digits(3),
        _ => [b"-", &value(random, Kind::Number(2), size)[..]].concat(),
    }
}

/// A filled value of this kind.
pub fn value(random: &mut Random, kind: Kind, size: Size) -> Vec<u8> {
    match kind {
        Kind::Text(width) => {
            let length = size.length(random, width);
            printable(random, length)
        }
        Kind::Exact(width) => printable(random, width),
        Kind::Number(width) => {
            let length = match size {
                Size::Mixed => random.between(1, width),
                _ => size.length(random, width),
            };
            random.digits(length)
        }
        Kind::Decimal { decimals, width } => {
            let whole = size.length(random, width - decimals - 1);
            let mut value = random.digits(whole);
            value.push(b'.');
            value.extend(random.digits(decimals));
            value
        }
        Kind::Date => date(random),
        Kind::Time => {
            let (h, m, s) = match random.below(6) {
                0 => (23, 59, 59),
                1 => (0, 0, 0),
                _ => (random.below(24), random.below(60), random.below(60)),
            };
            format!("{h:02}{m:02}{s:02}").into_bytes()
        }
        Kind::Word(words) => random.pick(words).as_bytes().to_vec(),
        Kind::Drift => {
            let (minus, whole) = match size {
                Size::Shortest => (false, 1),
                Size::Mixed => (random.chance(50), random.between(1, 2)),
                Size::Longest => (true, 2),
            };
            let mut value = if minus { b"-".to_vec() } else { Vec::new() };
            value.extend(match random.below(8) {
                0 => vec![b'0'; whole],
                1 => vec![b'9'; whole],
                _ => random.digits(whole),
            });
            value.push(b'.');
            value.extend(match random.below(8) {
                0 => b"00".to_vec(),
                1 => b"99".to_vec(),
                _ => random.digits(2),
            });
            value
        }
        Kind::Revs => value(random, Kind::NumberByHand(5), size),
        Kind::NumberByHand(width) => {
            let number = value(random, Kind::Number(width), size);
            with_hash(random, size, number)
        }
        Kind::DecimalByHand { decimals, width } => {
            let decimal = value(random, Kind::Decimal { decimals, width }, size);
            with_hash(random, size, decimal)
        }
        Kind::Temperature => {
            let temperature = temperature(random, size);
            with_hash(random, size, temperature)
        }
        Kind::Plate => {
            let length = match size {
                Size::Shortest => 4,
                Size::Mixed => random.between(4, 10),
                Size::Longest => 10,
            };
            printable(random, length)
        }
        Kind::FirstRegistration => first_registration(random),
        Kind::Axles => (0..9).map(|_| b"SN"[random.below(2)]).collect(),
        Kind::Year => random.digits(4),
    }
}

/// The values of one file: sections in table order, entries in table order.
#[derive(Clone, Debug, PartialEq, Eq)]
pub struct Values {
    pub file: u32,
    pub axles: usize,
    pub sections: Vec<Vec<Vec<u8>>>,
}

impl Values {
    pub fn table(&self) -> &'static Table {
        table(self.file)
    }

    /// Every entry filled with a value of its kind.
    pub fn filled(random: &mut Random, file: u32, axles: usize, size: Size) -> Values {
        let mut sections = Vec::new();
        for section in table(file).sections(axles) {
            let mut values = Vec::new();
            for entry in &section.entries {
                values.push(value(random, entry.kind, size));
            }
            sections.push(values);
        }
        Values {
            file,
            axles,
            sections,
        }
    }

    /// Right by kinds alone: some entries empty.
    pub fn by_kinds(random: &mut Random, file: u32, axles: usize) -> Values {
        let size = Size::any(random);
        let mut values = Values::filled(random, file, axles, size);
        let empty = random.pick(&[0, 10, 50, 100]);
        for section in &mut values.sections {
            for value in section {
                if random.chance(empty) {
                    value.clear();
                }
            }
        }
        values
    }

    /// Section and entry of this name, the first one.
    fn position(&self, name: &str) -> (usize, usize) {
        for (s, section) in self.table().sections.iter().enumerate() {
            if let Some(e) = section.entries.iter().position(|entry| entry.name == name) {
                return (s, e);
            }
        }
        panic!("no entry {name} in file {}", self.file)
    }

    pub fn get(&self, name: &str) -> &[u8] {
        let (s, e) = self.position(name);
        &self.sections[s][e]
    }

    pub fn set(&mut self, name: &str, value: impl AsRef<[u8]>) {
        let (s, e) = self.position(name);
        self.sections[s][e] = value.as_ref().to_vec();
    }

    pub fn empty(&mut self, names: &[&str]) {
        for name in names {
            self.set(name, "");
        }
    }

    /// The file with its sections and entries in this order, and where each value stands, in entry order.
    fn lay_out(&self, order: &[(usize, Vec<usize>)]) -> (Vec<u8>, Vec<Triple>) {
        let mut text = Vec::new();
        let mut line = 0;
        let sections = self.sections.iter();
        let mut triples: Vec<Vec<Triple>> = sections
            .map(|section| vec![Triple::default(); section.len()])
            .collect();
        for (s, entries) in order {
            let section = &self.table().sections[*s];
            text.extend(section.heading.as_bytes());
            text.extend(b"\r\n");
            line += 1;
            for e in entries {
                let value = &self.sections[*s][*e];
                text.extend(section.entries[*e].name.as_bytes());
                text.push(b'=');
                line += 1;
                triples[*s][*e] = Triple {
                    start: text.len() as u32,
                    length: value.len() as u32,
                    line,
                };
                text.extend(value);
                text.extend(b"\r\n");
            }
        }
        (text, triples.concat())
    }

    /// The file in any line order, and where each value stands, in entry order.
    pub fn text_and_triples(&self, random: &mut Random) -> (Vec<u8>, Vec<Triple>) {
        let choice = random.below(8);
        let mut order = self.table_order();
        if choice >= 2 {
            random.shuffle(&mut order);
        }
        if choice >= 1 {
            for (_, entries) in &mut order {
                random.shuffle(entries);
            }
        }
        self.lay_out(&order)
    }

    pub fn text(&self, random: &mut Random) -> Vec<u8> {
        self.text_and_triples(random).0
    }

    fn table_order(&self) -> Vec<(usize, Vec<usize>)> {
        let sections = self.sections.iter().enumerate();
        sections
            .map(|(s, values)| (s, (0..values.len()).collect()))
            .collect()
    }

    /// The file in table order, as it is written.
    pub fn text_in_table_order(&self) -> Vec<u8> {
        self.lay_out(&self.table_order()).0
    }

    /// 02, 1/14: whether the idle speed was entered by hand.
    pub fn by_hand(&self) -> bool {
        self.file == GAS && self.get("NumGiriMotoreMin").starts_with(b"#")
    }

    /// 02, 4/14: how often a name is tried to read the file: "a section of n entries adds the numbers 1 to n".
    pub fn names_compared(&self) -> u32 {
        let counts = entry_counts(self.file, self.axles);
        counts.iter().map(|count| (1..=*count).sum::<u32>()).sum()
    }

    /// Of a result file, all of whose values that say it are filled.
    pub fn measure(&self) -> Measure {
        Measure::new(measures::ENTRIES.map(|name| self.get(name)))
    }

    /// All values in entry order.
    pub fn all(&self) -> impl Iterator<Item = &Vec<u8>> {
        self.sections.iter().flatten()
    }

    /// The kinds of all values in entry order.
    pub fn kinds(&self) -> impl Iterator<Item = Kind> {
        let sections = self.table().sections(self.axles);
        sections
            .iter()
            .flat_map(|section| &section.entries)
            .map(|entry| entry.kind)
    }
}

/// How many entries each section of a file has, by 01, Bookings and Results, and 02, 2/14.
fn entry_counts(file: u32, axles: usize) -> Vec<u32> {
    match file {
        AC2 => vec![12],
        ACC => vec![6],
        DRIFT => [vec![16], vec![1; axles]].concat(),
        SUSPENSION => [vec![16], vec![3; axles]].concat(),
        GAS => vec![46, 7],
        OPACITY => vec![55],
        _ => panic!("file {file} has no sections"),
    }
}

/// A number of axles that this file may have, often nine.
pub fn any_axles(random: &mut Random, file: u32) -> usize {
    if !table(file).has_axles() {
        0
    } else if random.chance(30) {
        9
    } else {
        random.between(1, 9)
    }
}

/// Lines, each ended by CR LF.
pub fn join_lines(lines: &[Vec<u8>]) -> Vec<u8> {
    let mut text = Vec::new();
    for line in lines {
        text.extend(line);
        text.extend(b"\r\n");
    }
    text
}

/// A lawful record with its set.
pub struct Record {
    pub set: Set,
    /// The values of each file that is read.
    pub files: Vec<Values>,
    /// The fields of slice 6, if given.
    pub fields: Option<Vec<Vec<u8>>>,
    /// The places after acceptance, as many as must be lent.
    pub places: Vec<u32>,
}

impl Record {
    pub fn file(&self, file: u32) -> Option<&Values> {
        self.files.iter().find(|values| values.file == file)
    }

    pub fn axles(&self, file: u32) -> u32 {
        self.file(file).map_or(0, |values| values.axles as u32)
    }

    pub fn mark(&self, file: u32) -> bool {
        self.file(file)
            .is_some_and(|values| !values.get("CodErrore").is_empty())
    }

    pub fn by_hand(&self) -> bool {
        self.file(GAS).is_some_and(Values::by_hand)
    }

    /// 02, 5/14: "the length for each result file, 0 for one not given".
    pub fn seconds(&self, file: u32) -> u32 {
        self.file(file)
            .map_or(0, |values| values.measure().seconds())
    }

    /// 02, 4/14: "A file that is not read adds nothing."
    pub fn names_compared(&self) -> u32 {
        self.files.iter().map(Values::names_compared).sum()
    }
}

const CATEGORIES: &[&str] = &[
    "M1", "M2", "M3", "N1", "N2", "N3", "O1", "O2", "O3", "O4", "L1e", "L2e", "L3e", "L4e", "L5e",
    "L6e", "L7e",
];

/// Versions: 200 and 210 most often.
pub fn version(random: &mut Random) -> Vec<u8> {
    let versions: &[&[u8]] = &[
        b"200", b"200", b"200", b"210", b"210", b"210", b"201", b"100", b"20", b"2", b"020",
        b"999", b"000",
    ];
    random.pick(versions).to_vec()
}

fn stem(random: &mut Random) -> Vec<u8> {
    let mut stem: Vec<u8> = (0..2).map(|_| b'A' + random.below(26) as u8).collect();
    stem.extend(random.digits(6));
    if random.chance(40) {
        stem[2] = b'9';
    }
    stem
}

/// The free entries: filled or empty.
fn empty_free_entries(random: &mut Random, values: &mut Values) {
    for name in free_entries(values.file) {
        if random.chance(50) {
            values.empty(&[name]);
        }
    }
}

/// The fuel: petrol and, since only M and N diesels have opacity, diesel most often.
fn fuel(random: &mut Random, category: &str, size: Size) -> Vec<u8> {
    if category.starts_with('O') {
        return Vec::new();
    }
    match random.below(24) {
        0..=10 => b"BENZINA".to_vec(),
        11..=19 => b"DIESEL".to_vec(),
        20..=22 => {
            let others: &[&str] = &[
                "GPL",
                "METANO",
                "ELETTRICO",
                "BENZINA ",
                " BENZINA",
                "BENZINA/GPL",
                "benzina",
                "BENZIN",
                "DIESEL ",
                "Diesel",
                "BENZINA CAT",
            ];
            random.pick(others).as_bytes().to_vec()
        }
        _ => value(random, Kind::Text(64), size),
    }
}

fn ac2(random: &mut Random, size: Size) -> Values {
    let mut ac2 = Values::filled(random, AC2, 0, size);
    let category = random.pick(CATEGORIES);
    ac2.set("CategoriaInternazionale", category);
    let is_l = category.starts_with('L');
    let vehicle_type = if is_l {
        "MOTOVEICOLO"
    } else if ["M1", "N1", "O1", "O2"].contains(&category) {
        "LEGGERO"
    } else {
        "PESANTE"
    };
    ac2.set("TipoVeicolo", vehicle_type);
    let moped = ["L1e", "L2e", "L6e"].contains(&category);
    if random.chance(if moped { 60 } else { 20 }) && size == Size::Mixed {
        ac2.set("TargaNominale", printable(random, 6));
    }
    if !moped || ac2.get("TargaNominale").len() != 6 {
        ac2.empty(&["CodiceCIC"]);
    }
    let fuel = fuel(random, category, size);
    ac2.set("Alimentazione_1", &fuel);
    if fuel != b"DIESEL" {
        ac2.empty(&["Turbo", "CorrettorePressione"]);
    }
    let petrol = fuel == b"BENZINA";
    if !petrol || is_l {
        ac2.empty(&["DirettivaEmissioniGasBenzinaAuto"]);
    } else if random.chance(50) {
        // Only petrol with M or N is compared with the fuel dates.
        ac2.set("DataPrimaImm", fuel_day(random));
    }
    if petrol && is_l && !moped {
        let directives: &[&str] = &[
            "NESSUNA",
            "NESSUNA",
            "NESSUNA",
            "97/24/CE",
            "2002/51/CE",
            "nessuna",
            "NESSUNA ",
            "91/441/CEE",
        ];
        if size == Size::Mixed || random.chance(50) {
            ac2.set("DirettivaEmissioniGasMotociclo", random.pick(directives));
        }
    } else {
        ac2.empty(&["DirettivaEmissioniGasMotociclo"]);
    }
    if ac2.get("AzionamentoFrenoStazionamento") == b"NON PRESENTE" && !is_l {
        let brakes: &[&str] = &["MANO", "PEDALE", "ELETTRICO"];
        ac2.set("AzionamentoFrenoStazionamento", random.pick(brakes));
    }
    ac2
}

/// The value of ACC's Alimentazione_1; None where none fits.
pub fn old_fuel(ac2: &Values) -> Option<Vec<u8>> {
    // Both fuel dates are the first day of a month, and no day of it, known or not, is before that (02, 3/14): yyyymm,
    // compared as a string, decides.
    let day = ac2.get("DataPrimaImm");
    let month = [&day[4..], &day[2..4]].concat();
    let before_1986 = month.as_slice() < b"198610".as_slice();
    let before_2002 = month.as_slice() < b"200207".as_slice();
    let fuel = match ac2.get("Alimentazione_1") {
        b"BENZINA" => match ac2.get("DirettivaEmissioniGasBenzinaAuto") {
            b"91/441/CEE" | b"98/69/CE" => b"BENZINA CAT".to_vec(),
            _ if before_1986 => b"BENZINA<86".to_vec(),
            b"RT1902" if before_2002 => b"BENZINA NO CAT".to_vec(),
            _ => return None,
        },
        b"DIESEL" if ac2.get("Turbo") == b"S" => b"DIESEL TURBO COMPRESSO".to_vec(),
        b"DIESEL" if ac2.get("CorrettorePressione") == b"S" => {
            b"DIESEL ASPIRATO CON CORRETTORE".to_vec()
        }
        b"DIESEL" => b"DIESEL ASPIRATO SENZA CORRETTORE".to_vec(),
        other => other.to_vec(),
    };
    Some(fuel)
}

/// The old booking of a category other than L, with this Alimentazione_1.
pub fn acc(random: &mut Random, ac2: &Values, fuel: &[u8]) -> Values {
    let mut acc = Values::filled(random, ACC, 0, Size::Shortest);
    acc.set("TipoVeicolo", ac2.get("TipoVeicolo"));
    let descriptions: &[&str] = match ac2.get("CategoriaInternazionale") {
        b"M1" => &[
            "AUTOVETTURA",
            "PROMISCUO",
            "AUTOCARAVAN",
            "TRASPORTO SPECIFICO",
            "USO SPECIALE",
        ],
        b"M2" | b"M3" => &["AUTOBUS"],
        b"N1" | b"N2" | b"N3" => &[
            "AUTOCARRO",
            "TRATTORE STRADALE",
            "TRATTORE PER SEMIRIMORCHIO",
            "TRASPORTO SPECIFICO",
            "USO SPECIALE",
        ],
        _ => &["RIMORCHIO", "SEMIRIMORCHIO"],
    };
    acc.set("DescrizioneVeicolo", random.pick(descriptions));
    acc.set("AnnoPrimaImm", &ac2.get("DataPrimaImm")[4..]);
    acc.set("Alimentazione_1", fuel);
    let brakes: &[&str] = match ac2.get("AzionamentoFrenoStazionamento") {
        b"MANO" => &["MANO"],
        b"PEDALE" => &["PEDALE"],
        _ => &["MANO", "PEDALE"],
    };
    acc.set("FrenoStazionamento", random.pick(brakes));
    let letters = ac2.get("PosAssiStaz").iter();
    let braked = letters.filter(|letter| **letter == b'S').count();
    acc.set("NumAssiStazionamento", braked.to_string());
    acc
}

/// ACC with L: not read, so any bytes.
fn unread_acc(random: &mut Random) -> Vec<u8> {
    match random.below(6) {
        0 => random.bytes(16_385),
        1 => vec![b'x'; 16_384],
        2 => b"\r\n".to_vec(),
        3 => Values::by_kinds(random, ACC, 0).text(random),
        4 => Values::by_kinds(random, AC2, 0).text(random),
        _ => {
            let count = random.between(1, 40);
            random.bytes(count)
        }
    }
}

/// A day on which a measure ends: often one about which calendars differ (02, 5/14).
fn ending_day(random: &mut Random) -> Date {
    if random.chance(40) {
        random.pick(&devices::DAYS)
    } else {
        day(random)
    }
}

/// Seconds since midnight at which a measure begins and ends: at the same time, a second less than a day later, about
/// midnight, or any.
pub fn times(random: &mut Random) -> (u32, u32) {
    const LAST: u32 = 86_399;
    let any = random.below(86_400) as u32;
    let near = random.below(60) as u32;
    match random.below(12) {
        0 => (any, any),
        1 => (0, LAST),
        2 => (any.max(1), any.max(1) - 1),
        3 => (LAST - near, near),
        4 => (LAST, 0),
        5 => (0, any),
        6 => (any, LAST),
        _ => (any, random.below(86_400) as u32),
    }
}

/// When something was measured. It ends on a day of kind D.
pub fn measure(random: &mut Random) -> Measure {
    let (start, finish) = times(random);
    let end = ending_day(random);
    let mut measure = Measure {
        day: end,
        start,
        finish,
    };
    if measure.is_over_midnight() {
        // None before the first day, which a measure over midnight begins on.
        measure.day = end.previous().unwrap_or(end);
    }
    measure
}

/// A due date that covers this day.
pub fn covering(random: &mut Random, end: Date) -> Date {
    match random.below(10) {
        0..=4 => end,
        5 => end.next().min(dates::LAST),
        6 => Date::last_of_month(end.month, end.year),
        7 => Date::last_of_month(12, end.year),
        _ => day(random).max(end),
    }
}

/// 02, 5/14: "A lawful record keeps this too": a measure, and due dates that cover the day on which it ends.
fn set_measure_and_due_dates(random: &mut Random, values: &mut Values) {
    let measure = measure(random);
    for (name, value) in measure.entries() {
        values.set(name, value);
    }
    for name in due_dates(values.file) {
        // The bench's is empty where condition P does not hold.
        if !values.get(name).is_empty() {
            values.set(name, covering(random, measure.end()).digits());
        }
    }
}

fn drift(random: &mut Random, size: Size) -> Values {
    let axles = any_axles(random, DRIFT);
    drift_of(random, axles, size)
}

/// A drift file with so many axles.
pub fn drift_of(random: &mut Random, axles: usize, size: Size) -> Values {
    let mut drift = Values::filled(random, DRIFT, axles, size);
    empty_free_entries(random, &mut drift);
    set_measure_and_due_dates(random, &mut drift);
    drift
}

fn suspension(random: &mut Random, size: Size) -> Values {
    let axles = any_axles(random, SUSPENSION);
    let mut suspension = Values::filled(random, SUSPENSION, axles, size);
    empty_free_entries(random, &mut suspension);
    set_measure_and_due_dates(random, &mut suspension);
    for axle in &mut suspension.sections[1..] {
        if random.chance(15) {
            axle[1] = axle[0].clone();
        }
        let grip = |value: &[u8]| -> i32 {
            let text = std::str::from_utf8(value).expect("digits");
            text.parse().expect("a number")
        };
        let difference = (grip(&axle[0]) - grip(&axle[1])).abs();
        axle[2] = match (size, random.chance(30)) {
            (Size::Longest, _) | (Size::Mixed, true) => format!("{difference:02}"),
            _ => format!("{difference}"),
        }
        .into_bytes();
    }
    suspension
}

/// Versions of these devices and the link of the file's own, most often those on which something hangs.
fn set_versions_and_link(random: &mut Random, values: &mut Values, devices: &[&str], size: Size) {
    if size != Size::Shortest || random.chance(50) {
        for t in devices {
            values.set(&format!("NumVersioneProtocollo{t}"), version(random));
        }
    }
    if size == Size::Longest || random.chance(40) {
        values.set("TipoCollegamento", "RS SENZA ESITO");
    }
}

/// Empties what the links and versions of the file's own device and of its rev counter do not need.
fn keep_due_by_links(values: &mut Values) {
    let serial = values.get("TipoCollegamento") == b"RS SENZA ESITO";
    let external = values.get("TipoCollegamentoContagiri") == b"ESTERNO";
    if !external {
        values.empty(&["NumVersioneProtocolloContagiri"]);
    }
    keep_due_keys(values, "", serial);
    keep_due_keys(values, "Contagiri", external);
}

/// Empties the entries of the keys and the checksum that condition and version of a device do not need.
fn keep_due_keys(values: &mut Values, t: &str, condition: bool) {
    let version = values.get(&format!("NumVersioneProtocollo{t}")).to_vec();
    let key = [
        "IDChiave",
        "DataRegChiave",
        "ModuloChiave",
        "EsponenteChiave",
    ];
    if !(condition && version == b"210") {
        for start in key {
            values.set(&format!("{start}{t}RS"), "");
        }
    }
    if !(condition && version == b"200") {
        values.set(&format!("Checksum{t}RS"), "");
    }
}

fn gas(random: &mut Random, ac2: &Values, size: Size) -> Values {
    let mut gas = Values::filled(random, GAS, 0, size);
    empty_free_entries(random, &mut gas);
    set_versions_and_link(random, &mut gas, &["", "Contagiri", "ProvaVelocita"], size);
    keep_due_by_links(&mut gas);
    let moped = [&b"L1e"[..], b"L2e", b"L6e"].contains(&ac2.get("CategoriaInternazionale"));
    let p = moped || ac2.get("DirettivaEmissioniGasMotociclo") == b"NESSUNA";
    if !p {
        gas.empty(&[
            "MarcaProvaVelocita",
            "TipoProvaVelocita",
            "NumOmologaProvaVelocita",
            "NumSerieProvaVelocita",
            "NumVersioneSoftwareProvaVelocita",
            "NumVersioneProtocolloProvaVelocita",
            "DataScadenzaProvaVelocita",
        ]);
    }
    keep_due_keys(&mut gas, "ProvaVelocita", p);
    let directive = ac2.get("DirettivaEmissioniGasBenzinaAuto");
    if directive != b"91/441/CEE" && directive != b"98/69/CE" {
        gas.empty(&["COMinAcc"]);
    }
    set_measure_and_due_dates(random, &mut gas);
    gas
}

/// 02, 2/14: the opacity file, which hangs on nothing outside itself.
pub fn opacity(random: &mut Random, size: Size) -> Values {
    let mut opacity = Values::filled(random, OPACITY, 0, size);
    empty_free_entries(random, &mut opacity);
    set_versions_and_link(random, &mut opacity, &["", "Contagiri"], size);
    keep_due_by_links(&mut opacity);
    set_measure_and_due_dates(random, &mut opacity);
    opacity
}

/// The ten fields of the identification answer for this gas file.
fn identification_fields(random: &mut Random, gas: &Values) -> Vec<Vec<u8>> {
    let count = random.between(1, 3);
    let address = random.digits(count);
    let mut fields = vec![b"GAS".to_vec(), address, b"ID".to_vec()];
    for name in [
        "MarcaAnalizzatore",
        "TipoAnalizzatore",
        "NumOmologaAnalizzatore",
        "NumSerieAnalizzatore",
        "DataScadenzaAnalizzatore",
        "NumVersSoftwareAnalizzatore",
        "NumVersioneProtocollo",
    ] {
        fields.push(gas.get(name).to_vec());
    }
    fields
}

/// The identification answer of these fields, with its right checksum.
pub fn identification(fields: &[Vec<u8>]) -> Vec<u8> {
    let between = fields.join(&0x17);
    let mut sum = 0u8;
    for byte in &between {
        sum = sum.wrapping_add(*byte);
    }
    let mut answer = vec![0x02];
    answer.extend(&between);
    answer.extend(format!("{sum:02X}").into_bytes());
    answer.push(0x03);
    answer
}

/// A lawful record, its files in any line order.
pub fn record(random: &mut Random) -> Record {
    let size = Size::any(random);
    let ac2 = ac2(random, size);
    let mut stem = stem(random);
    let category = ac2.get("CategoriaInternazionale")[0];
    let is_l = category == b'L';
    let mut unread = Vec::new();
    let mut old = None;
    if random.chance(60) {
        if is_l {
            stem[2] = b'9';
            unread = unread_acc(random);
        } else {
            old = old_fuel(&ac2).map(|fuel| acc(random, &ac2, &fuel));
        }
    }
    let drift = random.chance(65).then(|| drift(random, size));
    let suspension = random.chance(65).then(|| suspension(random, size));
    let petrol = ac2.get("Alimentazione_1") == b"BENZINA";
    let gas = petrol.then(|| gas(random, &ac2, size));
    let fields = match &gas {
        Some(gas) if gas.get("TipoCollegamento") == b"RS SENZA ESITO" => {
            Some(identification_fields(random, gas))
        }
        _ => None,
    };
    let diesel = ac2.get("Alimentazione_1") == b"DIESEL";
    let opacity = (diesel && b"MN".contains(&category)).then(|| opacity(random, size));
    let files = [Some(ac2), old, drift, suspension, gas, opacity];
    let files: Vec<Values> = files.into_iter().flatten().collect();
    let mut set = Set {
        stem,
        slices: Default::default(),
    };
    let mut places = vec![0; PLACES];
    for values in &files {
        let (text, triples) = values.text_and_triples(random);
        put_triples(&mut places, values.file, triples);
        *set.slice_mut(values.file) = text;
    }
    if !unread.is_empty() {
        *set.slice_mut(ACC) = unread;
    }
    if let Some(fields) = &fields {
        *set.slice_mut(IDENTIFICATION) = identification(fields);
    }
    Record {
        set,
        files,
        fields,
        places,
    }
}
