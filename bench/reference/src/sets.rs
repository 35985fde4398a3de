//! The sets that are measured: petrol sets of a car and of a moped, diesel sets of a van, the same ones grown, and inputs
//! refused late. "01" is document 01, "MCTCNet2 test sets", "02" the change requests.

use outside::entries::free_entries;
use outside::judge::Set;
use outside::reference::identification::{answer, SEVEN_ENTRIES};
use outside::reference::kinds::Kind;
use outside::reference::tables::{table, AC2, ACC, DRIFT, GAS, OPACITY, SUSPENSION};

/// A set, and the number it is to be answered with: 0 accepted, else the refusal.
pub struct Named {
    pub name: String,
    pub set: Set,
    pub wanted: u32,
}

/// 01, Lines: "A file is at most 16,384 bytes".
const LONGEST_FILE: usize = 16_384;

/// 01, Lines: "Before it stand 1 to 512 bytes".
const LONGEST_LINE: usize = 512;

#[derive(Clone, Copy, PartialEq)]
enum Vehicle {
    /// M1 with 98/69/CE: the old booking is read, ProvaVelocita is not due.
    Car,
    /// L1e: no old booking, ProvaVelocita is due.
    Moped,
    /// N1, DIESEL: the old booking is read, opacity in place of gas.
    Van,
}

#[derive(Clone, Copy, PartialEq)]
enum Size {
    Shortest,
    Usual,
    Longest,
}

#[derive(Clone, Copy)]
struct Plan {
    vehicle: Vehicle,
    link: &'static str,
    size: Size,
    axles: usize,
    /// Sections and entries in table order, or the other way round.
    reversed: bool,
}

const CAR: Plan = Plan {
    vehicle: Vehicle::Car,
    link: "RS SENZA ESITO",
    size: Size::Usual,
    axles: 2,
    reversed: false,
};

const MOPED: Plan = Plan {
    vehicle: Vehicle::Moped,
    ..CAR
};

const VAN: Plan = Plan {
    vehicle: Vehicle::Van,
    ..CAR
};

pub fn all() -> Vec<Named> {
    let mut sets = Vec::new();
    let mut accepted = |name: String, plan: Plan| sets.push(named(name, plan.set(), 0));
    for (word, link) in [("dir", "DIR"), ("rete", "RETE"), ("rs", "RS SENZA ESITO")] {
        accepted(format!("car-{word}"), Plan { link, ..CAR });
        accepted(format!("moped-{word}"), Plan { link, ..MOPED });
        accepted(format!("van-{word}"), Plan { link, ..VAN });
    }
    for axles in 1..=9 {
        accepted(format!("axles-{axles}"), Plan { axles, ..CAR });
    }
    for (vehicle, plan) in [("car", CAR), ("moped", MOPED), ("van", VAN)] {
        let shortest = Plan {
            size: Size::Shortest,
            link: "DIR",
            axles: 1,
            ..plan
        };
        let longest = Plan {
            size: Size::Longest,
            axles: 9,
            ..plan
        };
        let reversed = Plan {
            reversed: true,
            ..longest
        };
        accepted(format!("shortest-{vehicle}"), shortest);
        accepted(format!("longest-{vehicle}"), longest);
        accepted(format!("reversed-{vehicle}"), reversed);
    }
    sets.extend(refused());
    sets
}

fn named(name: impl Into<String>, set: Set, wanted: u32) -> Named {
    Named {
        name: name.into(),
        set,
        wanted,
    }
}

/// The longest car set, with its last slices made wrong, so that all before is judged first.
fn refused() -> Vec<Named> {
    let plan = Plan {
        size: Size::Longest,
        axles: 9,
        ..CAR
    };
    let with_gas = |gas: Vec<u8>| {
        let mut set = plan.set();
        set.slices[4] = gas;
        set
    };
    let gas = plan.text(GAS);
    let repeated = long_section_last(&gas);
    let mut wrong_kind = gas.clone();
    let last = wrong_kind.len() - 3;
    wrong_kind[last] = b'x';
    let mut differing = plan.set();
    let mut values = plan.seven();
    values[6] = b"211".to_vec();
    differing.slices[5] = identification(&values);
    vec![
        named("refused-one-byte-names", with_gas(one_byte_names()), 6),
        named("refused-512-byte-lines", with_gas(long_lines()), 7),
        named("refused-entry-repeated-on-last-line", with_gas(repeated), 6),
        named("refused-last-value-wrong-kind", with_gas(wrong_kind), 9),
        named("refused-identification-differs", differing, 15),
    ]
}

fn identification(seven: &[Vec<u8>; 7]) -> Vec<u8> {
    answer(b"001", std::array::from_fn(|field| seven[field].as_slice()))
}

/// The longer section behind the other one, its last entry repeated on the last line.
fn long_section_last(gas: &[u8]) -> Vec<u8> {
    let heading = table(GAS).sections[1].heading.as_bytes();
    let start = gas
        .windows(heading.len())
        .position(|part| part == heading)
        .expect("the section of the measured values");
    let (long, short) = gas.split_at(start);
    let before = &long[..long.len() - 2];
    let last = before
        .iter()
        .rposition(|byte| *byte == b'\n')
        .map_or(0, |end| end + 1);
    [short, long, &long[last..]].concat()
}

/// A heading, then lines `a=`, 16,384 bytes in all; the last line has a value that makes them full.
fn one_byte_names() -> Vec<u8> {
    let mut text = format!("{}\r\n", table(GAS).sections[0].heading).into_bytes();
    while text.len() + 8 <= LONGEST_FILE {
        text.extend(b"a=\r\n");
    }
    let fill = LONGEST_FILE - text.len() - 4;
    text.extend(format!("a={}\r\n", "x".repeat(fill)).bytes());
    text
}

/// The gas entries in table order, each filled to a line of 512 bytes, until 16,384 bytes are full.
fn long_lines() -> Vec<u8> {
    let section = &table(GAS).sections[0];
    let mut text = format!("{}\r\n", section.heading).into_bytes();
    for entry in &section.entries {
        let line = LONGEST_LINE.min((LONGEST_FILE - text.len()).saturating_sub(2));
        if line > entry.name.len() {
            let fill = line - entry.name.len() - 1;
            text.extend(format!("{}={}\r\n", entry.name, "x".repeat(fill)).bytes());
        }
    }
    text
}

impl Plan {
    fn set(self) -> Set {
        let diesel = self.vehicle == Vehicle::Van;
        let given = |file, given: bool| if given { self.text(file) } else { Vec::new() };
        let identification = if self.link == "RS SENZA ESITO" && !diesel {
            identification(&self.seven())
        } else {
            Vec::new()
        };
        Set {
            stem: b"AB123456".to_vec(),
            slices: [
                self.text(AC2),
                given(ACC, self.vehicle != Vehicle::Moped),
                self.text(DRIFT),
                self.text(SUSPENSION),
                given(GAS, !diesel),
                identification,
                given(OPACITY, diesel),
            ],
        }
    }

    fn text(self, file: u32) -> Vec<u8> {
        let table = table(file);
        let axles = if table.has_axles() { self.axles } else { 0 };
        let mut sections: Vec<Vec<String>> = Vec::new();
        for section in table.sections(axles) {
            let mut entries: Vec<String> = section
                .entries
                .iter()
                .map(|entry| {
                    format!(
                        "{}={}\r\n",
                        entry.name,
                        self.value(file, &entry.name, entry.kind)
                    )
                })
                .collect();
            if self.reversed {
                entries.reverse();
            }
            entries.insert(0, format!("{}\r\n", section.heading));
            sections.push(entries);
        }
        if self.reversed {
            sections.reverse();
        }
        sections.concat().concat().into_bytes()
    }

    /// The gas values that the identification answer repeats.
    fn seven(self) -> [Vec<u8>; 7] {
        SEVEN_ENTRIES.map(|name| {
            let entries = &table(GAS).sections[0].entries;
            let entry = entries.iter().find(|entry| entry.name == name);
            let kind = entry.expect("an entry of gas").kind;
            self.value(GAS, name, kind).into_bytes()
        })
    }

    fn value(self, file: u32, name: &str, kind: Kind) -> String {
        match file {
            AC2 => self.ac2_value(name).to_string(),
            ACC => self.acc_value(name).to_string(),
            GAS if !self.gas_due(name) => String::new(),
            OPACITY if !self.opacity_filled(name) => String::new(),
            _ => self.result_value(name, kind),
        }
    }

    fn ac2_value(self, name: &str) -> &'static str {
        match (name, self.vehicle) {
            ("TargaNominale", Vehicle::Moped) => "X2ABCD",
            ("TargaNominale", _) => "AB123CD",
            ("TipoVeicolo", Vehicle::Moped) => "MOTOVEICOLO",
            ("TipoVeicolo", _) => "LEGGERO",
            ("CategoriaInternazionale", Vehicle::Car) => "M1",
            ("CategoriaInternazionale", Vehicle::Moped) => "L1e",
            ("CategoriaInternazionale", Vehicle::Van) => "N1",
            ("CodiceCIC", Vehicle::Moped) => "CIC0012345",
            ("DataPrimaImm", _) => "15032004",
            ("Alimentazione_1", Vehicle::Van) => "DIESEL",
            ("Alimentazione_1", _) => "BENZINA",
            ("Turbo", Vehicle::Van) => "S",
            ("CorrettorePressione", Vehicle::Van) => "N",
            ("DirettivaEmissioniGasBenzinaAuto", Vehicle::Car) => "98/69/CE",
            ("AzionamentoFrenoStazionamento", _) => "MANO",
            ("PosAssiStaz", _) => "NSNNNNNNN",
            _ => "",
        }
    }

    fn acc_value(self, name: &str) -> &'static str {
        let van = self.vehicle == Vehicle::Van;
        match name {
            "TipoVeicolo" => "LEGGERO",
            "DescrizioneVeicolo" if van => "AUTOCARRO",
            "DescrizioneVeicolo" => "AUTOVETTURA",
            "AnnoPrimaImm" => "2004",
            "Alimentazione_1" if van => "DIESEL TURBO COMPRESSO",
            "Alimentazione_1" => "BENZINA CAT",
            "FrenoStazionamento" => "MANO",
            _ => "1",
        }
    }

    /// 01, Due entries: what is filled in gas. Each device has version 210 (1 in the shortest set) and the rev
    /// counter is ESTERNO.
    fn gas_due(self, name: &str) -> bool {
        let moped = self.vehicle == Vehicle::Moped;
        match name {
            "COMinAcc" => !moped,
            _ if name.contains("ProvaVelocita") => moped && self.key_due(name),
            _ => self.key_due(name),
        }
    }

    /// 02, 2/14: what is filled in opacity, likewise; what is free is filled in the longest sets only.
    fn opacity_filled(self, name: &str) -> bool {
        if free_entries(OPACITY).contains(&name) && !is_free_text(name) {
            self.size == Size::Longest
        } else {
            self.key_due(name)
        }
    }

    /// Of a key or checksum, whether its device's link and version ask for it; true for every other entry.
    fn key_due(self, name: &str) -> bool {
        let own = !name.contains("Contagiri") && !name.contains("ProvaVelocita");
        if !name.ends_with("RS") {
            true
        } else if self.size == Size::Shortest || name.starts_with("Checksum") {
            false
        } else {
            !own || self.link == "RS SENZA ESITO"
        }
    }

    fn result_value(self, name: &str, kind: Kind) -> String {
        match kind {
            Kind::Text(width) => self.text_value(name, width),
            Kind::Exact(width) => "QmVuemluYTIwMDQ+".chars().cycle().take(width).collect(),
            Kind::Number(3) if self.size == Size::Shortest => "1".to_string(),
            Kind::Number(3) => "210".to_string(),
            Kind::Number(2) => match name {
                "Aderenza%Sx" => "72".to_string(),
                "Aderenza%Dx" => "61".to_string(),
                _ => "11".to_string(),
            },
            Kind::Number(_) => "00118".to_string(),
            Kind::Decimal { decimals: 1, .. } => "2.5".to_string(),
            Kind::Decimal { decimals: 3, .. } => "0.215".to_string(),
            Kind::Decimal { .. } => "14.50".to_string(),
            Kind::Date => "28022025".to_string(),
            Kind::Time => "104512".to_string(),
            Kind::Word(_) if name == "TipoCollegamentoContagiri" => "ESTERNO".to_string(),
            Kind::Word(_) if name == "Esito" => "R".to_string(),
            Kind::Word(words) if words.contains(&self.link) => self.link.to_string(),
            Kind::Word(_) => "RETE".to_string(),
            Kind::Drift => "-12.34".to_string(),
            Kind::Revs => "#00850".to_string(),
            Kind::Plate => self.text_value(name, 10),
            Kind::NumberByHand(_) => "#060".to_string(),
            Kind::DecimalByHand { .. } => "#101.3".to_string(),
            Kind::Temperature => "#-12".to_string(),
            Kind::FirstRegistration | Kind::Axles | Kind::Year => {
                unreachable!("not in a result file")
            }
        }
    }

    fn text_value(self, name: &str, width: usize) -> String {
        match self.size {
            Size::Shortest if is_free_text(name) => String::new(),
            Size::Shortest if name == "Targa" => "AB12".to_string(),
            Size::Shortest => "A".to_string(),
            Size::Longest => "Officina 12-B ".chars().cycle().take(width).collect(),
            Size::Usual => usual(name).to_string(),
        }
    }
}

/// Whether an entry may be empty in every result file.
fn is_free_text(name: &str) -> bool {
    name == "Note" || name == "CodErrore"
}

fn usual(name: &str) -> &'static str {
    let starts = [
        ("Marca", "OFFICINE MECCANICHE"),
        ("Tipo", "MODELLO 898 PLUS"),
        ("NumOmologa", "OM00289EST036C"),
        ("NumSerie", "0012345678"),
        ("NumVers", "3.14.2"),
        ("Targa", "AB123CD"),
        ("Direttiva", "98/69/CE B"),
        ("Circolare", "PROT. 9938/RU"),
        ("Operatore", "MARIO ROSSI"),
        ("Note", "Prova regolare, motore caldo"),
    ];
    let found = starts.iter().find(|(start, _)| name.starts_with(start));
    found.map_or("", |(_, value)| value)
}
