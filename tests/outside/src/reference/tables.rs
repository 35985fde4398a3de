//! 01, Bookings and Results, and 02, 2/14: the headings and entries of the six files, in table order.

use std::sync::OnceLock;

use super::kinds::{word_of, Kind};

pub const AC2: u32 = 1;
pub const ACC: u32 = 2;
pub const DRIFT: u32 = 3;
pub const SUSPENSION: u32 = 4;
pub const GAS: u32 = 5;
pub const IDENTIFICATION: u32 = 6;
pub const OPACITY: u32 = 7;

/// The files that have a table: all but the identification answer.
pub const FILES: [u32; 6] = [AC2, ACC, DRIFT, SUSPENSION, GAS, OPACITY];

/// The result files: with CodErrore and a measure.
pub const RESULT_FILES: [u32; 4] = [DRIFT, SUSPENSION, GAS, OPACITY];

/// 01, Results: "1 to 9 axles, as in suspension".
pub const MOST_AXLES: usize = 9;

pub struct Entry {
    pub name: String,
    pub kind: Kind,
}

pub struct Section {
    pub heading: String,
    pub entries: Vec<Entry>,
}

/// One file: its fixed sections, then (drift, suspension) the sections of axles 1 to 9.
pub struct Table {
    pub file: u32,
    /// 01, Judging: "files' first pairs at 0, 12, 18, 43, 86"; 02, 2/14: opacity's "start at 139"; 7/14: "Each pair in
    /// places becomes three numbers", and "The blocks keep their order".
    pub first_triple: usize,
    pub fixed: usize,
    pub sections: Vec<Section>,
}

impl Table {
    pub fn has_axles(&self) -> bool {
        self.sections.len() > self.fixed
    }

    /// The sections of a file with this number of axles.
    pub fn sections(&self, axles: usize) -> &[Section] {
        &self.sections[..self.fixed + axles]
    }

    /// How many entries a file with this number of axles has.
    pub fn entry_count(&self, axles: usize) -> usize {
        let sections = self.sections(axles).iter();
        sections.map(|section| section.entries.len()).sum()
    }

    /// How many entries the file has at most.
    pub fn most_entries(&self) -> usize {
        self.entry_count(self.sections.len() - self.fixed)
    }
}

/// The name of an entry, numbered from 0 in the order of the file's triples, and the number of its section.
pub fn entry_name(file: u32, entry: u32) -> Option<(&'static str, u32)> {
    let (entry, section) = entry_of(file, entry)?;
    Some((&entry.name, section))
}

/// The kind of an entry, numbered likewise.
pub fn entry_kind(file: u32, entry: u32) -> Option<Kind> {
    let (entry, _) = entry_of(file, entry)?;
    Some(entry.kind)
}

/// A word that an entry's value may be, numbered from 0, and the number of the entry's section.
pub fn entry_word(file: u32, entry: u32, word: u32) -> Option<(&'static str, u32)> {
    let (entry, section) = entry_of(file, entry)?;
    Some((word_of(entry.kind, word)?, section))
}

/// An entry and the number of its section.
fn entry_of(file: u32, entry: u32) -> Option<(&'static Entry, u32)> {
    let sections = sections_of(file).iter().zip(0..);
    let mut entries =
        sections.flat_map(|(section, at)| section.entries.iter().map(move |entry| (entry, at)));
    entries.nth(entry as usize)
}

/// A heading, numbered from 0.
pub fn heading_name(file: u32, section: u32) -> Option<&'static str> {
    let section = sections_of(file).get(section as usize)?;
    Some(&section.heading)
}

/// All sections of a file, none where it has no table.
fn sections_of(file: u32) -> &'static [Section] {
    find_table(file).map_or(&[], |table| &table.sections)
}

/// The table of one of the files.
pub fn table(file: u32) -> &'static Table {
    find_table(file).unwrap_or_else(|| panic!("file {file} has no table"))
}

fn find_table(file: u32) -> Option<&'static Table> {
    static TABLES: OnceLock<[Table; 6]> = OnceLock::new();
    let tables = TABLES.get_or_init(|| [ac2(), acc(), drift(), suspension(), gas(), opacity()]);
    tables.iter().find(|table| table.file == file)
}

/// 01, Kinds of value: "w is 64 where none is given".
const S: Kind = Kind::Text(64);

const VEHICLE_TYPES: &[&str] = &["LEGGERO", "PESANTE", "MOTOVEICOLO"];
const CATEGORIES: &[&str] = &[
    "M1", "M2", "M3", "N1", "N2", "N3", "O1", "O2", "O3", "O4", "L1e", "L2e", "L3e", "L4e", "L5e",
    "L6e", "L7e",
];
const YES_NO: &[&str] = &["S", "N"];
const DIRECTIVES: &[&str] = &["NESSUNA", "RT1902", "91/441/CEE", "98/69/CE"];
const PARKING_BRAKES: &[&str] = &["MANO", "PEDALE", "ELETTRICO", "NON PRESENTE"];
const LINKS: &[&str] = &["DIR", "RETE"];
const SERIAL_LINKS: &[&str] = &["DIR", "RETE", "RS SENZA ESITO"];
const COUNTER_LINKS: &[&str] = &["ESTERNO", "INTEGRATO"];
/// 001, 1.3.1, type E.
const RESULTS: &[&str] = &["R", "I", "N"];

fn entry(name: impl Into<String>, kind: Kind) -> Entry {
    Entry {
        name: name.into(),
        kind,
    }
}

fn section(heading: impl Into<String>, entries: Vec<Entry>) -> Section {
    Section {
        heading: heading.into(),
        entries,
    }
}

/// 01, Bookings: "AC2 has one section, its bracketed name as in 001, 3.3.2.2".
fn ac2() -> Table {
    let entries = vec![
        entry("TargaNominale", Kind::Text(10)),
        entry("TipoVeicolo", Kind::Word(VEHICLE_TYPES)),
        entry("CategoriaInternazionale", Kind::Word(CATEGORIES)),
        entry("CodiceCIC", Kind::Text(10)),
        entry("DataPrimaImm", Kind::FirstRegistration),
        entry("Alimentazione_1", S),
        entry("Turbo", Kind::Word(YES_NO)),
        entry("CorrettorePressione", Kind::Word(YES_NO)),
        entry("DirettivaEmissioniGasBenzinaAuto", Kind::Word(DIRECTIVES)),
        entry("DirettivaEmissioniGasMotociclo", S),
        entry("AzionamentoFrenoStazionamento", Kind::Word(PARKING_BRAKES)),
        entry("PosAssiStaz", Kind::Axles),
    ];
    Table {
        file: AC2,
        first_triple: 0,
        fixed: 1,
        sections: vec![section("[DatiLibrettoVeicolo]", entries)],
    }
}

/// 01, Bookings: "ACC, same heading (ours)".
fn acc() -> Table {
    let entries = vec![
        entry("TipoVeicolo", S),
        entry("DescrizioneVeicolo", S),
        entry("AnnoPrimaImm", Kind::Year),
        entry("Alimentazione_1", S),
        entry("FrenoStazionamento", S),
        entry("NumAssiStazionamento", Kind::Number(1)),
    ];
    Table {
        file: ACC,
        first_triple: 12,
        fixed: 1,
        sections: vec![section("[DatiLibrettoVeicolo]", entries)],
    }
}

/// 01, Results: drift's entries from Note to CircolareApplicata.
fn from_note_to_circular(links: &'static [&'static str]) -> Vec<Entry> {
    vec![
        entry("Note", Kind::Text(320)),
        entry("NumVersioneProtocollo", Kind::Number(3)),
        entry("DataVersioneProtocollo", Kind::Date),
        entry("TipoCollegamento", Kind::Word(links)),
        entry("CircolareApplicata", S),
    ]
}

/// 01, Results: drift's entries from CodErrore to Operatore.
fn from_error_to_operator() -> Vec<Entry> {
    vec![
        entry("CodErrore", S),
        entry("DataMisura", Kind::Date),
        entry("InizioMisura", Kind::Time),
        entry("FineMisura", Kind::Time),
        entry("Operatore", S),
    ]
}

/// 01, Results: the sixteen entries of drift and suspension.
fn sixteen_entries() -> Vec<Entry> {
    let mut entries = vec![
        entry("Marca", S),
        entry("Tipo", S),
        entry("NumOmologa", S),
        entry("NumSerie", S),
        entry("DataScadenza", Kind::Date),
        entry("NumVersioneSoftware", S),
    ];
    entries.extend(from_note_to_circular(LINKS));
    entries.extend(from_error_to_operator());
    entries
}

/// 01, Results: "[Deriva] .. Then [DerivaAsse_n] with Deriva, n one digit".
fn drift() -> Table {
    let mut sections = vec![section("[Deriva]", sixteen_entries())];
    for axle in 1..=MOST_AXLES {
        let entries = vec![entry("Deriva", Kind::Drift)];
        sections.push(section(format!("[DerivaAsse_{axle}]"), entries));
    }
    Table {
        file: DRIFT,
        first_triple: 18,
        fixed: 1,
        sections,
    }
}

/// 01, Results: "Suspension: heading as in 001, 3.3.3.3, the same sixteen entries (ours);
/// [SospensioniAsse_n] with Aderenza%Sx, Aderenza%Dx, Differenza%, N 2."
fn suspension() -> Table {
    let mut sections = vec![section("[Sospensioni]", sixteen_entries())];
    for axle in 1..=MOST_AXLES {
        let entries = vec![
            entry("Aderenza%Sx", Kind::Number(2)),
            entry("Aderenza%Dx", Kind::Number(2)),
            entry("Differenza%", Kind::Number(2)),
        ];
        sections.push(section(format!("[SospensioniAsse_{axle}]"), entries));
    }
    Table {
        file: SUSPENSION,
        first_triple: 43,
        fixed: 1,
        sections,
    }
}

/// N(d) w.
const fn decimal(decimals: usize, width: usize) -> Kind {
    Kind::Decimal { decimals, width }
}

/// 01, Results, and 02, 2/14: the rev counter's entries of gas and opacity, which name its software's version differently.
fn rev_counter(software_version: &str) -> Vec<Entry> {
    vec![
        entry("MarcaContagiri", S),
        entry("TipoContagiri", S),
        entry("NumOmologaContagiri", S),
        entry("NumSerieContagiri", S),
        entry(software_version, S),
        entry("DataScadenzaContagiri", Kind::Date),
        entry("TipoCollegamentoContagiri", Kind::Word(COUNTER_LINKS)),
        entry("NumVersioneProtocolloContagiri", Kind::Number(3)),
    ]
}

/// 01, Results: "Then for T = nothing, Contagiri, ProvaVelocita: IDChiaveTRS C 5, DataRegChiaveTRS D; then for each T
/// ChecksumTRS S 92, ModuloChiaveTRS C 172, EsponenteChiaveTRS C 4"; 02, 2/14: opacity has no ProvaVelocita.
fn keys_and_checksums(devices: &[&str]) -> Vec<Entry> {
    let mut entries = Vec::new();
    for t in devices {
        entries.push(entry(format!("IDChiave{t}RS"), Kind::Exact(5)));
        entries.push(entry(format!("DataRegChiave{t}RS"), Kind::Date));
    }
    for t in devices {
        entries.push(entry(format!("Checksum{t}RS"), Kind::Text(92)));
        entries.push(entry(format!("ModuloChiave{t}RS"), Kind::Exact(172)));
        entries.push(entry(format!("EsponenteChiave{t}RS"), Kind::Exact(4)));
    }
    entries
}

/// 01, Results: "Gas: heading as in 001, 3.3.3.5." and [AnalisiGasAlimentazione_1].
fn gas() -> Table {
    let mut entries = vec![
        entry("MarcaAnalizzatore", S),
        entry("TipoAnalizzatore", S),
        entry("NumOmologaAnalizzatore", S),
        entry("NumSerieAnalizzatore", S),
        entry("NumVersSoftwareAnalizzatore", S),
        entry("DataScadenzaAnalizzatore", Kind::Date),
    ];
    entries.extend(rev_counter("NumVersioneSoftwareContagiri"));
    entries.extend([
        entry("MarcaProvaVelocita", S),
        entry("TipoProvaVelocita", S),
        entry("NumOmologaProvaVelocita", S),
        entry("NumSerieProvaVelocita", S),
        entry("NumVersioneSoftwareProvaVelocita", S),
        entry("NumVersioneProtocolloProvaVelocita", Kind::Number(3)),
        entry("DataScadenzaProvaVelocita", Kind::Date),
    ]);
    entries.extend(from_note_to_circular(SERIAL_LINKS));
    entries.extend(keys_and_checksums(&["", "Contagiri", "ProvaVelocita"]));
    entries.extend(from_error_to_operator());
    let measured = vec![
        entry("COMin", decimal(3, 5)),
        entry("COCorrettoMin", decimal(3, 5)),
        entry("CO2Min", decimal(2, 5)),
        entry("HCMin", Kind::Number(5)),
        entry("O2Min", decimal(2, 5)),
        entry("NumGiriMotoreMin", Kind::Revs),
        entry("COMinAcc", decimal(3, 5)),
    ];
    Table {
        file: GAS,
        first_triple: 86,
        fixed: 2,
        sections: vec![
            section("[AnalisiGas]", entries),
            section("[AnalisiGasAlimentazione_1]", measured),
        ],
    }
}

/// 02, 2/14: "the opacity file, with every section and entry of source document 000, 3.3.3.7, in printed order"; 001
/// rules over the translation.
fn opacity() -> Table {
    let by_hand = Kind::DecimalByHand {
        decimals: 1,
        width: 5,
    };
    let mut entries = vec![
        entry("MarcaOpacimetro", S),
        entry("TipoOpacimetro", S),
        entry("NumOmologaOpacimetro", S),
        entry("NumSerieOpacimetro", S),
        entry("NumVersSoftwareOpacimetro", S),
        entry("DataScadenzaOpacimetro", Kind::Date),
    ];
    entries.extend(rev_counter("NumVersSoftwareContagiri"));
    entries.extend([
        entry("Targa", Kind::Plate),
        entry("NumGiriMotoreMax", Kind::Revs),
        entry("LimiteK", decimal(1, 3)),
        entry("DirettivaEmissioni", S),
        entry("NumGiriMotoreMinMis", Kind::Revs),
        entry("NumGiriMotoreMaxMis", Kind::Revs),
        entry("TempOlioMotore", by_hand),
        entry("TempMinOlioMotore", Kind::Number(2)),
    ]);
    entries.extend((1..=8).map(|peak| entry(format!("ValoreK{peak}"), decimal(2, 5))));
    entries.extend([
        entry("OpacitaMedia", decimal(2, 5)),
        entry("PressAtmosferica", by_hand),
        entry("TempAmbiente", Kind::Temperature),
        entry("UmiditaRelativa", Kind::NumberByHand(3)),
        entry("Esito", Kind::Word(RESULTS)),
    ]);
    entries.extend(from_note_to_circular(SERIAL_LINKS));
    entries.extend(keys_and_checksums(&["", "Contagiri"]));
    entries.extend(from_error_to_operator());
    Table {
        file: OPACITY,
        first_triple: 139,
        fixed: 1,
        sections: vec![section("[AnalisiOpacita]", entries)],
    }
}
