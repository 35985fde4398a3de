//! The reference against the samples of document 01: the table's rows, the established
//! samples, the misreadings and the settled readings; then those of document 02.

mod commits;
mod devices;
mod joining;
mod lines_beside;
mod look_up;
mod old_fuel;
mod opacity;

use outside::generator::{record, value, Size};
use outside::judge::{make, places_before, Call, Outcome, Reference, Set};
use outside::random::Random;
use outside::reference::bookings::old_fuel;
use outside::reference::identification::{answer, checksum, fields, SEVEN_ENTRIES};
use outside::reference::kinds::{drift_hundredths, fits, revs, Kind, Revs};
use outside::reference::places::first_place;
use outside::reference::tables::{table, AC2, ACC, DRIFT, FILES, GAS, OPACITY, SUSPENSION};
use outside::reference::PLACES;

const AC2_TEXT: &str = "[DatiLibrettoVeicolo]
TargaNominale=AB123CD
TipoVeicolo=LEGGERO
CategoriaInternazionale=M1
CodiceCIC=
DataPrimaImm=15061990
Alimentazione_1=BENZINA
Turbo=
CorrettorePressione=
DirettivaEmissioniGasBenzinaAuto=91/441/CEE
DirettivaEmissioniGasMotociclo=
AzionamentoFrenoStazionamento=ELETTRICO
PosAssiStaz=NSNNNNNNN
";

const ACC_TEXT: &str = "[DatiLibrettoVeicolo]
TipoVeicolo=LEGGERO
DescrizioneVeicolo=AUTOVETTURA
AnnoPrimaImm=1990
Alimentazione_1=BENZINA CAT
FrenoStazionamento=MANO
NumAssiStazionamento=1
";

const DRIFT_TEXT: &str = "[DerivaAsse_2]
Deriva=-0.00
[Deriva]
Marca=A
Tipo=B
NumOmologa=C
NumSerie=D
DataScadenza=01012030
NumVersioneSoftware=E
Note=
NumVersioneProtocollo=200
DataVersioneProtocollo=01012010
TipoCollegamento=DIR
CircolareApplicata=F
CodErrore=7
DataMisura=29022024
InizioMisura=080000
FineMisura=081500
Operatore=G
[DerivaAsse_1]
Deriva=-5.00
";

const SUSPENSION_TEXT: &str = "[Sospensioni]
Marca=A
Tipo=B
NumOmologa=C
NumSerie=D
DataScadenza=01012030
NumVersioneSoftware=E
Note=x
NumVersioneProtocollo=200
DataVersioneProtocollo=01012010
TipoCollegamento=RETE
CircolareApplicata=F
CodErrore=
DataMisura=29022024
InizioMisura=080000
FineMisura=081500
Operatore=G
[SospensioniAsse_1]
Aderenza%Sx=60
Aderenza%Dx=55
Differenza%=05
";

const GAS_TEXT: &str = "[AnalisiGas]
MarcaAnalizzatore=MA
TipoAnalizzatore=TA
NumOmologaAnalizzatore=OA
NumSerieAnalizzatore=SA
NumVersSoftwareAnalizzatore=VA
DataScadenzaAnalizzatore=01012030
MarcaContagiri=MC
TipoContagiri=TC
NumOmologaContagiri=OC
NumSerieContagiri=SC
NumVersioneSoftwareContagiri=VC
DataScadenzaContagiri=01012030
TipoCollegamentoContagiri=INTEGRATO
NumVersioneProtocolloContagiri=
MarcaProvaVelocita=
TipoProvaVelocita=
NumOmologaProvaVelocita=
NumSerieProvaVelocita=
NumVersioneSoftwareProvaVelocita=
NumVersioneProtocolloProvaVelocita=
DataScadenzaProvaVelocita=
Note=
NumVersioneProtocollo=200
DataVersioneProtocollo=01012010
TipoCollegamento=RS SENZA ESITO
CircolareApplicata=CA
IDChiaveRS=
DataRegChiaveRS=
IDChiaveContagiriRS=
DataRegChiaveContagiriRS=
IDChiaveProvaVelocitaRS=
DataRegChiaveProvaVelocitaRS=
ChecksumRS=c
ModuloChiaveRS=
EsponenteChiaveRS=
ChecksumContagiriRS=
ModuloChiaveContagiriRS=
EsponenteChiaveContagiriRS=
ChecksumProvaVelocitaRS=
ModuloChiaveProvaVelocitaRS=
EsponenteChiaveProvaVelocitaRS=
CodErrore=
DataMisura=29022024
InizioMisura=080000
FineMisura=081500
Operatore=G
[AnalisiGasAlimentazione_1]
COMin=0.123
COCorrettoMin=0.124
CO2Min=14.50
HCMin=100
O2Min=0.50
NumGiriMotoreMin=#850
COMinAcc=0.100
";

fn text(lines: &str) -> Vec<u8> {
    lines.replace('\n', "\r\n").into_bytes()
}

fn seven() -> [&'static [u8]; 7] {
    [b"MA", b"TA", b"OA", b"SA", b"01012030", b"VA", b"200"]
}

/// A lawful set with all slices but opacity.
fn sample() -> Set {
    Set {
        stem: b"AA123456".to_vec(),
        slices: [
            text(AC2_TEXT),
            text(ACC_TEXT),
            text(DRIFT_TEXT),
            text(SUSPENSION_TEXT),
            text(GAS_TEXT),
            answer(b"1", seven()),
            Vec::new(),
        ],
    }
}

/// The sample with `from` replaced by `to` in a file.
fn changed(file: u32, from: &str, to: &str) -> Set {
    let mut set = sample();
    replace(&mut set, file, from, to);
    set
}

fn replace(set: &mut Set, file: u32, from: &str, to: &str) {
    let slice = set.slice_mut(file);
    let before = String::from_utf8(slice.clone()).expect("a text");
    let after = before.replacen(&from.replace('\n', "\r\n"), &to.replace('\n', "\r\n"), 1);
    assert_ne!(before, after, "{from} is not in file {file}");
    *slice = after.into_bytes();
}

fn judged_with(set: &Set, places: Vec<u32>) -> Outcome {
    let call = Call::Judge {
        set: set.clone(),
        places,
    };
    made(&call)
}

/// What comes of a call, by the reference and, with the feature `library`, the library alike.
fn made(call: &Call) -> Outcome {
    let outcome = make(&Reference, call);
    #[cfg(feature = "library")]
    assert_eq!(make(&outside::library::Library, call), outcome);
    outcome
}

fn judged(set: &Set) -> Outcome {
    judged_with(set, places_before(PLACES))
}

/// The first entry of each file among those of all files.
const FIRST_ENTRIES: [(u32, usize); 6] = [
    (AC2, 0),
    (ACC, 12),
    (DRIFT, 18),
    (SUSPENSION, 43),
    (GAS, 86),
    (OPACITY, 139),
];

/// The three numbers of an entry among the places.
const START: usize = 0;
const LENGTH: usize = 1;
const LINE: usize = 2;

/// The place of a number of an entry, by its number among the entries of all files, from 0.
fn place(entry: usize, number: usize) -> usize {
    3 * entry + number
}

/// Start, length and line of an entry.
fn triple(places: &[u32], entry: usize) -> [u32; 3] {
    [START, LENGTH, LINE].map(|number| places[place(entry, number)])
}

/// Number, file and line of the answer.
fn refusal(outcome: &Outcome) -> (u32, u32, u32) {
    (outcome.answer[0], outcome.answer[1], outcome.answer[2])
}

fn assert_refused(set: &Set, right: (u32, u32, u32)) {
    let outcome = judged(set);
    assert_eq!(refusal(&outcome), right);
    assert_eq!(outcome.returned, right.0);
    assert!(outcome.answer[3..].iter().all(|number| *number == 0));
    assert!(outcome.places.iter().all(|place| *place == 0));
}

fn assert_accepted(set: &Set) {
    assert_eq!(refusal(&judged(set)), (0, 0, 0));
}

fn read(file: u32, text: &[u8], places: usize) -> Outcome {
    let call = Call::Read {
        file,
        text: text.to_vec(),
        places: places_before(places),
    };
    made(&call)
}

fn written(text: &[u8], places: &[u32], file: u32, axles: u32, output: usize) -> Outcome {
    let call = Call::Write {
        text: text.to_vec(),
        places: places.to_vec(),
        file,
        axles,
        output: vec![0xAA; output],
    };
    made(&call)
}

#[test]
fn the_sample_is_accepted() {
    let outcome = judged_with(&sample(), places_before(PLACES + 22));
    assert_eq!(outcome.returned, 0);
    // Axle counts 2 and 1, drift marked, the idle speed entered by hand, the names compared, the lengths.
    let right = [0, 0, 0, 2, 1, 1, 0, 0, 0, 1, 1488, 900, 900, 900, 0, 0];
    assert_eq!(outcome.answer, right);
    assert_eq!(
        outcome.places[PLACES..],
        places_before(PLACES + 22)[PLACES..]
    );
    // TargaNominale, the start after `=`; CodiceCIC, empty.
    assert_eq!(triple(&outcome.places, 0), [37, 7, 2]);
    let cic = AC2_TEXT.replace('\n', "\r\n").find("CodiceCIC=").unwrap() + 10;
    assert_eq!(triple(&outcome.places, 3), [cic as u32, 0, 5]);
    // Drift: axles by number, not as they arrive; axle 3 is not there.
    let axle = |n: usize| {
        let [start, length, line] = triple(&outcome.places, 18 + 16 + n - 1);
        let end = (start + length) as usize;
        (text(DRIFT_TEXT)[start as usize..end].to_vec(), line)
    };
    assert_eq!(axle(1), (b"-5.00".to_vec(), 21));
    assert_eq!(axle(2), (b"-0.00".to_vec(), 2));
    assert_eq!(outcome.places[place(36, 0)..place(43, 0)], [0; 3 * 7]);
}

#[test]
fn the_tables_have_the_files_first_triples() {
    let first_places = FIRST_ENTRIES.map(|(file, _)| first_place(file));
    assert_eq!(first_places, [0, 36, 54, 129, 258, 417]);
    let mut entries = 0;
    for (file, first) in FIRST_ENTRIES {
        assert_eq!(table(file).first_triple, first);
        assert_eq!(entries, first);
        entries += table(file).most_entries();
    }
    assert_eq!(3 * entries, 582);
    assert_eq!(PLACES, 582);
}

#[test]
fn row_1_places_too_short() {
    let outcome = judged_with(&sample(), places_before(PLACES - 1));
    assert_eq!(refusal(&outcome), (1, 0, 0));
    assert_eq!(outcome.places, places_before(PLACES - 1));
}

#[test]
fn row_2_stem() {
    for stem in ["AA12345", "AA1234567", "aA123456", "A1234567", ""] {
        let mut set = sample();
        set.stem = stem.as_bytes().to_vec();
        assert_refused(&set, (2, 0, 0));
    }
}

#[test]
fn row_3_file_too_long() {
    let mut set = sample();
    set.slices[2] = vec![b'x'; 16_385];
    assert_refused(&set, (3, 3, 0));
    set.slices[2] = vec![b'x'; 16_384];
    assert_refused(&set, (4, 3, 1));
}

#[test]
fn row_4_line_form() {
    assert_refused(&changed(3, "Marca=A", "Marca"), (4, 3, 4));
    // An entry before any heading, an empty line, no CR LF at the end, heading forms.
    assert_refused(&changed(3, "[DerivaAsse_2]\n", ""), (4, 3, 1));
    assert_refused(&changed(3, "Tipo=B\n", "Tipo=B\n\n"), (4, 3, 6));
    assert_refused(&changed(3, "-5.00\n", "-5.00"), (4, 3, 21));
    for heading in ["[", "[x", "[Deriva] "] {
        assert_refused(&changed(3, "[Deriva]", heading), (4, 3, 3));
    }
    let long = |length: usize| "x".repeat(length - "Note=".len());
    let note = |length| changed(3, "Note=", &format!("Note={}", long(length)));
    assert_refused(&note(513), (4, 3, 10));
    assert_refused(&note(512), (9, 3, 10));
}

#[test]
fn row_5_heading() {
    for heading in [
        "[DerivaAsse_0]",
        "[DerivaAsse_10]",
        "[DerivaAsse_01]",
        "[]",
        "[a=b]",
    ] {
        assert_refused(&changed(3, "[DerivaAsse_2]", heading), (5, 3, 1));
    }
    assert_refused(&changed(3, "[DerivaAsse_2]", "[DerivaAsse_1]"), (5, 3, 20));
    assert_refused(&changed(5, "[AnalisiGas]", "[GasAnalysis]"), (5, 5, 1));
}

#[test]
fn row_6_entry() {
    assert_refused(&changed(3, "Note=\n", "Note=\nNote=\n"), (6, 3, 11));
    assert_refused(&changed(1, "TargaNominale=", "Targa="), (6, 1, 2));
    assert_refused(&changed(3, "Marca=A", "marca=A"), (6, 3, 4));
    assert_refused(&changed(3, "Marca=A", "=A"), (6, 3, 4));
    assert_refused(&changed(3, "Marca=A", "Deriva=1.00"), (6, 3, 4));
}

#[test]
fn row_7_section() {
    assert_refused(&changed(3, "[DerivaAsse_1]\nDeriva=-5.00\n", ""), (7, 3, 0));
    let gas = GAS_TEXT.find("[AnalisiGasAlimentazione_1]").unwrap();
    assert_refused(&changed(5, &GAS_TEXT[gas..], ""), (7, 5, 0));
    let axle = SUSPENSION_TEXT.find("[SospensioniAsse_1]").unwrap();
    assert_refused(&changed(4, &SUSPENSION_TEXT[axle..], ""), (7, 4, 0));
}

#[test]
fn row_8_entry_absent() {
    assert_refused(&changed(3, "Tipo=B\n", ""), (8, 3, 3));
    // In entry order: the fixed section before the axles.
    let mut set = changed(3, "Deriva=-0.00\n", "");
    assert_refused(&set, (8, 3, 1));
    replace(&mut set, 3, "Operatore=G\n", "");
    assert_refused(&set, (8, 3, 2));
}

#[test]
fn row_9_kind() {
    assert_refused(&changed(3, "Deriva=-5.00", "Deriva=5.0"), (9, 3, 21));
    // In entry order, and before all of 10.
    let mut set = changed(3, "Deriva=-0.00", "Deriva=100.00");
    replace(&mut set, 3, "Deriva=-5.00", "Deriva=+5.00");
    replace(&mut set, 3, "Marca=A", "Marca=");
    assert_refused(&set, (9, 3, 21));
    // Also where it is not due.
    assert_refused(&changed(1, "Turbo=", "Turbo=X"), (9, 1, 8));
}

#[test]
fn row_10_due() {
    assert_refused(&changed(3, "Marca=A", "Marca="), (10, 3, 4));
    assert_refused(&changed(1, "Turbo=", "Turbo=S"), (10, 1, 8));
    assert_refused(&changed(3, "Deriva=-5.00", "Deriva="), (10, 3, 21));
    assert_refused(&changed(5, "COMinAcc=0.100", "COMinAcc="), (10, 5, 55));
}

#[test]
fn row_11_slices() {
    let without = |slice: usize| {
        let mut set = sample();
        set.slices[slice - 1].clear();
        set
    };
    assert_refused(&without(1), (11, 1, 0));
    assert_accepted(&without(2));
    assert_accepted(&without(3));
    assert_accepted(&without(4));
    assert_refused(&without(5), (11, 5, 0));
    assert_refused(&without(6), (11, 6, 0));
    let mut other_fuel = changed(
        1,
        "=BENZINA\nTurbo=\nCorrettorePressione=",
        "=GPL\nTurbo=\nCorrettorePressione=",
    );
    replace(&mut other_fuel, 1, "91/441/CEE", "");
    replace(&mut other_fuel, 2, "BENZINA CAT", "GPL");
    assert_refused(&other_fuel, (11, 5, 0));
    other_fuel.slices[4].clear();
    assert_refused(&other_fuel, (11, 6, 0));
    other_fuel.slices[5].clear();
    assert_accepted(&other_fuel);
    // 02, 1/14: the mark is unset where gas is not given.
    assert_eq!(judged(&other_fuel).answer[9], 0);
}

/// The sample's AC2 as that of a category L with ACC given.
fn motorcycle() -> Set {
    let mut set = changed(1, "=LEGGERO\n", "=MOTOVEICOLO\n");
    replace(&mut set, 1, "=M1\n", "=L3e\n");
    replace(&mut set, 1, "91/441/CEE", "");
    replace(&mut set, 1, "GasMotociclo=", "GasMotociclo=97/24/CE");
    replace(&mut set, 5, "COMinAcc=0.100", "COMinAcc=");
    set
}

#[test]
fn row_11_acc_with_l() {
    let mut set = motorcycle();
    assert_refused(&set, (11, 2, 0));
    set.stem = b"AA912345".to_vec();
    assert_accepted(&set);
    // Not read, even if too long; its triples are 0.
    set.slices[1] = vec![b'x'; 16_385];
    assert_accepted(&set);
    assert_eq!(judged(&set).places[36..54], [0; 18]);
    set.stem = b"AA192345".to_vec();
    assert_refused(&set, (11, 2, 0));
}

#[test]
fn row_12_bookings() {
    assert_refused(&changed(1, "LEGGERO", "PESANTE"), (12, 1, 3));
    assert_refused(&changed(1, "ELETTRICO", "NON PRESENTE"), (12, 1, 12));
    assert_refused(&changed(2, "LEGGERO", "PESANTE"), (12, 2, 2));
    assert_refused(&changed(2, "AUTOVETTURA", "AUTOBUS"), (12, 2, 3));
    assert_refused(&changed(2, "1990", "1991"), (12, 2, 4));
    assert_refused(&changed(2, "BENZINA CAT", "BENZINA"), (12, 2, 5));
    assert_refused(&changed(2, "=MANO", "=ELETTRICO"), (12, 2, 6));
    assert_accepted(&changed(2, "=MANO", "=PEDALE"));
    assert_refused(
        &changed(2, "NumAssiStazionamento=1", "NumAssiStazionamento=2"),
        (12, 2, 7),
    );
}

#[test]
fn row_13_difference() {
    assert_refused(&changed(4, "Differenza%=05", "Differenza%=6"), (13, 4, 21));
    // The lowest such axle, not the first line.
    let axle_2 = "[SospensioniAsse_2]\nAderenza%Sx=1\nAderenza%Dx=2\nDifferenza%=9\n";
    let mut set = changed(4, "[Sospensioni]", &format!("{axle_2}[Sospensioni]"));
    assert_refused(&set, (13, 4, 4));
    replace(&mut set, 4, "Differenza%=05", "Differenza%=6");
    assert_refused(&set, (13, 4, 25));
}

#[test]
fn rows_14_and_15_identification() {
    let with = |identification: Vec<u8>| {
        let mut set = sample();
        set.slices[5] = identification;
        set
    };
    for address in ["0", "01", "999"] {
        assert_accepted(&with(answer(address.as_bytes(), seven())));
    }
    for address in ["", "1234", "a", "-1"] {
        assert_refused(&with(answer(address.as_bytes(), seven())), (14, 6, 0));
    }
    let mut other = seven();
    other[1] = b"TB";
    assert_refused(&with(answer(b"1", other)), (15, 6, 0));
    other[1] = b"";
    assert_refused(&with(answer(b"1", other)), (14, 6, 0));
    let mut lower = answer(b"1", seven());
    let length = lower.len();
    let right = lower[length - 3..length - 1].to_vec();
    lower[length - 3..length - 1].make_ascii_lowercase();
    assert_ne!(
        lower[length - 3..length - 1],
        right[..],
        "no letter in the checksum"
    );
    assert_refused(&with(lower), (14, 6, 0));
    // Summing 02 hex into the checksum.
    let mut summed = answer(b"1", seven());
    let wrong = checksum(&summed[..length - 3]);
    summed[length - 3..length - 1].copy_from_slice(&wrong);
    assert_refused(&with(summed), (14, 6, 0));
}

#[test]
fn row_16_file_and_axles() {
    let text = text(AC2_TEXT);
    for file in [0, 6, 8, 200, u32::MAX] {
        let outcome = read(file, &text, PLACES);
        assert_eq!(refusal(&outcome), (16, file, 0));
        assert_eq!(outcome.places, [0; PLACES]);
        assert_eq!(
            refusal(&written(&text, &[0; PLACES], file, 0, 4000)),
            (16, file, 0)
        );
    }
    for (file, axles) in [
        (1, 1),
        (2, 9),
        (3, 0),
        (3, 10),
        (4, 0),
        (4, 10),
        (5, 1),
        (7, 1),
    ] {
        let outcome = written(&text, &[0; PLACES], file, axles, 4000);
        assert_eq!(refusal(&outcome), (16, file, 0));
    }
}

#[test]
fn row_17_pair_outside() {
    // Start 9, text 8, length 0.
    let mut places = vec![0; PLACES];
    places[START] = 9;
    assert_eq!(
        refusal(&written(&[b'x'; 8], &places, 1, 0, 4000)),
        (17, 1, 2)
    );
    places[START] = 8;
    assert_eq!(written(&[b'x'; 8], &places, 1, 0, 4000).returned, 0);
    // No wrap at 32 bits.
    places[START] = u32::MAX;
    places[LENGTH] = 1;
    assert_eq!(
        refusal(&written(&[b'x'; 8], &places, 1, 0, 4000)),
        (17, 1, 2)
    );
    // Triples of axles past the count are not looked at; the line of axle 2's entry is 21.
    let mut places = vec![0; PLACES];
    places[place(18 + 16 + 1, START)] = 1;
    assert_eq!(written(b"", &places, 3, 1, 4000).returned, 0);
    assert_eq!(refusal(&written(b"", &places, 3, 2, 4000)), (17, 3, 21));
}

#[test]
fn row_18_output_too_short() {
    let text = text(AC2_TEXT);
    let places = read(1, &text, PLACES).places;
    for size in [0, text.len() - 1] {
        let outcome = written(&text, &places, 1, 0, size);
        assert_eq!(refusal(&outcome), (18, 1, 0));
        assert_eq!(outcome.output, vec![0xAA; size]);
    }
    for more in [0, 1, 100] {
        let outcome = written(&text, &places, 1, 0, text.len() + more);
        assert_eq!(outcome.answer[..4], [0, 0, 0, text.len() as u32]);
        assert_eq!(outcome.output[..text.len()], text[..]);
        assert_eq!(outcome.output[text.len()..], vec![0xAA; more]);
    }
}

#[test]
fn writing_judges_1_16_17_9_18_in_this_order() {
    let text = text(AC2_TEXT);
    let mut places = read(1, &text, PLACES).places;
    assert_eq!(
        refusal(&written(&text, &places[..PLACES - 1], 6, 0, 0)),
        (1, 0, 0)
    );
    places[place(4, LENGTH)] = 7; // DataPrimaImm of seven digits.
    places[place(11, START)] = 1 << 20; // PosAssiStaz outside.
    assert_eq!(refusal(&written(&text, &places, 1, 1, 0)), (16, 1, 0));
    assert_eq!(refusal(&written(&text, &places, 1, 0, 0)), (17, 1, 13));
    places[place(11, START)] = 0;
    places[place(11, LENGTH)] = 0;
    assert_eq!(refusal(&written(&text, &places, 1, 0, 0)), (9, 1, 6));
    places[place(4, LENGTH)] = 8;
    assert_eq!(refusal(&written(&text, &places, 1, 0, 0)), (18, 1, 0));
}

#[test]
fn one_file_alone() {
    let acc = text(ACC_TEXT);
    assert_eq!(refusal(&read(2, &acc, PLACES - 1)), (1, 0, 0));
    assert_eq!(refusal(&read(2, b"", PLACES)), (11, 2, 0));
    let outcome = read(2, &acc, PLACES + 2);
    assert_eq!(outcome.answer[..4], [0, 0, 0, 0]);
    assert_eq!(outcome.places[..36], [0; 36]);
    assert_eq!(outcome.places[36..39], [35, 7, 2]);
    assert_eq!(
        outcome.places[PLACES..],
        places_before(PLACES + 2)[PLACES..]
    );
    assert_eq!(read(3, &text(DRIFT_TEXT), PLACES).answer[..4], [0, 0, 0, 2]);
    // No 10, 12 or 13.
    let empty = text(&DRIFT_TEXT.replace("Marca=A", "Marca="));
    assert_eq!(read(3, &empty, PLACES).returned, 0);
    let difference = text(&SUSPENSION_TEXT.replace("=05", "=06"));
    assert_eq!(read(4, &difference, PLACES).returned, 0);
    let drift = text(&DRIFT_TEXT.replace("-5.00", "5.0"));
    let outcome = read(3, &drift, PLACES);
    assert_eq!(refusal(&outcome), (9, 3, 21));
    assert_eq!(outcome.places, [0; PLACES]);
}

#[test]
fn established_samples() {
    let day = |text: &str| fits(Kind::Date, text.as_bytes());
    let first = |text: &str| fits(Kind::FirstRegistration, text.as_bytes());
    let fuel = |date: &str| old_fuel(b"BENZINA", b"RT1902", date.as_bytes(), b"", b"");
    // GAS, 1, VA with their separators.
    let between = b"GAS\x171\x17VA";
    let sum: u32 = between.iter().map(|byte| u32::from(*byte)).sum();
    assert_eq!(sum, 0x1D1);
    assert_eq!(&checksum(between), b"D1");
    assert_eq!(drift_hundredths(b"-5.00"), Some(-500));
    assert_eq!(drift_hundredths(b"99.99"), Some(9999));
    assert_eq!(drift_hundredths(b"-99.99"), Some(-9999));
    assert_eq!(drift_hundredths(b"-0.00"), Some(0));
    assert_eq!(drift_hundredths(b"100.00"), None);
    assert!(first("00031994") && !first("02001997"));
    assert!(day("29022000") && !day("29021900"));
    assert!(!fits(Kind::Time, b"240000") && fits(Kind::Time, b"235959"));
    assert!(fits(Kind::Revs, b"#850"));
    assert_eq!(fuel("30091986"), Some(&b"BENZINA<86"[..]));
    assert_eq!(fuel("01101986"), Some(&b"BENZINA NO CAT"[..]));
    assert_eq!(fuel("01072002"), None);
}

#[test]
fn readings_of_kinds() {
    let all = |kind: Kind, right: &[&str], wrong: &[&str]| {
        for text in right {
            assert!(fits(kind, text.as_bytes()), "{text} is a {kind:?}");
        }
        for text in wrong {
            assert!(!fits(kind, text.as_bytes()), "{text} is no {kind:?}");
        }
    };
    all(Kind::Number(3), &["0", "007", "999"], &["1234", "1a", "-1"]);
    let two = Kind::Decimal {
        decimals: 2,
        width: 5,
    };
    all(
        two,
        &["0.00", "09.99"],
        &["100.00", ".50", "1.5", "1.500", "1,50"],
    );
    all(
        Kind::Time,
        &["000000"],
        &["126000", "125960", "12000", "1200000"],
    );
    all(
        Kind::FirstRegistration,
        &["00001994", "00121994", "01011900", "31122099"],
        &["00131994", "00001899", "00002100", "31041990", "0003199"],
    );
    all(
        Kind::Revs,
        &["#12345", "12345", "0"],
        &["#", "123456", "#123456", "##1"],
    );
    all(
        Kind::Drift,
        &["00.00", "05.00", "-00.00"],
        &["+5.00", ".50", "5", "-"],
    );
    all(Kind::Text(10), &[" ", "a=[]b"], &["12345678901", "a\x7F"]);
    all(Kind::Exact(5), &["12345"], &["1234", "123456"]);
}

/// A category of condition P, with its bench of this version, and neither key nor checksum.
fn moped(version: &str) -> Set {
    let mut set = motorcycle();
    set.slices[1].clear();
    replace(&mut set, 1, "=L3e\n", "=L1e\n");
    replace(&mut set, 1, "97/24/CE", "");
    for (name, value) in [
        ("Marca", "x"),
        ("Tipo", "x"),
        ("NumOmologa", "x"),
        ("NumSerie", "x"),
        ("NumVersioneSoftware", "x"),
        ("DataScadenza", "01012030"),
        ("NumVersioneProtocollo", version),
    ] {
        let entry = format!("\n{name}ProvaVelocita=");
        replace(&mut set, 5, &entry, &format!("{entry}{value}"));
    }
    set
}

#[test]
fn the_version_binds_the_whole_condition_p() {
    // L1e with bench version 200: checksum due, key not.
    let set = moped("200");
    assert_refused(&set, (10, 5, 40));
    let mut checksum = set.clone();
    replace(
        &mut checksum,
        5,
        "ChecksumProvaVelocitaRS=",
        "ChecksumProvaVelocitaRS=c",
    );
    assert_accepted(&checksum);
    replace(
        &mut checksum,
        5,
        "IDChiaveProvaVelocitaRS=",
        "IDChiaveProvaVelocitaRS=12345",
    );
    assert_refused(&checksum, (10, 5, 32));
    // With 201 neither is due.
    assert_accepted(&moped("201"));
}

#[test]
fn the_longest_files_by_kinds() {
    let mut random = Random::new(1);
    let mut longest = |kind: Kind| match kind {
        Kind::Word(words) => words.iter().map(|word| word.len()).max().unwrap_or(0),
        _ => value(&mut random, kind, Size::Longest).len(),
    };
    let mut longest_line = 0;
    let mut lengths = Vec::new();
    for file in FILES {
        let mut length = 0;
        for section in &table(file).sections {
            length += section.heading.len() + 2;
            for entry in &section.entries {
                let line = entry.name.len() + 1 + longest(entry.kind);
                longest_line = longest_line.max(line);
                length += line + 2;
            }
        }
        lengths.push(length);
    }
    assert_eq!(lengths, [471, 396, 1401, 1748, 3597, 2957]);
    assert_eq!(longest_line, 325);
}

#[test]
fn the_reference_reads_the_answer_that_it_makes() {
    let mut given = 0;
    for seed in 0..300 {
        let record = record(&mut Random::new(seed));
        let bytes = &record.set.slices[5];
        if bytes.is_empty() {
            continue;
        }
        given += 1;
        assert!(bytes.len() <= 352);
        let (address, seven) = fields(bytes).expect("a right answer");
        let gas = record.file(GAS).expect("gas is given");
        assert_eq!(seven, SEVEN_ENTRIES.map(|name| gas.get(name)));
        assert_eq!(&answer(address, seven), bytes);
    }
    assert!(given > 10);
}

/// The sample's gas with this idle speed.
fn with_speed(speed: &str) -> Set {
    let entry = "NumGiriMotoreMin=";
    changed(GAS, &format!("{entry}#850"), &format!("{entry}{speed}"))
}

#[test]
fn a_revs_value_is_read_with_its_mark() {
    let read = |number, by_hand| Some(Revs { number, by_hand });
    assert_eq!(revs(b"00850"), read(850, false));
    assert_eq!(revs(b"#00850"), read(850, true));
    assert_eq!(revs(b"#99999"), read(99_999, true));
    assert_eq!(revs(b"0"), read(0, false));
    for wrong in ["", "#", "##850", "850#", "#123456", "# 850"] {
        assert_eq!(revs(wrong.as_bytes()), None, "{wrong}");
    }
}

#[test]
fn the_mark_of_the_idle_speed() {
    for (speed, mark) in [("850", 0), ("00850", 0), ("#0", 1), ("#00850", 1)] {
        let set = with_speed(speed);
        let alone = read(GAS, set.slice(GAS), PLACES);
        assert_eq!(judged(&set).answer[8..10], [0, mark]);
        assert_eq!(
            alone.answer[3..],
            [0, 0, 0, 0, 0, 0, mark, 0, 0, 0, 0, 0, 0]
        );
        // Writing has no mark; what it wrote has.
        let outcome = written(set.slice(GAS), &alone.places, GAS, 0, 4000);
        assert!(outcome.answer[4..].iter().all(|number| *number == 0));
        let length = outcome.answer[3] as usize;
        let again = read(GAS, &outcome.output[..length], PLACES);
        assert_eq!(again.answer, alone.answer);
    }
    for speed in ["##850", "#"] {
        assert_refused(&with_speed(speed), (9, 5, 54));
    }
    // Empty: due in a set, and no mark where gas is read alone.
    let empty = with_speed("");
    assert_refused(&empty, (10, 5, 54));
    assert_eq!(read(GAS, empty.slice(GAS), PLACES).answer, [0; 16]);
}

#[test]
fn no_other_value_has_the_mark() {
    for (file, entry) in [
        (AC2, "TargaNominale="),
        (ACC, "DescrizioneVeicolo="),
        (DRIFT, "Note="),
        (SUSPENSION, "Operatore="),
    ] {
        let set = changed(file, entry, &format!("{entry}#"));
        let outcome = read(file, set.slice(file), PLACES);
        assert_eq!((outcome.returned, outcome.answer[9]), (0, 0), "{entry}");
    }
    let mut set = with_speed("850");
    for entry in ["MarcaContagiri=", "Note=", "ChecksumRS=", "Operatore="] {
        replace(&mut set, GAS, entry, &format!("{entry}#"));
        assert_accepted(&set);
        assert_eq!(judged(&set).answer[9], 0, "{entry}");
    }
}
