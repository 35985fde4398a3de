//! The samples of 02, 2/14: the opacity file.

use outside::judge::{column_before, make, places_before, Call, Reference, Set};
use outside::mutator::files::set_value;
use outside::reference::kinds::{fits, Kind};
use outside::reference::tables::{table, AC2, ACC, GAS, IDENTIFICATION, OPACITY};
use outside::reference::PLACES;

use super::{
    assert_accepted, assert_refused, judged, judged_with, motorcycle, place, read, refusal,
    replace, sample, text, triple, written, LENGTH, START,
};

/// In printed order, so that entry n of 001, 3.3.3.7 stands at line n + 1.
const OPACITY_TEXT: &str = "[AnalisiOpacita]
MarcaOpacimetro=MO
TipoOpacimetro=TO
NumOmologaOpacimetro=OO
NumSerieOpacimetro=SO
NumVersSoftwareOpacimetro=VO
DataScadenzaOpacimetro=01012030
MarcaContagiri=MC
TipoContagiri=TC
NumOmologaContagiri=OC
NumSerieContagiri=SC
NumVersSoftwareContagiri=VC
DataScadenzaContagiri=01012030
TipoCollegamentoContagiri=INTEGRATO
NumVersioneProtocolloContagiri=
Targa=AB123CD
NumGiriMotoreMax=#4500
LimiteK=2.5
DirettivaEmissioni=98/69/CE
NumGiriMotoreMinMis=#800
NumGiriMotoreMaxMis=#4400
TempOlioMotore=#80.5
TempMinOlioMotore=
ValoreK1=0.51
ValoreK2=0.52
ValoreK3=0.53
ValoreK4=
ValoreK5=
ValoreK6=
ValoreK7=
ValoreK8=
OpacitaMedia=
PressAtmosferica=101.3
TempAmbiente=-5
UmiditaRelativa=#60
Esito=R
Note=
NumVersioneProtocollo=201
DataVersioneProtocollo=01012010
TipoCollegamento=DIR
CircolareApplicata=CA
IDChiaveRS=
DataRegChiaveRS=
IDChiaveContagiriRS=
DataRegChiaveContagiriRS=
ChecksumRS=
ModuloChiaveRS=
EsponenteChiaveRS=
ChecksumContagiriRS=
ModuloChiaveContagiriRS=
EsponenteChiaveContagiriRS=
CodErrore=
DataMisura=29022024
InizioMisura=080000
FineMisura=081500
Operatore=G
";

/// A lawful set of a diesel M1, with all slices but gas and 6.
pub fn diesel() -> Set {
    let mut set = sample();
    replace(
        &mut set,
        AC2,
        "=BENZINA\nTurbo=\nCorrettorePressione=",
        "=DIESEL\nTurbo=S\nCorrettorePressione=N",
    );
    replace(&mut set, AC2, "91/441/CEE", "");
    replace(&mut set, ACC, "BENZINA CAT", "DIESEL TURBO COMPRESSO");
    set.slice_mut(GAS).clear();
    set.slice_mut(IDENTIFICATION).clear();
    *set.slice_mut(OPACITY) = text(OPACITY_TEXT);
    set
}

/// The diesel with these replacements in opacity.
fn changed(replacements: &[(&str, &str)]) -> Set {
    let mut set = diesel();
    for (from, to) in replacements {
        replace(&mut set, OPACITY, from, to);
    }
    set
}

/// The diesel with another value of an entry of opacity.
fn with_value(name: &str, value: &str) -> Set {
    let mut set = diesel();
    set_value(set.slice_mut(OPACITY), name, value.as_bytes());
    set
}

/// A set without its opacity.
fn without(mut set: Set) -> Set {
    set.slice_mut(OPACITY).clear();
    set
}

#[test]
fn a_diesel_with_opacity_is_accepted() {
    let outcome = judged_with(&diesel(), places_before(PLACES + 1));
    // Axle counts 2 and 1, drift marked; opacity's revs by hand set no mark. The names compared, the lengths.
    let right = [0, 0, 0, 2, 1, 1, 0, 0, 0, 0, 1919, 900, 900, 0, 900, 0];
    assert_eq!(outcome.answer, right);
    // Triples 139 to 193: the first and the last entry.
    assert_eq!(outcome.places[417..420], [34, 2, 2]);
    let last = text(OPACITY_TEXT).len() as u32 - 3;
    assert_eq!(triple(&outcome.places, 193), [last, 1, 56]);
    assert_eq!(outcome.places[579..582], [last, 1, 56]);
    assert_eq!(outcome.places[582..], places_before(583)[582..]);
    // Triples of gas, which is not given.
    assert_eq!(outcome.places[258..417], [0; 159]);
}

#[test]
fn the_entries_of_opacity_in_printed_order() {
    let [section] = &table(OPACITY).sections[..] else {
        panic!("one section");
    };
    let names: Vec<&str> = OPACITY_TEXT
        .lines()
        .filter_map(|line| Some(line.split_once('=')?.0))
        .collect();
    let listed: Vec<&str> = section.entries.iter().map(|entry| &*entry.name).collect();
    assert_eq!(section.heading, "[AnalisiOpacita]");
    assert_eq!(listed, names);
    assert_eq!(names.len(), 55);
}

#[test]
fn the_mark_of_opacity() {
    let outcome = judged(&with_value("CodErrore", "7"));
    assert_eq!(outcome.answer[5..10], [1, 0, 0, 1, 0]);
    assert_eq!(judged(&sample()).answer[8], 0);
}

#[test]
fn opacity_is_given_for_m_and_n_diesels() {
    assert_refused(&without(diesel()), (11, 7, 0));
    let mut truck = diesel();
    replace(&mut truck, AC2, "=M1\n", "=N1\n");
    replace(&mut truck, ACC, "AUTOVETTURA", "AUTOCARRO");
    assert_accepted(&truck);
    assert_refused(&without(truck), (11, 7, 0));
    // Petrol has gas, and no opacity.
    let mut petrol = sample();
    *petrol.slice_mut(OPACITY) = text(OPACITY_TEXT);
    assert_refused(&petrol, (11, 7, 0));
    // Another fuel, by its bytes.
    let mut other = diesel();
    replace(
        &mut other,
        AC2,
        "=DIESEL\nTurbo=S\nCorrettorePressione=N",
        "=DIESEL \nTurbo=\nCorrettorePressione=",
    );
    replace(&mut other, ACC, "DIESEL TURBO COMPRESSO", "DIESEL ");
    assert_refused(&other, (11, 7, 0));
    assert_accepted(&without(other));
}

#[test]
fn opacity_is_not_given_for_l_diesels() {
    let mut set = motorcycle();
    replace(
        &mut set,
        AC2,
        "=BENZINA\nTurbo=\nCorrettorePressione=",
        "=DIESEL\nTurbo=S\nCorrettorePressione=N",
    );
    replace(&mut set, AC2, "97/24/CE", "");
    set.slice_mut(ACC).clear();
    set.slice_mut(GAS).clear();
    set.slice_mut(IDENTIFICATION).clear();
    assert_accepted(&set);
    *set.slice_mut(OPACITY) = text(OPACITY_TEXT);
    assert_refused(&set, (11, 7, 0));
}

#[test]
fn slice_7_comes_after_slice_6() {
    let mut set = without(diesel());
    *set.slice_mut(IDENTIFICATION) = b"x".to_vec();
    assert_refused(&set, (11, 6, 0));
    // RS SENZA ESITO in opacity asks for no slice 6.
    let mut serial = with_value("TipoCollegamento", "RS SENZA ESITO");
    assert_accepted(&serial);
    *serial.slice_mut(IDENTIFICATION) = sample().slice(IDENTIFICATION).to_vec();
    assert_refused(&serial, (11, 6, 0));
}

#[test]
fn the_order_of_refusals_in_opacity() {
    let mut set = diesel();
    *set.slice_mut(OPACITY) = vec![b'x'; 16_385];
    assert_refused(&set, (3, 7, 0));
    assert_refused(
        &changed(&[("TipoOpacimetro=", "TipoOpacimetro")]),
        (4, 7, 3),
    );
    let heading = ("[AnalisiOpacita]", "[AnalisiGas]");
    assert_refused(&changed(&[heading]), (5, 7, 1));
    // The name that gas has.
    let name = ("NumVersSoftwareContagiri", "NumVersioneSoftwareContagiri");
    assert_refused(&changed(&[name]), (6, 7, 12));
    // All of 9 before all of 10, each in entry order.
    let mut set = changed(&[("=MO\n", "=\n"), ("LimiteK=2.5", "LimiteK=2.50")]);
    assert_refused(&set, (9, 7, 18));
    replace(&mut set, OPACITY, "LimiteK=2.50\n", "");
    assert_refused(&set, (8, 7, 1));
    assert_refused(&changed(&[("=MO\n", "=\n")]), (10, 7, 2));
}

/// Asserts the answers to values of an entry of opacity, which is entry `number` in printed order.
fn assert_values(number: u32, name: &str, right: &[&str], wrong: &[&str]) {
    for value in right {
        assert_eq!(
            refusal(&judged(&with_value(name, value))),
            (0, 0, 0),
            "{name}={value}"
        );
    }
    for value in wrong {
        let found = refusal(&judged(&with_value(name, value)));
        assert_eq!(found, (9, 7, number + 1), "{name}={value}");
    }
}

#[test]
fn kinds_of_opacity() {
    assert_values(
        13,
        "TipoCollegamentoContagiri",
        &["INTEGRATO"],
        &["INTERNO"],
    );
    assert_values(
        15,
        "Targa",
        &["AB12", "1234567890"],
        &["AB1", "12345678901"],
    );
    for (number, name) in [
        (16, "NumGiriMotoreMax"),
        (19, "NumGiriMotoreMinMis"),
        (20, "NumGiriMotoreMaxMis"),
    ] {
        assert_values(number, name, &["0", "#99999"], &["#", "##1", "123456"]);
    }
    // Not held to 2.5 or 3.0.
    assert_values(
        17,
        "LimiteK",
        &["0.0", "9.9"],
        &["10.0", "2.50", "2", "#2.5"],
    );
    for (number, name) in [(21, "TempOlioMotore"), (32, "PressAtmosferica")] {
        let right = ["0.0", "999.9", "#999.9", "#0.0"];
        assert_values(
            number,
            name,
            &right,
            &["#", "1000.0", "##1.0", "-1.0", "5", "5.55"],
        );
    }
    assert_values(22, "TempMinOlioMotore", &["80"], &["100", "#80", "-5"]);
    assert_values(
        23,
        "ValoreK1",
        &["0.00", "99.99"],
        &["100.00", "0.5", "#0.50"],
    );
    assert_values(
        34,
        "UmiditaRelativa",
        &["0", "999", "#999"],
        &["1000", "#", "-1", "5.0"],
    );
    assert_values(35, "Esito", &["R", "I", "N"], &["r", "S", "RR", "-"]);
}

#[test]
fn temperatures_from_99_below_to_999() {
    assert_values(
        33,
        "TempAmbiente",
        &["-0", "-05", "007", "#-99", "-99", "999", "#999", "0"],
        &[
            "5.5", "+5", "-100", "-#9", "1000", "-", "#", "#-", "##5", "--5", "#-100",
        ],
    );
}

#[test]
fn the_plate_of_ac2_has_one_byte_or_more() {
    let mut set = diesel();
    replace(&mut set, AC2, "=AB123CD", "=A");
    assert_accepted(&set);
    let plate = |length: usize| fits(Kind::Plate, &vec![b'#'; length]);
    assert_eq!([3, 4, 10, 11].map(plate), [false, true, true, false]);
}

#[test]
fn entries_due_always() {
    let section = &table(OPACITY).sections[0];
    for (entry, number) in section.entries.iter().zip(1..) {
        if !matches!(number, 14 | 22 | 26..=31 | 36 | 41..=51) {
            assert_refused(&with_value(&entry.name, ""), (10, 7, number + 1));
        }
    }
}

#[test]
fn entries_that_hang_on_data_outside_the_set() {
    for (name, value) in [
        ("TempMinOlioMotore", "80"),
        ("ValoreK4", "0.50"),
        ("ValoreK5", "0.50"),
        ("ValoreK6", "0.50"),
        ("ValoreK7", "0.50"),
        // No chain: K8 without K4 to K7.
        ("ValoreK8", "0.50"),
        ("OpacitaMedia", "0.50"),
        ("Note", "x"),
        ("CodErrore", "7"),
    ] {
        assert_accepted(&with_value(name, value));
        assert_accepted(&with_value(name, ""));
    }
}

/// Opacity of a device with a link and a version, without key and checksum.
fn with_device(device: &str, link: &str, version: &str) -> Set {
    let mut set = with_value(&format!("TipoCollegamento{device}"), link);
    let name = format!("NumVersioneProtocollo{device}");
    set_value(set.slice_mut(OPACITY), &name, version.as_bytes());
    set
}

#[test]
fn keys_and_checksums_hang_on_link_and_version() {
    // Each with the numbers of the key's entries and of the checksum.
    for (device, link, key, checksum) in [
        ("", "RS SENZA ESITO", [41, 42, 46, 47], 45),
        ("Contagiri", "ESTERNO", [43, 44, 49, 50], 48),
    ] {
        let checksum_name = format!("Checksum{device}RS");
        assert_accepted(&with_device(device, link, "199"));
        let mut set = with_device(device, link, "200");
        assert_refused(&set, (10, 7, checksum + 1));
        set_value(set.slice_mut(OPACITY), &checksum_name, b"c");
        assert_accepted(&set);
        let mut set = with_device(device, link, "210");
        for (number, name, value) in [
            (key[0], "IDChiave", "12345".to_string()),
            (key[1], "DataRegChiave", "01012020".to_string()),
            (key[2], "ModuloChiave", "m".repeat(172)),
            (key[3], "EsponenteChiave", "AQAB".to_string()),
        ] {
            assert_refused(&set, (10, 7, number + 1));
            let name = format!("{name}{device}RS");
            set_value(set.slice_mut(OPACITY), &name, value.as_bytes());
        }
        assert_accepted(&set);
        set_value(set.slice_mut(OPACITY), &checksum_name, b"c");
        assert_refused(&set, (10, 7, checksum + 1));
    }
    // Another link asks for neither.
    for version in ["200", "210"] {
        assert_accepted(&with_device("", "RETE", version));
    }
}

#[test]
fn the_counter_has_a_version_exactly_with_esterno() {
    assert_refused(&with_device("Contagiri", "ESTERNO", ""), (10, 7, 15));
    assert_accepted(&with_device("Contagiri", "ESTERNO", "201"));
    assert_refused(&with_device("Contagiri", "INTEGRATO", "201"), (10, 7, 15));
}

#[test]
fn number_9_stays_with_gas() {
    let text = text(OPACITY_TEXT);
    assert_eq!(judged(&diesel()).answer[9], 0);
    assert_eq!(read(OPACITY, &text, PLACES).answer, [0; 16]);
}

#[test]
fn file_7_read_alone_and_written_with_0_axles() {
    let text = text(OPACITY_TEXT);
    let alone = read(OPACITY, &text, PLACES);
    assert_eq!(alone.places[..417], [0; 417]);
    assert_eq!(alone.places[417..], judged(&diesel()).places[417..]);
    let outcome = written(&text, &alone.places, OPACITY, 0, 4000);
    let length = outcome.answer[3] as usize;
    assert_eq!(outcome.output[..length], text[..]);
    assert_eq!(
        refusal(&written(&text, &alone.places, OPACITY, 9, 4000)),
        (16, 7, 0)
    );
    // 17 and 9 with the line that the entry would have.
    let mut places = alone.places.clone();
    places[place(139 + 14, START)] = u32::MAX;
    assert_eq!(
        refusal(&written(&text, &places, OPACITY, 0, 4000)),
        (17, 7, 16)
    );
    let mut places = alone.places;
    places[place(139 + 14, LENGTH)] = 3;
    assert_eq!(
        refusal(&written(&text, &places, OPACITY, 0, 4000)),
        (9, 7, 16)
    );
    assert_eq!(refusal(&read(OPACITY, b"", PLACES)), (11, 7, 0));
}

#[test]
fn the_due_column_of_opacity() {
    let set = with_device("Contagiri", "ESTERNO", "210");
    let call = Call::Due {
        file: OPACITY,
        ac2: set.slice(AC2).to_vec(),
        text: set.slice(OPACITY).to_vec(),
        places: places_before(PLACES),
        column: column_before(56),
    };
    let outcome = make(&Reference, &call);
    assert_eq!(outcome.answer[..5], [0, 0, 0, 0, 55]);
    let numbers = |due: u32| -> Vec<usize> {
        let column = outcome.column.iter().zip(1..);
        let same = column.filter(|(found, _)| **found == due);
        same.map(|(_, number)| number).collect()
    };
    assert_eq!(numbers(3), [22, 26, 27, 28, 29, 30, 31, 36, 51]);
    assert_eq!(numbers(2), [41, 42, 45, 46, 47, 48]);
    assert_eq!(outcome.column[55..], column_before(56)[55..]);
}
