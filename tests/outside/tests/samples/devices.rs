//! The samples of 02, 5/14: devices in date, and measures over midnight.

use outside::dates::{Date, FIRST, LAST};
use outside::entries::due_dates;
use outside::judge::{column_before, places_before, Call, Set, SECONDS};
use outside::mutator::files::set_value;
use outside::reference::devices::day_number;
use outside::reference::tables::{
    AC2, ACC, DRIFT, GAS, IDENTIFICATION, OPACITY, RESULT_FILES, SUSPENSION,
};
use outside::reference::PLACES;

use super::opacity::diesel;
use super::{
    assert_accepted, assert_refused, judged, made, moped, motorcycle, read, refusal, sample,
    written,
};

/// A set that has a device, its file, its due date and the line of it.
type Device = (Set, u32, &'static str, u32);

fn devices() -> [Device; 7] {
    [
        (sample(), DRIFT, "DataScadenza", 8),
        (sample(), SUSPENSION, "DataScadenza", 6),
        (moped("201"), GAS, "DataScadenzaAnalizzatore", 7),
        (moped("201"), GAS, "DataScadenzaContagiri", 13),
        (moped("201"), GAS, "DataScadenzaProvaVelocita", 22),
        (diesel(), OPACITY, "DataScadenzaOpacimetro", 7),
        (diesel(), OPACITY, "DataScadenzaContagiri", 13),
    ]
}

/// Sets values of a file; gas's link asks for no identification answer, which would repeat a due date.
fn put(set: &mut Set, file: u32, values: &[(&str, &str)]) {
    for (name, value) in values {
        set_value(set.slice_mut(file), name, value.as_bytes());
    }
    if file == GAS {
        set_value(set.slice_mut(GAS), "TipoCollegamento", b"DIR");
        set_value(set.slice_mut(GAS), "ChecksumRS", b"");
        set.slice_mut(IDENTIFICATION).clear();
    }
}

/// A set with this measure in a file.
fn measured(mut set: Set, file: u32, [day, start, finish]: [&str; 3]) -> Set {
    let measure = [
        ("DataMisura", day),
        ("InizioMisura", start),
        ("FineMisura", finish),
    ];
    put(&mut set, file, &measure);
    set
}

fn due(mut set: Set, file: u32, name: &str, day: &str) -> Set {
    put(&mut set, file, &[(name, day)]);
    set
}

/// All due dates of a file as far off as can be.
fn due_last(mut set: Set, file: u32) -> Set {
    for name in due_dates(file) {
        put(&mut set, file, &[(name, "31122099")]);
    }
    set
}

/// A sample that has this file.
fn with_file(file: u32) -> Set {
    if file == OPACITY {
        diesel()
    } else {
        sample()
    }
}

#[test]
fn day_numbers() {
    for (day, number) in [
        ("01011900", 1),
        ("28021900", 59),
        ("01031900", 60),
        ("29021904", 1_520),
        ("29022000", 36_584),
        ("31122000", 36_890),
        ("31122099", 73_049),
    ] {
        assert_eq!(day_number(day.as_bytes()), number, "{day}");
    }
}

#[test]
fn each_next_day_is_one_more() {
    let (mut day, mut number) = (FIRST, 1);
    while day < LAST {
        assert_eq!(day_number(&day.digits()), number);
        assert_eq!(day.next().previous(), Some(day));
        (day, number) = (day.next(), number + 1);
    }
    assert_eq!((FIRST.previous(), number), (None, 73_049));
}

#[test]
fn a_measure_lasts_the_difference_modulo_a_day() {
    for (start, finish, seconds) in [
        ("235930", "000010", 40),
        ("235959", "000000", 1),
        ("080000", "081500", 900),
        ("095959", "100000", 1),
        ("120000", "120000", 0),
        ("000000", "000000", 0),
        ("000000", "235959", 86_399),
        ("000001", "000000", 86_399),
        ("235959", "235958", 86_399),
    ] {
        for (file, number) in RESULT_FILES.into_iter().zip(SECONDS..) {
            let set = measured(with_file(file), file, ["28022024", start, finish]);
            let answer = judged(&set).answer;
            let found = (answer[0], answer[number]);
            assert_eq!(found, (0, seconds), "file {file}, {start} to {finish}");
        }
    }
}

#[test]
fn each_file_has_a_length_of_its_own() {
    let times = [
        (DRIFT, "080001"),
        (SUSPENSION, "080002"),
        (GAS, "080003"),
        (OPACITY, "080004"),
    ];
    let lengths = |mut set: Set| {
        for (file, finish) in times {
            put(&mut set, file, &[("FineMisura", finish)]);
        }
        judged(&set).answer[SECONDS..].to_vec()
    };
    assert_eq!(lengths(sample()), [1, 2, 3, 0, 0]);
    assert_eq!(lengths(diesel()), [1, 2, 0, 4, 0]);
    for (file, left) in [(DRIFT, [0, 2, 0, 4, 0]), (SUSPENSION, [1, 0, 0, 4, 0])] {
        let mut set = diesel();
        set.slice_mut(file).clear();
        assert_eq!(lengths(set), left);
    }
}

#[test]
fn a_device_is_good_through_its_due_date() {
    for (set, file, name, line) in devices() {
        let set = measured(set, file, ["29022024", "080000", "081500"]);
        assert_accepted(&due(set.clone(), file, name, "29022024"));
        assert_refused(&due(set, file, name, "28022024"), (19, file, line));
    }
}

#[test]
fn a_due_date_covers_the_day_on_which_the_measure_ends() {
    for (set, file, name, line) in devices() {
        let set = measured(set, file, ["29022024", "235930", "000010"]);
        assert_accepted(&due(set.clone(), file, name, "01032024"));
        assert_refused(&due(set, file, name, "29022024"), (19, file, line));
    }
}

#[test]
fn equal_times_are_of_one_day() {
    for (set, file, name, _) in devices() {
        let set = measured(set, file, ["31121999", "235959", "235959"]);
        assert_accepted(&due(set, file, name, "31121999"));
    }
}

#[test]
fn ends_of_months_and_years() {
    for end in outside::devices::DAYS {
        let digits = |day: Date| String::from_utf8(day.digits()).expect("digits");
        for (set, file, name, line) in devices() {
            let set = due_last(set, file);
            let within = measured(set.clone(), file, [&digits(end), "080000", "081500"]);
            assert_accepted(&due(within.clone(), file, name, &digits(end)));
            let Some(before) = end.previous() else {
                continue;
            };
            let over_midnight = measured(set, file, [&digits(before), "235930", "000010"]);
            assert_accepted(&due(over_midnight.clone(), file, name, &digits(end)));
            for set in [within, over_midnight] {
                assert_refused(&due(set, file, name, &digits(before)), (19, file, line));
            }
        }
    }
}

#[test]
fn no_due_date_covers_the_night_behind_the_last_day() {
    for (set, file, _, _) in devices() {
        let mut set = measured(due_last(set, file), file, ["31122099", "235959", "235959"]);
        assert_accepted(&set);
        put(&mut set, file, &[("FineMisura", "000000")]);
        assert_eq!(judged(&set).answer[..2], [19, file]);
    }
}

#[test]
fn a_filled_error_code_relaxes_nothing() {
    for (set, file, name, line) in devices() {
        for code in ["", "7"] {
            let mut set = due(set.clone(), file, name, "28022024");
            put(&mut set, file, &[("CodErrore", code)]);
            assert_refused(&set, (19, file, line));
        }
    }
}

#[test]
fn an_integrated_rev_counter_has_a_due_date() {
    let name = "DataScadenzaContagiri";
    for (file, links) in [GAS, OPACITY].map(|file| (file, [("INTEGRATO", ""), ("ESTERNO", "201")]))
    {
        for (link, version) in links {
            let mut set = due(with_file(file), file, name, "28022024");
            let device = [
                ("TipoCollegamentoContagiri", link),
                ("NumVersioneProtocolloContagiri", version),
            ];
            put(&mut set, file, &device);
            assert_refused(&set, (19, file, 13));
        }
    }
}

#[test]
fn the_bench_is_judged_where_condition_p_holds() {
    let name = "DataScadenzaProvaVelocita";
    // Not where it is empty, as with L3e and another directive than NESSUNA.
    let mut motorcycle = motorcycle();
    motorcycle.slice_mut(ACC).clear();
    assert_accepted(&motorcycle);
    assert_refused(&due(motorcycle, GAS, name, "28022024"), (10, GAS, 22));
    assert_refused(&due(moped("201"), GAS, name, "28022024"), (19, GAS, 22));
    assert_refused(&due(moped("201"), GAS, name, ""), (10, GAS, 22));
}

#[test]
fn the_first_in_entry_order_is_named() {
    let early = "01012000";
    let mut set = moped("201");
    for (name, line) in [
        ("DataScadenzaProvaVelocita", 22),
        ("DataScadenzaContagiri", 13),
        ("DataScadenzaAnalizzatore", 7),
    ] {
        set = due(set, GAS, name, early);
        assert_refused(&set, (19, GAS, line));
    }
    let mut set = due(diesel(), OPACITY, "DataScadenzaContagiri", early);
    assert_refused(&set, (19, OPACITY, 13));
    set = due(set, OPACITY, "DataScadenzaOpacimetro", early);
    assert_refused(&set, (19, OPACITY, 7));
    // Also where it stands behind the others.
    let line = "DataScadenzaOpacimetro=01012000\r\n";
    let opacity = set.slice_mut(OPACITY);
    let text = String::from_utf8(opacity.clone()).expect("a text");
    *opacity = format!("{}{line}", text.replace(line, "")).into_bytes();
    assert_refused(&set, (19, OPACITY, 56));
}

#[test]
fn no_other_date_is_a_due_date() {
    for file in RESULT_FILES {
        let mut set = with_file(file);
        put(&mut set, file, &[("DataVersioneProtocollo", "01011900")]);
        assert_accepted(&set);
    }
    let mut set = diesel();
    let (module, device) = ("m".repeat(172), "Contagiri");
    for (name, value) in [
        ("TipoCollegamento", "ESTERNO"),
        ("NumVersioneProtocollo", "210"),
    ] {
        put(&mut set, OPACITY, &[(&format!("{name}{device}"), value)]);
    }
    for (name, value) in [
        ("IDChiave", "12345"),
        ("DataRegChiave", "01011900"),
        ("ModuloChiave", &*module),
        ("EsponenteChiave", "AQAB"),
    ] {
        put(&mut set, OPACITY, &[(&format!("{name}{device}RS"), value)]);
    }
    assert_accepted(&set);
}

#[test]
fn row_19_comes_after_10_and_before_13() {
    let mut set = due(sample(), SUSPENSION, "DataScadenza", "28022024");
    put(&mut set, SUSPENSION, &[("Differenza%", "6")]);
    assert_refused(&set, (19, SUSPENSION, 6));
    put(&mut set, SUSPENSION, &[("Operatore", "")]);
    assert_refused(&set, (10, SUSPENSION, 17));
    put(&mut set, SUSPENSION, &[("Aderenza%Dx", "100")]);
    assert_refused(&set, (9, SUSPENSION, 20));
    set = due(sample(), SUSPENSION, "DataScadenza", "29022024");
    put(&mut set, SUSPENSION, &[("Differenza%", "6")]);
    assert_refused(&set, (13, SUSPENSION, 21));
}

#[test]
fn row_19_comes_in_the_order_of_the_slices() {
    let mut set = sample();
    // Gas without the answer that its link asks for, and a wrong suspension.
    set_value(set.slice_mut(GAS), "DataScadenzaContagiri", b"28022024");
    set.slice_mut(IDENTIFICATION).clear();
    assert_refused(&set, (19, GAS, 13));
    put(&mut set, SUSPENSION, &[("Differenza%", "6")]);
    assert_refused(&set, (13, SUSPENSION, 21));
    set = due(set, DRIFT, "DataScadenza", "28022024");
    assert_refused(&set, (19, DRIFT, 8));
    put(&mut set, AC2, &[("TipoVeicolo", "PESANTE")]);
    assert_refused(&set, (12, AC2, 3));
}

#[test]
fn row_19_is_of_sets_alone() {
    for (set, file, name, _) in devices() {
        let set = due(set, file, name, "01011900");
        let text = set.slice(file);
        let alone = read(file, text, PLACES);
        assert_eq!(refusal(&alone), (0, 0, 0));
        let outcome = written(text, &alone.places, file, alone.answer[3], 4000);
        assert_eq!(refusal(&outcome), (0, 0, 0));
        let column = made(&Call::Due {
            file,
            ac2: set.slice(AC2).to_vec(),
            text: text.to_vec(),
            places: places_before(PLACES),
            column: column_before(55),
        });
        assert_eq!(refusal(&column), (0, 0, 0));
        // Nor have these calls a length.
        for outcome in [alone, outcome, column] {
            assert_eq!(outcome.answer[SECONDS..], [0; 5]);
        }
    }
}
