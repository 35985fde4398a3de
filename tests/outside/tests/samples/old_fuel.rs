//! The samples of 02, 3/14: an unknown day and the old fuel.

use outside::judge::Set;
use outside::mutator::files::set_value;
use outside::old_fuels::cases;
use outside::reference::bookings::old_fuel;
use outside::reference::kinds::{fits, Kind};
use outside::reference::tables::{AC2, ACC, GAS};

use super::{assert_accepted, assert_refused, motorcycle, sample};

/// Directive, first registration and the old fuel that fits.
type Case = (&'static str, &'static str, Option<&'static str>);

/// Months and years behind those of the fuel dates.
const LATER: [Case; 3] = [
    ("RT1902", "00111986", Some("BENZINA NO CAT")),
    ("RT1902", "00001987", Some("BENZINA NO CAT")),
    ("RT1902", "00082002", None),
];

/// Those of which the day is not known.
fn unknown_days() -> impl Iterator<Item = Case> {
    cases().filter(|(_, day, _)| day.starts_with("00"))
}

#[test]
fn the_old_fuel_about_the_fuel_dates() {
    for (directive, day, right) in cases().chain(LATER) {
        let found = old_fuel(b"BENZINA", directive.as_bytes(), day.as_bytes(), b"", b"");
        assert_eq!(found, right.map(str::as_bytes), "{directive}, {day}");
    }
}

#[test]
fn a_later_directive_and_another_fuel_look_at_no_date() {
    for day in ["00101986", "00072002", "01011950"] {
        let found = old_fuel(b"BENZINA", b"98/69/CE", day.as_bytes(), b"", b"");
        assert_eq!(found, Some(&b"BENZINA CAT"[..]), "{day}");
        assert_eq!(
            old_fuel(b"GPL", b"", day.as_bytes(), b"", b""),
            Some(&b"GPL"[..])
        );
    }
}

/// The sample with this directive, first registration and old fuel.
fn car(directive: &str, day: &str, old_fuel: &str) -> Set {
    let mut set = sample();
    let mut put = |file, name, value: &str| set_value(set.slice_mut(file), name, value.as_bytes());
    put(AC2, "DirettivaEmissioniGasBenzinaAuto", directive);
    put(AC2, "DataPrimaImm", day);
    put(ACC, "AnnoPrimaImm", &day[4..]);
    put(ACC, "Alimentazione_1", old_fuel);
    put(GAS, "COMinAcc", "");
    set
}

/// A set with the entries of both bookings in the opposite order.
fn turned(mut set: Set) -> Set {
    for file in [AC2, ACC] {
        let text = String::from_utf8(set.slice(file).to_vec()).expect("a text");
        let mut lines: Vec<&str> = text.split_inclusive('\n').collect();
        lines[1..].reverse();
        *set.slice_mut(file) = lines.concat().into_bytes();
    }
    set
}

/// Asserts the answers to old fuels, of which this one fits, if any.
fn assert_old_fuels(directive: &str, day: &str, right: Option<&str>) {
    for old_fuel in ["BENZINA<86", "BENZINA NO CAT", "BENZINA CAT", "BENZINA", ""] {
        let set = car(directive, day, old_fuel);
        if right == Some(old_fuel) {
            assert_accepted(&set);
            assert_accepted(&turned(set));
        } else {
            // ACC's Alimentazione_1 is its fourth entry of six.
            assert_refused(&set, (12, 2, 5));
            assert_refused(&turned(set), (12, 2, 4));
        }
    }
}

#[test]
fn sets_about_the_fuel_dates_in_two_line_orders() {
    for (directive, day, right) in cases().chain(LATER) {
        assert_old_fuels(directive, day, right);
    }
}

#[test]
fn an_unknown_day_where_acc_is_not_read() {
    for (directive, day, _) in unknown_days() {
        let mut set = car(directive, day, "");
        set.slice_mut(ACC).clear();
        assert_accepted(&set);
    }
    let mut set = motorcycle();
    set.stem = b"AA912345".to_vec();
    set_value(set.slice_mut(AC2), "DataPrimaImm", b"00101986");
    assert_accepted(&set);
}

#[test]
fn year_and_kind_of_an_unknown_day_stay() {
    let mut set = car("RT1902", "00101986", "BENZINA NO CAT");
    set_value(set.slice_mut(ACC), "AnnoPrimaImm", b"1987");
    assert_refused(&set, (12, 2, 4));
    for (_, day, _) in unknown_days() {
        assert!(fits(Kind::FirstRegistration, day.as_bytes()), "{day}");
        assert!(!fits(Kind::Date, day.as_bytes()), "{day}");
    }
    assert_refused(&car("RT1902", "00131986", "BENZINA NO CAT"), (9, 1, 6));
    assert_refused(&car("RT1902", "01001986", "BENZINA<86"), (9, 1, 6));
}
