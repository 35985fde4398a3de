//! The old fuels of petrol that a run must meet about the two fuel dates (02, 3/14), by call.

use crate::judge::Set;
use crate::met::{value_in, Met, Wanted, JUDGED, JUDGED_AGAIN, JUDGE_12};
use crate::reference::tables::{AC2, ACC};

/// The entries of AC2 that decide.
const DIRECTIVE: &str = "DirettivaEmissioniGasBenzinaAuto";
const DAY: &str = "DataPrimaImm";

const BEFORE_1986: Option<&str> = Some("BENZINA<86");
const BEFORE_2002: Option<&str> = Some("BENZINA NO CAT");

/// First registrations about the fuel dates, known and with day 00, and the old fuel that fits: by RT1902 and by NESSUNA.
pub const DAYS: [(&str, [Option<&str>; 2]); 10] = [
    ("00001986", [BEFORE_1986, BEFORE_1986]),
    ("00091986", [BEFORE_1986, BEFORE_1986]),
    ("30091986", [BEFORE_1986, BEFORE_1986]),
    ("00101986", [BEFORE_2002, None]),
    ("01101986", [BEFORE_2002, None]),
    ("00002002", [BEFORE_2002, None]),
    ("00062002", [BEFORE_2002, None]),
    ("30062002", [BEFORE_2002, None]),
    ("00072002", [None, None]),
    ("01072002", [None, None]),
];
const DIRECTIVES: [&str; 2] = ["RT1902", "NESSUNA"];

/// The old fuels that are tried with each.
const OLD_FUELS: [&str; 3] = ["BENZINA<86", "BENZINA NO CAT", ""];

/// The two values of AC2 that decide, in either order: "for sets in any line order".
const DAY_FIRST: &str = "day before directive";
const DAY_BEHIND: &str = "day behind directive";

fn bookings(directive: &str, day: &str, old_fuel: &str, order: &str) -> String {
    format!("{directive}, {day} and `{old_fuel}`, {order}")
}

/// Each directive with each day, and the old fuel that fits.
pub fn cases() -> impl Iterator<Item = (&'static str, &'static str, Option<&'static str>)> {
    DAYS.into_iter().flat_map(|(day, fitting)| {
        let each = DIRECTIVES.into_iter().zip(fitting);
        each.map(move |(directive, fits)| (directive, day, fits))
    })
}

/// What a run must meet: each old fuel by each directive with each day, accepted where it fits, else refused.
pub fn wanted() -> Vec<Wanted> {
    cases()
        .flat_map(|(directive, day, fits)| wanted_with(directive, day, fits))
        .collect()
}

fn wanted_with(directive: &str, day: &str, fits: Option<&str>) -> Vec<Wanted> {
    let mut wanted = Vec::new();
    for old_fuel in OLD_FUELS {
        let bookings = |order| bookings(directive, day, old_fuel, order);
        let fits = fits == Some(old_fuel);
        let call = if fits { JUDGED } else { JUDGE_12 };
        wanted.extend([DAY_FIRST, DAY_BEHIND].map(|order| (call, bookings(order))));
        if fits {
            // As written, so in the table's order.
            wanted.push((JUDGED_AGAIN, bookings(DAY_FIRST)));
        }
    }
    wanted
}

/// Notes the bookings of a set that was accepted, or refused for ACC's fuel, where both were read and AC2 has a
/// directive, so petrol with M or N.
pub fn note(met: &mut Met, what: &'static str, set: &Set) {
    let (ac2, acc) = (set.slice(AC2), set.slice(ACC));
    let directive = value_in(ac2, DIRECTIVE);
    if directive.is_empty() || acc.is_empty() {
        return;
    }
    let (day, old_fuel) = (value_in(ac2, DAY), value_in(acc, "Alimentazione_1"));
    met.count(what, bookings(directive, day, old_fuel, order(ac2)));
}

fn order(ac2: &[u8]) -> &'static str {
    let text = String::from_utf8_lossy(ac2);
    let at = |name| text.find(&format!("\n{name}="));
    if at(DAY) < at(DIRECTIVE) {
        DAY_FIRST
    } else {
        DAY_BEHIND
    }
}
