//! Idle speeds that were entered by hand, that were measured, and none: sets one by one and as a list, and files alone.

use crate::common::{empty_folder, put_set, Change};
use crate::transcripts::check;

/// The car's idle speed is `#850`.
const MEASURED: Change = ("GAS", "=#850\r", "=850\r");
const NO_SPEED: Change = ("GAS", "=#850\r", "=\r");

/// So that marks stand beside the idle speed.
const DRIFT_CODE: Change = ("DER", "CodErrore=", "CodErrore=E14 SENSORE");
const GAS_CODE: Change = ("GAS", "CodErrore=", "CodErrore=E07 SONDA");
const OPACITY_CODE: Change = ("OPA", "CodErrore=", "CodErrore=E21 OTTICA SPORCA");

/// The sets of a morning: the stem of each, the sample that it is made from, and what is changed. The diesel's greatest
/// speed was entered by hand, which is no idle speed.
const MORNING: [(&str, &str, &[Change]); 8] = [
    ("AA000001", "accepted-car", &[]),
    ("AA000002", "accepted-car", &[MEASURED]),
    ("AA000003", "accepted-car", &[DRIFT_CODE, GAS_CODE]),
    ("AA000004", "accepted-car", &[MEASURED, GAS_CODE]),
    ("AA000005", "accepted-trailer", &[]),
    ("AA000006", "accepted-car", &[("GAS", "=TECNOGAS", "=")]),
    ("AA000008", "accepted-diesel", &[]),
    ("AA000009", "accepted-diesel", &[DRIFT_CODE, OPACITY_CODE]),
];

#[test]
fn idle_speeds_entered_by_hand_are_told() {
    let folder = empty_folder("idle");
    for (stem, sample, changes) in MORNING {
        put_set(&folder.join("morning"), stem, sample, changes);
    }
    put_set(
        &folder.join("alone"),
        "AA000007",
        "accepted-car",
        &[NO_SPEED],
    );
    check("idle.txt", &folder);
}
