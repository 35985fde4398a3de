//! Tests from outside for the judge of MCTCNet2 test sets.
//!
//! "01" is document 01, "MCTCNet2 test sets: booking, drift, suspension and gas"; "02" is document 02, the change
//! requests, cited by their number; "001" is source document 001, the Italian original.

pub mod commits;
pub mod comparison;
pub mod dates;
pub mod devices;
pub mod entries;
pub mod generator;
pub mod hex;
pub mod joinings;
pub mod judge;
#[cfg(feature = "library")]
pub mod library;
pub mod lines_beside;
pub mod look_ups;
pub mod measures;
pub mod met;
pub mod mutator;
pub mod old_fuels;
pub mod opacities;
pub mod random;
pub mod reference;
pub mod replay;
pub mod report;
pub mod speeds;
pub mod told_apart;
pub mod vectors;
