//! The program `mctc` run as a user would run it.

mod broken;
mod causes;
mod common;
mod idle;
mod in_date;
mod joining;
mod lines;
mod look_up;
mod new_files;
mod obeyed;
mod readme;
mod reference;
mod streams;
mod transcripts;
