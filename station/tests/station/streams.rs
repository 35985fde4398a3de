//! Output that nobody reads, or that cannot be written.

use std::fs::File;
use std::io::pipe;
use std::process::Stdio;

use crate::common::{program, repository};

/// Runs the program with a standard output whose reader is gone.
fn with_no_reader(words: &[&str]) -> (i32, String) {
    let (reader, writer) = pipe().expect("a pipe");
    drop(reader);
    let output = program(&repository())
        .args(words)
        .stdout(writer)
        .stderr(Stdio::piped())
        .output()
        .expect("the program runs");
    let said = String::from_utf8_lossy(&output.stderr).into_owned();
    (output.status.code().expect("an exit status"), said)
}

#[test]
fn a_reader_that_is_gone_changes_no_verdict() {
    let nothing_said = |code| (code, String::new());
    assert_eq!(
        with_no_reader(&["judge", "samples/accepted-car"]),
        nothing_said(0)
    );
    assert_eq!(
        with_no_reader(&["judge", "samples/refused-09"]),
        nothing_said(1)
    );
    assert_eq!(
        with_no_reader(&["due", "samples/accepted-car", "AA123456"]),
        nothing_said(0)
    );
    assert_eq!(
        with_no_reader(&["format", "samples/accepted-car/AA123456.GAS"]),
        nothing_said(0)
    );
    let pair = ["first", "second"].map(|name| format!("samples/joining/accepted/{name}.DER"));
    assert_eq!(
        with_no_reader(&["join", &pair[0], &pair[1]]),
        nothing_said(0)
    );
    assert_eq!(with_no_reader(&["--help"]), nothing_said(0));
}

#[test]
fn output_that_cannot_be_written_is_an_error() {
    let output = program(&repository())
        .args(["judge", "samples/accepted-car", "AA123456"])
        .stdout(File::create("/dev/full").expect("/dev/full"))
        .output()
        .expect("the program runs");
    assert_eq!(output.status.code(), Some(2));
    let said = String::from_utf8_lossy(&output.stderr).into_owned();
    assert!(said.starts_with("mctc: standard output: "), "{said}");
}
