//! The comparer and the stored list, without the crate's text.

use std::process::{Command, Output};

fn oracle(arguments: &[&str]) -> Output {
    Command::new(env!("CARGO_BIN_EXE_oracle"))
        .args(arguments)
        .output()
        .unwrap()
}

#[test]
fn the_comparer_can_fail() {
    let output = oracle(&["selftest"]);
    assert!(output.status.success(), "{}", String::from_utf8_lossy(&output.stdout));
}

#[test]
fn a_program_that_answers_otherwise_is_found_out() {
    for program in ["/bin/cat", "/bin/true"] {
        assert_eq!(oracle(&["stored", program]).status.code(), Some(1), "{program}");
    }
}

#[test]
fn a_program_that_is_not_there_is_told() {
    let output = oracle(&["stored", "/no/such/program"]);
    assert_eq!(output.status.code(), Some(1));
    assert!(String::from_utf8_lossy(&output.stderr).contains("/no/such/program"));
}

#[test]
fn words_that_cannot_be_read_get_the_usage() {
    for arguments in [&[][..], &["other"], &["stored"], &["stored", "a", "b"]] {
        assert_eq!(oracle(arguments).status.code(), Some(2), "{arguments:?}");
    }
}
