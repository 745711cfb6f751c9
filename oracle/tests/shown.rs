//! The crate's own text still answers as the files say.
#![cfg(feature = "text")]

use std::path::Path;
use std::process::Command;

#[test]
fn known_differences_and_marked_examples_get_the_answers_beside_them() {
    let folder = Path::new(env!("CARGO_MANIFEST_DIR")).join("scripts");
    let mut played = 0;
    for entry in std::fs::read_dir(&folder).unwrap() {
        let script = entry.unwrap().path();
        if script.extension().is_some_and(|ending| ending == "txt") {
            let stored = std::fs::read_to_string(script.with_extension("answers")).unwrap();
            assert_eq!(answers(&script), stored, "{}", script.display());
            played += 1;
        }
    }
    assert_eq!(played, 15);
}

#[test]
fn the_stored_list_is_made_so() {
    let status = Command::new(env!("CARGO_BIN_EXE_oracle"))
        .args(["store", "--check"])
        .status()
        .unwrap();
    assert!(status.success());
}

fn answers(script: &Path) -> String {
    let input = std::fs::File::open(script).unwrap();
    let output = Command::new(env!("CARGO_BIN_EXE_oracle"))
        .args(["answer", "--later"])
        .stdin(input)
        .output()
        .unwrap();
    String::from_utf8(output.stdout).unwrap()
}
