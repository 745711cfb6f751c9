//! The comparison with a program that answers otherwise.

use generate::compare::{Task, compare};

fn told(program: &str, count: u64) -> std::io::Result<(bool, String)> {
    let task = Task {
        program,
        seed: 1,
        numbers: 3..3 + count,
        sound: true,
        jobs: 2,
    };
    let mut told = Vec::new();
    let same = compare(&task, &mut told)?;
    Ok((same, String::from_utf8_lossy(&told).into_owned()))
}

#[test]
fn a_program_that_answers_otherwise_is_told() {
    let (same, told) = told("/bin/cat", 2).unwrap();
    assert!(!same);
    for words in [
        "script 3 of seed 1",
        "--- the script up to the difference\nnew\n",
        "--- answered here\nok\n",
        "--- answered by the program\nnew\n",
        "--- shortened\n",
        "\n0 passed, 2 failed\n",
    ] {
        assert!(told.contains(words), "{words}: {told}");
    }
}

#[test]
fn a_program_that_is_not_there_is_an_error() {
    assert!(
        told("/no/such/program", 1)
            .unwrap_err()
            .to_string()
            .starts_with("/no/such/program")
    );
}
