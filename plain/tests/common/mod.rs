//! A script, line by line.

use plain::Engine;
use script::{Session, answers_to};

/// The answers to all lines of a script.
#[allow(dead_code)]
pub fn play(script: &str) -> String {
    String::from_utf8(answers_to(Engine::default(), script.as_bytes())).unwrap()
}

/// The answer to the last line of a script.
#[allow(dead_code)]
pub fn last(script: &str) -> String {
    let mut session = Session::new(Engine::default());
    let mut answer = Vec::new();
    for line in script.lines() {
        answer.clear();
        session.answer(line.as_bytes(), &mut answer);
    }
    String::from_utf8(answer).unwrap().trim_end().to_string()
}
