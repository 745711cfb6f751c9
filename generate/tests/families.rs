//! The scripts that are compared with the crate, played by the plain reading: each command is answered as the script says.

use generate::families::{Expected, Family, script};
use script::{Line, Session, read};

/// Plays a script; how many commands it had.
fn play(text: &str) -> usize {
    let mut session = Session::new(plain::Engine::default());
    let (mut expected, mut commands) = (Expected::Accepted, 0);
    for line in text.lines() {
        if let Line::Nothing = read(line.as_bytes()) {
            expected = Expected::of_comment(line).unwrap_or(expected);
            continue;
        }
        let mut answer = Vec::new();
        session.answer(line.as_bytes(), &mut answer);
        let answer = String::from_utf8(answer).unwrap();
        let status = answer.lines().next();
        let right = match std::mem::replace(&mut expected, Expected::Accepted) {
            Expected::Accepted => status == Some("ok"),
            Expected::Refused(number) => status == Some(&format!("refused {number}")),
            Expected::Either => status.is_some_and(|status| status == "ok" || status.starts_with("refused ")),
        };
        assert!(right, "{line}: {answer}");
        commands += 1;
    }
    commands
}

#[test]
fn commands_are_answered_as_the_scripts_say() {
    for family in Family::ALL {
        let commands: usize = (0..150).map(|number| play(&script(11, number, Some(family)))).sum();
        assert!(commands > 5_000, "{commands}");
    }
}

#[test]
fn a_script_names_its_family_and_is_the_same_for_the_same_seed() {
    let mut seen = [0; 4];
    for number in 0..100 {
        let text = script(3, number, None);
        assert!(text == script(3, number, None));
        let family = text.lines().find_map(Family::of_comment).unwrap();
        seen[Family::ALL.iter().position(|other| *other == family).unwrap()] += 1;
    }
    assert!(seen.iter().all(|&count| count > 0), "{seen:?}");
    assert!(script(3, 0, None) != script(4, 0, None));
}
