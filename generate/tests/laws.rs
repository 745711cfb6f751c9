//! What must hold in every run: kept results are those worked out afresh, a move touches only what is below it, and a
//! refusal nothing.

use generate::{spelling, wild};
use script::{Line, answers_to, read};

type Session = script::Session<plain::Engine>;

/// Every bit that a run can print, and the places past what it uses.
fn state(session: &mut Session) -> Vec<u8> {
    let mut text = Vec::new();
    for line in ["dump", "kin", "check"] {
        session.answer(line.as_bytes(), &mut text);
    }
    text
}

fn answer(session: &mut Session, line: &[u8]) -> Vec<u8> {
    let mut text = Vec::new();
    session.answer(line, &mut text);
    text
}

/// Lines of a script, given the place of the arm that they meet.
fn each_line(seed: u64, count: u64, mut visit: impl FnMut(&mut Session, &[u8])) {
    for index in 0..count {
        let script = wild::script(seed, index, false);
        let mut session = Session::new(plain::Engine::default());
        for line in script.text.split(|&b| b == b'\n') {
            visit(&mut session, line);
        }
    }
}

#[test]
fn refusals_and_unreadable_lines_change_nothing() {
    each_line(7, 150, |session, line| {
        let before = state(session);
        let answer = answer(session, line);
        if !answer.starts_with(b"ok") {
            assert!(before == state(session), "{}", String::from_utf8_lossy(line));
        }
    });
}

#[test]
fn what_is_kept_is_what_the_full_working_gives() {
    let mut poked = false;
    let mut compared = 0;
    each_line(8, 300, |session, line| {
        let answered = answer(session, line);
        let word = line
            .split(|&b| b == b' ')
            .find(|word| !word.is_empty())
            .unwrap_or_default();
        if answered.starts_with(b"ok") {
            poked |= word == b"poke";
            poked &= word != b"new";
        }
        if !poked && answered.starts_with(b"ok") && word != b"short" {
            let before = state(session);
            if answer(session, b"full") == b"ok\n" {
                assert!(before == state(session), "{}", String::from_utf8_lossy(line));
                compared += 1;
            }
        }
    });
    assert!(compared > 5_000, "{compared}");
}

#[test]
fn a_move_leaves_the_other_links_alone() {
    let mut moves = 0;
    each_line(9, 300, |session, line| {
        let before = session.engine.arm.clone();
        let tables = session.engine.tables.clone();
        let answered = answer(session, line);
        let words: Vec<&str> = std::str::from_utf8(line)
            .unwrap_or("")
            .split(' ')
            .filter(|w| !w.is_empty())
            .collect();
        let moved = match words[..] {
            ["coord" | "frames" | "com", link, ..] => link.parse::<usize>().ok(),
            ["link", ..] => Some(before.link_count),
            _ => None,
        };
        let Some(moved) = moved else { return };
        if answered != b"ok\n" {
            return;
        }
        moves += 1;
        let arm = &session.engine.arm;
        let is_below = |mut link: usize| {
            while link > moved {
                link = arm.links[link].parent as usize;
            }
            link == moved
        };
        let bits = |floats: &[f32]| floats.iter().map(|x| x.to_bits()).collect::<Vec<_>>();
        for link in (0..16).filter(|&link| !(link < arm.link_count && is_below(link))) {
            assert_eq!(
                bits(&tables[link * 144..][..144]),
                bits(&session.engine.tables[link * 144..][..144])
            );
            assert_eq!(format!("{:?}", before.links[link]), format!("{:?}", arm.links[link]));
        }
        assert_eq!(bits(&tables[2304..]), bits(&session.engine.tables[2304..]));
    });
    assert!(moves > 3_000, "{moves}");
}

#[test]
fn scripts_are_the_same_for_the_same_seed() {
    for index in 0..20 {
        let [a, b] = [0; 2].map(|_| wild::script(3, index, false));
        assert!(a.text == b.text && a.answers == b.answers);
        assert!(a.text.starts_with(b"new\n"));
        assert!(a.answers == answers_to(plain::Engine::default(), &a.text));
    }
    assert!(wild::script(3, 0, false).text != wild::script(4, 0, false).text);
}

#[test]
fn a_sound_script_hands_in_nothing_broken_or_short() {
    let is_unsound = |line: &[u8]| [&b"poke"[..], b"short"].iter().any(|word| line.starts_with(word));
    for index in 0..60 {
        let script = wild::script(5, index, true);
        let mut session = Session::new(plain::Engine::default());
        for line in script.text.split(|&b| b == b'\n').filter(|line| is_unsound(line)) {
            assert_eq!(
                answer(&mut session, line),
                b"unreadable\n",
                "{}",
                String::from_utf8_lossy(line)
            );
        }
    }
}

#[test]
fn a_command_that_is_written_is_read_as_itself() {
    let mut written = 0;
    for index in 0..100 {
        for line in wild::script(6, index, false).text.split(|&b| b == b'\n') {
            if let Line::Command(command) = read(line) {
                let again = spelling::line(&command, &mut spelling::Plainly);
                let Line::Command(same) = read(again.as_bytes()) else {
                    panic!("{again}");
                };
                assert_eq!(format!("{command:?}"), format!("{same:?}"));
                written += 1;
            }
        }
    }
    assert!(written > 5_000, "{written}");
}
