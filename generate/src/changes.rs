//! Scripts through a program as it was and as it is: which answers changed, and how.

use crate::answers::{Answers, NO_ANSWER};
use crate::compare::run;
use script::{Line, read};
use std::collections::BTreeMap;
use std::io::{self, BufRead, Write};

/// Bytes of scripts that one run of the programs is given, at least.
const BATCH: usize = 1 << 20;

/// What stands for the command of an answer past the last line.
const SPARE: &str = "(no line)";

/// A program as it was, and as it is.
pub struct Programs<'a> {
    pub before: &'a str,
    pub now: &'a str,
}

/// What became of a command, and the lines after that.
type Answer<'a> = (&'a str, Vec<&'a str>);
/// What stands behind each of an answer's names.
type Values = BTreeMap<String, String>;

/// The answers to one command that changed in the same way.
struct Change {
    count: u64,
    /// What became of the command before.
    status: String,
    /// The first line that was answered so, and its answers.
    example: [String; 3],
    /// What is the same in all of them now.
    always: Values,
}

#[derive(Default)]
struct Changes {
    /// How often each command was answered by each status before.
    before: BTreeMap<(String, String), u64>,
    /// By the command and by what became of its answer.
    changed: BTreeMap<(String, String), Change>,
}

/// Plays scripts, each of which begins with `new`, through both, and tells what changed; whether nothing did.
///
/// # Errors
/// A program can't be run, the scripts can't be read, or what is told can't be written.
pub fn changes(programs: &Programs, mut scripts: impl BufRead, told: impl Write) -> io::Result<bool> {
    let mut changes = Changes::default();
    let (mut batch, mut line) = (Vec::new(), Vec::new());
    while scripts.read_until(b'\n', &mut line)? > 0 {
        if batch.len() >= BATCH && line == b"new\n" {
            changes.compare(programs, &batch)?;
            batch.clear();
        }
        batch.append(&mut line);
    }
    changes.compare(programs, &batch)?;
    changes.tell(told)?;
    Ok(changes.changed.is_empty())
}

impl Changes {
    fn compare(&mut self, programs: &Programs, script: &[u8]) -> io::Result<()> {
        let (before, now) = std::thread::scope(|scope| {
            let before = scope.spawn(|| answers(programs.before, script));
            let now = answers(programs.now, script);
            (before.join().expect("no panic"), now)
        });
        self.count(script, &before?, &now?);
        Ok(())
    }

    fn count(&mut self, script: &[u8], before: &str, now: &str) {
        let [mut before, mut now] = [before, now].map(Answers::of);
        let mut pair = || [before.next(), now.next()].map(|answer| answer.unwrap_or(NO_ANSWER));
        for line in script.split(|&byte| byte == b'\n') {
            if matches!(read(line), Line::Nothing) {
                continue;
            }
            let [before, now] = pair();
            let line = String::from_utf8_lossy(line);
            let command = line.split(' ').find(|word| !word.is_empty()).unwrap_or_default();
            *self.before.entry((command.into(), before.0.into())).or_default() += 1;
            // Two that both say nothing are not alike.
            if before != now || now == NO_ANSWER {
                self.add(&line, command, &before, &now);
            }
        }
        let [before, now] = pair();
        if before != NO_ANSWER || now != NO_ANSWER {
            *self.before.entry((SPARE.into(), before.0.into())).or_default() += 1;
            self.add("", SPARE, &before, &now);
        }
    }

    fn add(&mut self, line: &str, command: &str, before: &Answer, now: &Answer) {
        let [old, new] = [before, now].map(|(_, lines)| values(lines));
        let became = match (before.0 == now.0, parted(&old, &new).as_slice()) {
            (false, _) => format!("{}, now {}", before.0, now.0),
            (true, []) => now.0.into(),
            (true, names) => format!("{}: {}", now.0, names.join(", ")),
        };
        let change = self.changed.entry((command.into(), became)).or_insert_with(|| Change {
            count: 0,
            status: before.0.into(),
            example: [line.into(), text(before), text(now)],
            always: new.clone(),
        });
        change.count += 1;
        change.always.retain(|name, value| new.get(name) == Some(value));
    }

    fn tell(&self, mut told: impl Write) -> io::Result<()> {
        let answers: u64 = self.before.values().sum();
        let changed: u64 = self.changed.values().map(|change| change.count).sum();
        writeln!(told, "{answers} answers, {changed} of them changed")?;
        for ((command, became), change) in &self.changed {
            let of = self.before[&(command.clone(), change.status.clone())];
            writeln!(told, "{command}: {became}: {} of {of}", change.count)?;
            let always: Vec<String> = change
                .always
                .iter()
                .filter(|(_, value)| !value.is_empty())
                .map(|(name, value)| format!("{name} {value}"))
                .collect();
            if !always.is_empty() {
                writeln!(told, "  now always: {}", always.join(", "))?;
            }
            let [line, before, now] = &change.example;
            writeln!(told, "  as: {line}\n    before: {before}\n    now:    {now}")?;
        }
        told.flush()
    }
}

/// What a program answers to a script, up to its end.
fn answers(program: &str, script: &[u8]) -> io::Result<String> {
    let (answers, status) = run(program, script)?;
    match status.success() {
        true => Ok(String::from_utf8_lossy(&answers).into_owned()),
        false => Err(io::Error::other(format!("{program}: {status}"))),
    }
}

/// The names and values of an answer's lines; names that come again count as one.
fn values(lines: &[&str]) -> Values {
    let mut values = Values::new();
    for line in lines {
        let mut name = String::new();
        for word in line.split(' ') {
            if is_value(word) {
                let all: &mut String = values.entry(name.clone()).or_default();
                *all += if all.is_empty() { "" } else { " " };
                *all += word;
            } else {
                name = word.into();
                values.entry(name.clone()).or_default();
            }
        }
    }
    values
}

/// A float by its bits, a number, or a part and a number.
fn is_value(word: &str) -> bool {
    word.len() == 8 && word.bytes().all(|byte| byte.is_ascii_hexdigit())
        || word.bytes().all(|byte| byte.is_ascii_digit() || byte == b'/')
}

/// The names whose values differ.
fn parted(before: &Values, now: &Values) -> Vec<String> {
    let all = before
        .keys()
        .chain(now.keys().filter(|name| !before.contains_key(*name)));
    all.filter(|name| before.get(*name) != now.get(*name))
        .cloned()
        .collect()
}

/// An answer in one line.
fn text((status, lines): &Answer) -> String {
    [&[*status], &lines[..]].concat().join("; ")
}

#[cfg(test)]
mod tests {
    use super::*;

    fn told(script: &str, before: &str, now: &str) -> String {
        let mut changes = Changes::default();
        changes.count(script.as_bytes(), before, now);
        let mut told = Vec::new();
        changes.tell(&mut told).unwrap();
        String::from_utf8(told).unwrap()
    }

    #[test]
    fn answers_that_stayed_are_counted_alone() {
        let answers = "ok\nbranch 0\nrefused 4\n";
        assert_eq!(
            told("# passed over\n\nbranch 0\nbranch 1\n", answers, answers),
            "2 answers, 0 of them changed\n"
        );
    }

    #[test]
    fn what_changed_goes_by_its_command_and_its_names() {
        let script = "rot 1\nrot 2\nrot 3\nbranch 0\ndump\n";
        let before = "ok\nrot 01 02 turn 03\nok\nrot 01 02 turn 04\nrefused 9\nok\nbranch 0\nok\nrow acc 3f800000\n";
        let now =
            "ok\nrot 01 02 turn 05\nok\nrot 01 02 turn 05\nok\nrot 07 08 turn 05\nok\nbranch 0\nok\nrow acc bf800000\n";
        assert_eq!(
            told(script, before, now),
            "\
5 answers, 4 of them changed
dump: ok: acc: 1 of 1
  now always: acc bf800000
  as: dump
    before: ok; row acc 3f800000
    now:    ok; row acc bf800000
rot: ok: turn: 2 of 2
  now always: rot 01 02, turn 05
  as: rot 1
    before: ok; rot 01 02 turn 03
    now:    ok; rot 01 02 turn 05
rot: refused 9, now ok: 1 of 1
  now always: rot 07 08, turn 05
  as: rot 3
    before: refused 9
    now:    ok; rot 07 08 turn 05
"
        );
    }

    #[test]
    fn an_answer_too_few_or_too_many_is_a_change() {
        let one = told("rot 1\nrot 2\n", "ok\nrot 01\nok\nrot 01\n", "ok\nrot 01\n");
        assert!(one.contains("rot: ok, now no answer: 1 of 2\n"), "{one}");
        let more = told("rot 1\n", "ok\nrot 01\n", "ok\nrot 01\nok\n");
        assert!(more.contains("(no line): no answer, now ok: 1 of 1\n"), "{more}");
        let neither = told("rot 1\n", "", "");
        assert!(neither.contains("rot: no answer: 1 of 1\n"), "{neither}");
    }

    #[test]
    fn a_program_that_fails_is_an_error() {
        let programs = Programs {
            before: "/bin/cat",
            now: "/bin/false",
        };
        let failed = changes(&programs, &b"new\n"[..], Vec::new()).unwrap_err();
        assert!(failed.to_string().starts_with("/bin/false: "));
    }
}
