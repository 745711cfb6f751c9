//! Runs scripts through a program and through the crate, and compares. The crate is told which commands were refused and nothing else of what the
//! program answers.

use super::session::Session;
use crate::class::Class;
use crate::compare::{Asked, Comparison};
use generate::answers::{Answers, NO_ANSWER};
use generate::batches::in_batches;
use generate::compare::run as play;
use generate::families::{Expected, Family, script};
use script::{Command, Line, read};
use std::io;
use std::ops::Range;
use std::path::PathBuf;
use std::sync::Mutex;

/// Which shifts the crate's root has.
#[derive(Clone, Copy, Debug, PartialEq, Eq)]
pub enum Way {
    AsItIs,
    RootShiftsBy01,
}

impl Way {
    pub const BOTH: [Way; 2] = [Way::AsItIs, Way::RootShiftsBy01];

    pub fn words(self) -> &'static str {
        match self {
            Way::AsItIs => "the crate as it is",
            Way::RootShiftsBy01 => "the crate with the root's shifts given by 01",
        }
    }
}

pub struct Options {
    pub program: String,
    pub seed: u64,
    pub scripts: Range<u64>,
    pub family: Option<Family>,
    pub jobs: usize,
    /// Where scripts that show a difference are written.
    pub save: PathBuf,
}

/// Scripts that go through one run of the program.
const BATCH: u64 = 100;
/// After so many scripts it is said how far a run is.
const TOLD: u64 = 10_000;

/// What came of each way: one run of the program serves both.
///
/// # Errors
/// The program can't be run, or a script can't be written.
pub fn run(options: &Options) -> io::Result<[Comparison; 2]> {
    let total = Mutex::new([Comparison::default(), Comparison::default()]);
    in_batches(&options.scripts, BATCH, options.jobs, |numbers| {
        let next = numbers.end;
        let batch = run_batch(options, numbers)?;
        let mut total = total.lock().expect("no panic");
        for (sum, more) in total.iter_mut().zip(batch) {
            sum.add(more);
        }
        if next.is_multiple_of(TOLD) {
            let differences: u64 = total.iter().map(Comparison::found).sum();
            eprintln!("about script {next}: {differences} differences");
        }
        Ok(())
    })?;
    Ok(total.into_inner().expect("no panic"))
}

fn run_batch(options: &Options, numbers: Range<u64>) -> io::Result<[Comparison; 2]> {
    let scripts: Vec<(u64, String)> = numbers
        .map(|number| (number, script(options.seed, number, options.family)))
        .collect();
    let input: String = scripts.iter().map(|(_, text)| text.as_str()).collect();
    let (output, status) = play(&options.program, input.as_bytes())?;
    let output = String::from_utf8_lossy(&output);
    let mut comparisons = [Comparison::default(), Comparison::default()];
    for (comparison, way) in comparisons.iter_mut().zip(Way::BOTH) {
        let mut answers = Answers::of(&output);
        for (number, text) in &scripts {
            let known = comparison.found();
            compare_script(comparison, *number, text, &mut answers, way);
            if comparison.found() > known {
                std::fs::create_dir_all(&options.save)?;
                std::fs::write(options.save.join(format!("{number}.txt")), text)?;
            }
        }
        comparison.end(scripts[0].0, answers.next().is_none(), status.success());
    }
    Ok(comparisons)
}

/// A script's answers, compared with the crate's.
pub fn compare_script(comparison: &mut Comparison, number: u64, text: &str, answers: &mut Answers, way: Way) {
    let mut session = Session::new(way == Way::RootShiftsBy01);
    let mut usual = Expected::Either;
    let mut expected = usual;
    let mut abandoned = false;
    for (line, command) in text.lines().enumerate() {
        let read = read(command.as_bytes());
        if let Line::Nothing = read {
            if let Some(family) = Family::of_comment(command) {
                *comparison.scripts.entry(family.letter()).or_default() += 1;
                usual = Expected::Accepted;
                expected = usual;
            }
            expected = Expected::of_comment(command).unwrap_or(expected);
            continue;
        }
        let (status, ours) = answers.next().unwrap_or(NO_ANSWER);
        let said = std::mem::replace(&mut expected, usual);
        if abandoned {
            comparison.abandoned += 1;
            continue;
        }
        let asked = Asked {
            script: number,
            line: line + 1,
            command,
        };
        let as_scripted = is_as_scripted(&read, said, status);
        comparison.status(&asked, status, as_scripted);
        abandoned = !as_scripted;
        if let (true, "ok", Line::Command(command)) = (as_scripted, status, &read) {
            compare_command(comparison, &asked, &mut session, command, &ours);
        }
    }
}

fn is_as_scripted(read: &Line, said: Expected, status: &str) -> bool {
    let refused = status.strip_prefix("refused ");
    match (read, said) {
        (Line::Command(_), Expected::Accepted) => status == "ok",
        (Line::Command(_), Expected::Refused(number)) => refused == Some(&number.to_string()),
        (Line::Command(_), Expected::Either) => status == "ok" || refused.is_some(),
        _ => status == "unreadable",
    }
}

fn compare_command(
    comparison: &mut Comparison,
    asked: &Asked,
    session: &mut Session,
    command: &Command,
    ours: &[&str],
) {
    if let Command::Check = command {
        let clean = ours == ["check spare 0 past 0"];
        return comparison.judge(asked, Class::Tables, clean, || ours.join(" "));
    }
    let text = session.answer(command);
    let mut theirs = text.lines();
    match theirs.next() {
        Some("ok") if ours.is_empty() && theirs.clone().next().is_none() => {
            comparison.judge(asked, Class::Form, true, String::new);
        }
        Some("ok") => {
            let facts = session.facts();
            comparison.lines(asked, ours, &theirs.collect::<Vec<_>>(), |line| facts.expected(line));
        }
        Some("unasked") => comparison.unasked += 1,
        panic => comparison.judge(asked, Class::Form, false, || panic.unwrap_or_default().to_string()),
    }
}
