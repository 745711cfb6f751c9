//! Made-up scripts, answered by another program and by the plain reading.

use crate::batches::in_batches;
use crate::wild::{self, Coverage, Script};
use script::{Session, answers_to};
use std::io::{self, Read, Write};
use std::ops::Range;
use std::process::{Command, ExitStatus, Stdio};
use std::sync::Mutex;

/// Scripts that one run of the program is given.
const BATCH: u64 = 50;
/// Differences that are told in full.
const MOST_TOLD: usize = 5;

/// Which scripts a program is given.
pub struct Task<'a> {
    pub program: &'a str,
    pub seed: u64,
    pub numbers: Range<u64>,
    /// No broken arm and no short memory is handed in.
    pub sound: bool,
    pub jobs: usize,
}

/// What came of the scripts so far.
struct Outcome<W> {
    coverage: Coverage,
    failed: usize,
    told: W,
}

/// Compare scripts, and tell what differs; whether nothing does.
///
/// # Errors
/// The program can't be run, or what is told can't be written.
pub fn compare(task: &Task, told: impl Write + Send) -> io::Result<bool> {
    let outcome = Mutex::new(Outcome {
        coverage: Coverage::default(),
        failed: 0,
        told,
    });
    in_batches(&task.numbers, BATCH, task.jobs, |numbers| {
        run_batch(task, numbers, &outcome)
    })?;
    let Outcome {
        coverage,
        failed,
        mut told,
    } = outcome.into_inner().expect("no panic");
    let count = (task.numbers.end - task.numbers.start) as usize;
    writeln!(told, "{coverage}")?;
    writeln!(told, "{} passed, {failed} failed", count - failed)?;
    told.flush()?;
    Ok(failed == 0)
}

fn run_batch<W: Write>(task: &Task, numbers: Range<u64>, outcome: &Mutex<Outcome<W>>) -> io::Result<()> {
    let scripts: Vec<(u64, Script)> = numbers
        .clone()
        .map(|number| (number, wild::script(task.seed, number, task.sound)))
        .collect();
    let joined = |part: fn(&Script) -> &Vec<u8>| -> Vec<u8> {
        scripts
            .iter()
            .flat_map(|(_, script)| part(script).iter().copied())
            .collect()
    };
    let (mut text, answers) = (joined(|script| &script.text), joined(|script| &script.answers));
    // The last line of an input may go without its newline.
    if numbers.start / BATCH % 2 == 1 {
        text.pop();
    }
    let (theirs, status) = run(task.program, &text)?;
    let same = theirs == answers && status.success();
    let mut outcome = outcome.lock().expect("no panic");
    for (_, script) in &scripts {
        outcome.coverage.add(&script.coverage);
    }
    match same {
        true => Ok(()),
        false => tell_batch(task, &scripts, &text, &mut outcome),
    }
}

/// Which scripts of a batch differ, each played by itself.
fn tell_batch<W: Write>(
    task: &Task,
    scripts: &[(u64, Script)],
    text: &[u8],
    outcome: &mut Outcome<W>,
) -> io::Result<()> {
    let (seed, mut found) = (task.seed, 0);
    for (number, script) in scripts {
        let (theirs, status) = run(task.program, &script.text)?;
        if theirs != script.answers || !status.success() {
            found += 1;
            if outcome.failed + found <= MOST_TOLD {
                writeln!(outcome.told, "script {number} of seed {seed} ({status})")?;
                tell(task.program, &script.text, &mut outcome.told)?;
            }
        }
    }
    if found == 0 {
        found = 1;
        let (first, last) = (scripts[0].0, scripts[scripts.len() - 1].0);
        writeln!(outcome.told, "scripts {first} to {last} of seed {seed} in one run only")?;
        tell(task.program, text, &mut outcome.told)?;
    }
    outcome.failed += found;
    Ok(())
}

/// The answers of a program to a script, and how it ended.
///
/// # Errors
/// The program can't be run.
pub fn run(program: &str, script: &[u8]) -> io::Result<(Vec<u8>, ExitStatus)> {
    let mut child = Command::new(program)
        .stdin(Stdio::piped())
        .stdout(Stdio::piped())
        .spawn()
        .map_err(|error| io::Error::new(error.kind(), format!("{program}: {error}")))?;
    let mut input = child.stdin.take().expect("piped");
    let mut output = child.stdout.take().expect("piped");
    let mut answers = Vec::new();
    std::thread::scope(|scope| {
        // A program that ended early takes no more input: its answers tell.
        scope.spawn(move || input.write_all(script).ok());
        output.read_to_end(&mut answers)
    })?;
    Ok((answers, child.wait()?))
}
/// The answer of this program to each line.
fn answers_by_line(script: &[&[u8]]) -> Vec<Vec<u8>> {
    let mut session = Session::new(plain::Engine::default());
    script
        .iter()
        .map(|line| {
            let mut answer = Vec::new();
            session.answer(line, &mut answer);
            answer
        })
        .collect()
}

/// The first line whose answer differs, with what the program answers there.
fn first_difference<'a>(script: &[&[u8]], theirs: &'a [u8]) -> Option<(usize, &'a [u8])> {
    let mut rest = theirs;
    for (at, answer) in answers_by_line(script).iter().enumerate() {
        match rest.strip_prefix(&answer[..]) {
            Some(after) => rest = after,
            None => return Some((at, rest)),
        }
    }
    (!rest.is_empty()).then_some((script.len().saturating_sub(1), rest))
}

fn joined(lines: &[&[u8]]) -> Vec<u8> {
    lines
        .iter()
        .flat_map(|line| line.iter().copied().chain([b'\n']))
        .collect()
}

/// Tell the script up to the first difference, the answers there, and a shorter script that differs too.
fn tell(program: &str, text: &[u8], told: &mut impl Write) -> io::Result<()> {
    let lines: Vec<&[u8]> = text
        .strip_suffix(b"\n")
        .unwrap_or(text)
        .split(|&b| b == b'\n')
        .collect();
    let (theirs, _) = run(program, text)?;
    let Some((at, rest)) = first_difference(&lines, &theirs) else {
        return writeln!(told, "no difference but in how it ended");
    };
    let lines = &lines[..=at];
    writeln!(told, "--- the script up to the difference")?;
    told.write_all(&joined(lines))?;
    tell_answers(lines, rest, told)?;
    let short = shortened(program, lines.to_vec())?;
    let (theirs, _) = run(program, &joined(&short))?;
    if let Some((at, rest)) = first_difference(&short, &theirs) {
        writeln!(told, "--- shortened")?;
        told.write_all(&joined(&short[..=at]))?;
        tell_answers(&short[..=at], rest, told)?;
    }
    Ok(())
}

/// The last line's answer here, and as many lines of the program's.
fn tell_answers(lines: &[&[u8]], theirs: &[u8], told: &mut impl Write) -> io::Result<()> {
    let answers = answers_by_line(lines);
    let ours = answers.last().expect("a line");
    let count = ours.iter().filter(|&&b| b == b'\n').count().max(1);
    let theirs: Vec<&[u8]> = theirs.split_inclusive(|&b| b == b'\n').take(count).collect();
    writeln!(told, "--- answered here")?;
    told.write_all(ours)?;
    writeln!(told, "--- answered by the program")?;
    told.write_all(&theirs.concat())?;
    writeln!(told, "---")
}

/// Lines are left out as long as the answers differ.
fn shortened<'a>(program: &str, mut lines: Vec<&'a [u8]>) -> io::Result<Vec<&'a [u8]>> {
    let mut width = lines.len().div_ceil(2);
    while width > 0 {
        let mut at = 0;
        while at < lines.len() {
            let mut fewer = lines.clone();
            fewer.drain(at..(at + width).min(lines.len()));
            let text = joined(&fewer);
            if run(program, &text)?.0 != answers_to(plain::Engine::default(), &text) {
                lines = fewer;
            } else {
                at += width;
            }
        }
        width /= 2;
    }
    Ok(lines)
}
