//! `play SCRIPT`: plays a script through the exported functions, and tells in words what happened.
//!
//! After each command of the script the arm and what is kept of it are asked for too, so that it can be told which links moved, and whether a
//! refusal left everything as it was.

mod answer;
mod arm;
mod tell;

use std::io::{self, Write};
use std::process::ExitCode;

use answer::Answer;
use arm::Arm;
use replay::Lent;
use script::Session;

/// A line of the script, as a person reads it.
enum Line<'a> {
    Empty,
    Comment(&'a [u8]),
    Command(&'a [u8]),
}

fn line_of(line: &[u8]) -> Line<'_> {
    match line.strip_prefix(b"#") {
        Some(comment) => Line::Comment(comment.trim_ascii()),
        None if line.iter().all(|&byte| byte == b' ') => Line::Empty,
        None => Line::Command(line),
    }
}

/// What a line is answered.
fn answered(session: &mut Session<Lent>, line: &[u8]) -> Answer {
    let mut text = Vec::new();
    session.answer(line, &mut text);
    Answer::of(&String::from_utf8_lossy(&text))
}

/// The arm as it is now.
fn seen(session: &mut Session<Lent>) -> Arm {
    Arm::read(&answered(session, b"dump"), &answered(session, b"kin"))
}

/// The script and its answers, told line by line.
fn tell_script(script: &[u8], out: &mut impl Write) -> io::Result<()> {
    let mut session = Session::new(Lent::new());
    let mut before = seen(&mut session);
    for line in script
        .strip_suffix(b"\n")
        .unwrap_or(script)
        .split(|&byte| byte == b'\n')
    {
        match line_of(line) {
            Line::Empty => writeln!(out)?,
            Line::Comment(comment) => writeln!(out, "{}", String::from_utf8_lossy(comment))?,
            Line::Command(command) => {
                let answer = answered(&mut session, command);
                let after = seen(&mut session);
                let command = String::from_utf8_lossy(command);
                write!(
                    out,
                    "  > {command}\n{}",
                    tell::answer(&command, &answer, &before, &after)
                )?;
                before = after;
            }
        }
    }
    out.flush()
}

fn main() -> ExitCode {
    let arguments: Vec<String> = std::env::args().collect();
    let [_, path] = arguments.as_slice() else {
        eprintln!("play SCRIPT");
        return ExitCode::from(2);
    };
    let script = match std::fs::read(path) {
        Ok(script) => script,
        Err(error) => {
            eprintln!("{path}: {error}");
            return ExitCode::from(2);
        }
    };
    match tell_script(&script, &mut io::BufWriter::new(io::stdout().lock())) {
        Ok(()) => ExitCode::SUCCESS,
        Err(error) => {
            eprintln!("play: {error}");
            ExitCode::FAILURE
        }
    }
}
