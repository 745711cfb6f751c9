//! Scripts made up by a seed, written or answered by a program and by the plain reading.

use generate::arguments::{Arguments, Outcome, concluded};
use generate::changes::{Programs, changes};
use generate::compare::{Task, compare};
use generate::families::{self, Family};
use generate::wild;
use std::io::{self, Write};
use std::process::ExitCode;

const USAGE: &str = "generate wild SEED COUNT [--from K] [--sound]
    scripts of any commands, floats, bytes and broken arms; sound ones hand in no broken arm and no short memory
generate families SEED COUNT [--from K] [--family a|b|c|d]
    scripts of long mixed sequences, as they are compared with the crate
generate compare PROGRAM SEED COUNT [--from K] [--sound] [--jobs J]
    wild scripts, answered by PROGRAM and by the plain reading
generate changes BEFORE NOW
    scripts on standard input, answered by both programs: which answers changed, and how";

fn main() -> ExitCode {
    concluded(run(&mut Arguments::of_program()), USAGE)
}

fn run(arguments: &mut Arguments) -> Outcome {
    let sound = arguments.flag("--sound");
    let (from, jobs) = (arguments.number("--from", 0)?, arguments.number("--jobs", 1)? as usize);
    let family = arguments.option("--family", None, |letter| Some(Some(Family::of_letter(letter)?)))?;
    let command = arguments.plain()?;
    if command == "changes" {
        let [before, now] = &[arguments.plain()?, arguments.plain()?];
        arguments.all_read()?;
        let same = changes(&Programs { before, now }, io::stdin().lock(), io::stdout());
        return Some(same.map_err(|error| error.to_string()));
    }
    let program = match command.as_str() {
        "compare" => arguments.plain()?,
        _ => String::new(),
    };
    let [seed, count] = [arguments.plain()?.parse().ok()?, arguments.plain()?.parse().ok()?];
    arguments.all_read()?;
    let numbers = from..from.checked_add(count)?;
    let done = match command.as_str() {
        "wild" => write(numbers.map(|number| wild::script(seed, number, sound).text)),
        "families" => write(numbers.map(|number| families::script(seed, number, family).into_bytes())),
        "compare" => {
            let task = Task {
                program: &program,
                seed,
                numbers,
                sound,
                jobs,
            };
            compare(&task, io::stdout())
        }
        _ => return None,
    };
    Some(done.map_err(|error| error.to_string()))
}

/// Writes scripts, one after the other.
fn write(scripts: impl Iterator<Item = Vec<u8>>) -> io::Result<bool> {
    let mut out = io::BufWriter::new(io::stdout().lock());
    for script in scripts {
        out.write_all(&script)?;
    }
    out.flush()?;
    Ok(true)
}
