//! Answers of a program compared with those of rapier2d's own multibody_joint files, or with the stored ones.

use generate::arguments::{Arguments, Outcome, concluded};
use oracle::{files, report, selftest, stored};
use std::process::ExitCode;

const USAGE: &str = "usage:
  oracle stored PROGRAM      a program's answers to the stored list, compared with it
  oracle selftest            that the comparer can fail
and where the crate's text is built in (feature text):
  oracle answer [--root-shifts-by-01] [--later] [--accepted ANSWERS]
                             the crate's answers to a script on standard input
  oracle compare SCRIPT ANSWERS
                             a program's answers with the crate's
  oracle differ --replay PROGRAM --seed S --scripts N [--from K] [--family a|b|c|d] [--jobs J] [--save FOLDER]
                             generated scripts through both
  oracle store [--check]     the stored list, written or compared
compare and differ take the crate as it is, and then with its root's shifts given by 01.";

fn main() -> ExitCode {
    let mut arguments = Arguments::of_program();
    let command = arguments.plain().unwrap_or_default();
    let outcome = match command.as_str() {
        "stored" => play_stored(&mut arguments),
        "selftest" => Some(files::read(files::stored().with_extension("script")).map(|list| selftest::run(&list))),
        other => run_with_text(other, &mut arguments),
    };
    concluded(outcome, USAGE)
}

#[cfg(feature = "text")]
fn run_with_text(command: &str, arguments: &mut Arguments) -> Outcome {
    oracle::text::run(command, arguments)
}

#[cfg(not(feature = "text"))]
fn run_with_text(command: &str, _: &mut Arguments) -> Outcome {
    let known = ["answer", "compare", "differ", "store"].contains(&command);
    known.then(|| Err("built without the crate's text".to_string()))
}

fn play_stored(arguments: &mut Arguments) -> Outcome {
    let program = arguments.plain()?;
    arguments.all_read()?;
    Some(compare_stored(&program))
}

fn compare_stored(program: &str) -> Result<bool, String> {
    let list = files::read(files::stored().with_extension("script"))?;
    let counts = files::read(files::stored().with_extension("counts"))?;
    let (output, status) = generate::compare::run(program, list.as_bytes()).map_err(|error| error.to_string())?;
    let comparison = stored::compare(&list, &String::from_utf8_lossy(&output), status.success());
    report::print(&comparison);
    let counted = report::counts(&comparison) == counts;
    if !counted {
        println!("other counts than the stored ones");
    }
    Ok(comparison.found() == 0 && counted)
}
