//! The commands that ask the crate.

use super::differ::{Options, Way, compare_script, run as run_scripts};
use super::session::{Session, keep_quiet};
use super::store;
use crate::compare::Comparison;
use crate::{files, report};
use generate::answers::{Answers, NO_ANSWER};
use generate::arguments::{Arguments, Outcome};
use generate::families::Family;
use script::{Line, read};
use std::io::{Read, Write};
use std::path::PathBuf;

/// Where scripts that show a difference go.
const SAVE: &str = concat!(env!("CARGO_MANIFEST_DIR"), "/../target-rust/differ");

/// What the stored list begins with.
const FIRST: [&str; 2] = [
    include_str!("../../scripts/marked-examples.txt"),
    include_str!("../../every-class.txt"),
];

pub fn run(command: &str, arguments: &mut Arguments) -> Outcome {
    keep_quiet();
    match command {
        "answer" => answer(arguments),
        "compare" => compare(arguments),
        "differ" => differ(arguments),
        "store" => store(arguments),
        _ => None,
    }
}

fn answer(arguments: &mut Arguments) -> Outcome {
    let (by_01, later) = (arguments.flag("--root-shifts-by-01"), arguments.flag("--later"));
    let accepted = arguments.option("--accepted", None, |path| Some(Some(path.to_string())))?;
    arguments.all_read()?;
    Some(write_answers(by_01, later, accepted.as_deref()).map(|()| true))
}

/// Of the commands that were accepted, if it is given which.
fn write_answers(by_01: bool, later: bool, accepted: Option<&str>) -> Result<(), String> {
    let statuses = accepted.map(files::read).transpose()?;
    let mut statuses = statuses.as_deref().map(Answers::of);
    let mut input = Vec::new();
    let mut read_all = || std::io::stdin().read_to_end(&mut input);
    read_all().map_err(|error| error.to_string())?;
    let mut session = Session::new(by_01);
    let mut output = Vec::new();
    for line in input
        .split(|&byte| byte == b'\n')
        .filter(|line| !matches!(read(line), Line::Nothing))
    {
        let status = match &mut statuses {
            Some(statuses) => statuses.next().unwrap_or(NO_ANSWER).0,
            None => "ok",
        };
        output.extend(match status {
            "ok" => session.answer_line(line, later).into_bytes(),
            _ => format!("{status}\n").into_bytes(),
        });
    }
    std::io::stdout().write_all(&output).map_err(|error| error.to_string())
}

fn compare(arguments: &mut Arguments) -> Outcome {
    let (script, answers) = (arguments.plain()?, arguments.plain()?);
    arguments.all_read()?;
    Some(compare_files(&script, &answers))
}

fn compare_files(script: &str, answers: &str) -> Result<bool, String> {
    let (script, answers) = (files::read(script)?, files::read(answers)?);
    Ok(concluded(&Way::BOTH.map(|way| {
        let mut comparison = Comparison::default();
        let mut answers = Answers::of(&answers);
        compare_script(&mut comparison, 0, &script, &mut answers, way);
        comparison.end(0, answers.next().is_none(), true);
        comparison
    })))
}

fn differ(arguments: &mut Arguments) -> Outcome {
    let needed = |word: &str| Some(Some(word.parse::<u64>().ok()?));
    let path = |word: &str| Some(PathBuf::from(word));
    let first = arguments.number("--from", 0)?;
    let count = arguments.option("--scripts", None, needed)??;
    let options = Options {
        program: arguments.option("--replay", None, |word| Some(Some(word.to_string())))??,
        seed: arguments.option("--seed", None, needed)??,
        scripts: first..first.checked_add(count)?,
        family: arguments.option("--family", None, |letter| Some(Some(Family::of_letter(letter)?)))?,
        jobs: arguments.number("--jobs", 2)? as usize,
        save: arguments.option("--save", SAVE.into(), path)?,
    };
    arguments.all_read()?;
    Some(
        run_scripts(&options)
            .map_err(|error| error.to_string())
            .map(|comparisons| {
                println!("{count} scripts of seed {}, from script {first} on", options.seed);
                concluded(&comparisons)
            }),
    )
}

fn concluded(comparisons: &[Comparison; 2]) -> bool {
    for (way, comparison) in Way::BOTH.iter().zip(comparisons) {
        println!("-- {}", way.words());
        report::print(comparison);
    }
    comparisons.iter().all(|comparison| comparison.found() == 0)
}

fn store(arguments: &mut Arguments) -> Outcome {
    let check = arguments.flag("--check");
    arguments.all_read()?;
    let (files, path) = (store::files(&FIRST), files::stored());
    Some(match check {
        true => Ok(store::stands_in(&files, &path)),
        false => store::write(&files, &path)
            .map(|()| true)
            .map_err(|error| error.to_string()),
    })
}
