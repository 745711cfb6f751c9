//! What happened, in words.

use crate::answer::{Answer, Verdict, decimal, decimals};
use crate::arm::Arm;

/// An answer to a command, told with what it did to the arm.
pub fn answer(command: &str, answer: &Answer, before: &Arm, after: &Arm) -> String {
    match &answer.verdict {
        Verdict::Wrong(what) => format!("    THE LIBRARY BROKE A PROMISE: {what}\n"),
        Verdict::Unreadable => format!("    unreadable; {}\n", left(before, after)),
        Verdict::Refused(refusal) => format!("    {refusal}; {}\n", left(before, after)),
        Verdict::Ok => done(command, answer, before, after),
    }
}

/// What a command that changes nothing left behind.
fn left(before: &Arm, after: &Arm) -> &'static str {
    match before.is(after) {
        true => "nothing changed, in any bit",
        false => "AND THE ARM CHANGED",
    }
}

fn done(command: &str, answer: &Answer, before: &Arm, after: &Arm) -> String {
    match command.split(' ').find(|word| !word.is_empty()) {
        Some("dump") => dumped(answer, after),
        Some("kin") => after.poses(),
        Some("new" | "empty" | "part") => {
            format!("    an arm of {}\n", counted(after.link_count(), "link"))
        }
        Some("link") => format!("    {}\n", added(before, after)),
        _ => match answer.lines.first() {
            Some(line) => format!("    {}\n", said(line)),
            None => format!("    {}\n", moved(before, after)),
        },
    }
}

fn dumped(answer: &Answer, arm: &Arm) -> String {
    let mut text = arm.tree();
    for line in &answer.lines {
        let ("row" | "coupling", Some((words, floats))) = (line[0].as_str(), parted(line)) else {
            continue;
        };
        text.push_str(&format!("    {words}: {}\n", decimals(floats)));
    }
    text
}

/// A line of a row or a coupling, parted into its words and its floats.
fn parted(line: &[String]) -> Option<(String, &[String])> {
    let at = match line[0].as_str() {
        "row" => 2,
        _ => 5,
    };
    let (words, floats) = line.split_at_checked(at)?;
    Some((named(words), floats))
}

/// A row by its name, a coupling by its links and axes.
fn named(words: &[String]) -> String {
    match words {
        [_, row] => String::from(match row.as_str() {
            "vel" => "velocities",
            "damp" => "damping",
            "arm" => "armature",
            "fric" => "frictions",
            _ => "accelerations",
        }),
        [_, link1, axis1, link2, axis2] => {
            format!("coupling of link {link1}, axis {axis1} with link {link2}, axis {axis2}")
        }
        _ => words.join(" "),
    }
}

/// A new link, and whether it left the others alone.
fn added(before: &Arm, after: &Arm) -> String {
    let (moved, _) = before.moved(after);
    match moved.as_slice() {
        [new] => format!("added as link {new}; every other link untouched, in every bit"),
        _ => format!("added; AND MORE CHANGED: {}", numbers(&moved)),
    }
}

fn counted(count: usize, what: &str) -> String {
    match count {
        1 => format!("1 {what}"),
        _ => format!("{count} {what}s"),
    }
}

/// Which links moved.
fn moved(before: &Arm, after: &Arm) -> String {
    let (moved, kept) = before.moved(after);
    match (moved.is_empty(), before.is(after)) {
        (true, true) => String::from("done; nothing changed, in any bit"),
        (true, false) => String::from("done; no link moved"),
        (false, _) => format!(
            "done; moved: {}; untouched, in every bit: {}",
            numbers(&moved),
            numbers(&kept)
        ),
    }
}

fn numbers(links: &[usize]) -> String {
    let words: Vec<String> = links.iter().map(usize::to_string).collect();
    match words.is_empty() {
        true => String::from("none"),
        false => words.join(", "),
    }
}

/// The line of an answer, its floats in decimals.
fn said(line: &[String]) -> String {
    match line[0].as_str() {
        "branch" => format!("from the root: {}", line[1..].join(", ")),
        "split" => split(&line[1..]),
        "starts" => line.join(" "),
        "check" => format!(
            "spare places that aren't +0: {}; floats past the tables that changed: {}",
            line[2], line[4]
        ),
        _ => line.iter().map(|word| spoken(word)).collect::<Vec<_>>().join(" "),
    }
}

/// Eight hexadecimal digits are a float; any other word stays.
fn spoken(word: &str) -> String {
    match word.len() == 8 && word.bytes().all(|byte| byte.is_ascii_hexdigit()) {
        true => decimal(word),
        false => String::from(word),
    }
}

fn split(words: &[String]) -> String {
    let mut text = counted(words[0].parse().unwrap_or(0), "part");
    for (link, place) in words[1..].iter().enumerate() {
        let told = match place.split_once('/') {
            Some(("255", _)) | None => String::from("deleted"),
            Some((part, number)) => format!("part {part} as {number}"),
        };
        text.push_str(&format!("; {link}: {told}"));
    }
    text
}
