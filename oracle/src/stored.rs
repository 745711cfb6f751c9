//! The stored list: scripts, with what is expected of each command behind it.
//!
//! To a script a line of an expected answer is a comment, so the list is a script itself.

use crate::compare::{Asked, Comparison};
use crate::expected::of_stored_line;
use generate::answers::{Answers, NO_ANSWER, is_status};
use script::{Line, read};

/// Before a line of an expected answer.
pub const ANSWER: &str = "#= ";

/// A command of the list with the lines of its expected answer.
struct Entry<'a> {
    line: usize,
    command: &'a str,
    answer: Vec<&'a str>,
}

fn entries(list: &str) -> Vec<Entry<'_>> {
    let mut entries: Vec<Entry> = vec![];
    for (number, line) in list.lines().enumerate() {
        if let (Some(answer), Some(entry)) = (line.strip_prefix(ANSWER), entries.last_mut()) {
            entry.answer.push(answer);
        } else if !matches!(read(line.as_bytes()), Line::Nothing) {
            entries.push(Entry {
                line: number + 1,
                command: line,
                answer: vec![],
            });
        }
    }
    entries
}

/// What a program answered to the list, compared with it, and whether it ended well.
pub fn compare(list: &str, output: &str, ended_well: bool) -> Comparison {
    let mut comparison = Comparison::default();
    let mut answers = Answers::of(output);
    for entry in entries(list) {
        let asked = Asked {
            script: 0,
            line: entry.line,
            command: entry.command,
        };
        let (status, ours) = answers.next().unwrap_or(NO_ANSWER);
        let (expected, lines) = entry.answer.split_first().unwrap_or((&"an answer", &[]));
        comparison.status(&asked, status, status == *expected);
        if status == *expected {
            comparison.lines(&asked, &ours, lines, of_stored_line);
        }
    }
    comparison.end(0, answers.next().is_none(), ended_well);
    comparison
}

/// An output in which every word is as the list has it.
pub fn right_output(list: &str) -> String {
    let mut output = String::new();
    for line in entries(list).iter().flat_map(|entry| &entry.answer) {
        let word = |word: &str| match word.split_once('/') {
            Some((value, size)) if size.len() == 8 => value.to_string(),
            _ if word.starts_with('-') => "00000000".to_string(),
            _ => word.to_string(),
        };
        let words: Vec<String> = line.split(' ').map(word).collect();
        output += &if is_status(line) {
            line.to_string()
        } else {
            words.join(" ")
        };
        output.push('\n');
    }
    output
}
