//! Shows that the comparer can fail: in each class a deliberately wrong answer is reported, and one within the tolerance isn't.

use crate::class::{Class, Rule, float, places};
use crate::compare::Comparison;
use crate::stored;
use generate::answers::is_status;

/// How an answer's word is spoilt.
#[derive(Clone, Copy)]
enum Spoil {
    /// The next float, or another number.
    Least,
    /// By this share of the tolerance.
    Share(f32),
}

/// The part of the list in which every class occurs comes before the generated scripts.
fn every_class(list: &str) -> &str {
    list.split_once("\n# script ").map_or(list, |(first, _)| first)
}

pub fn run(list: &str) -> bool {
    let list = every_class(list);
    let right = stored::right_output(list);
    let mut passed = report("nothing spoilt", None, &stored::compare(list, &right, true));
    for class in Class::ALL {
        if matches!(class, Class::Refusals | Class::Tables) {
            continue;
        }
        let wrong = match class.rule() {
            Rule::Exact | Rule::Number => Spoil::Least,
            _ => Spoil::Share(1.25),
        };
        let compared = |how| stored::compare(list, &spoilt(&right, class, how), true);
        passed &= report(class.name(), Some(class), &compared(wrong));
        if let Spoil::Share(_) = wrong {
            passed &= report(class.name(), None, &compared(Spoil::Share(0.75)));
        }
    }
    for (name, from, to, class) in REPLACED {
        assert!(right.contains(from), "{from}");
        let replaced = right.replacen(from, to, 1);
        passed &= report(name, Some(class), &stored::compare(list, &replaced, true));
    }
    passed &= report(
        "a missing line",
        Some(Class::Form),
        &without_line(list, &right, "\ncoupling "),
    );
    passed &= report(
        "no answer at the end",
        Some(Class::Refusals),
        &without_line(list, &right, "\nrefused "),
    );
    let more = format!("{right}ok\n");
    passed &= report("a spare answer", Some(Class::Form), &stored::compare(list, &more, true));
    let failing = stored::compare(list, &right, false);
    passed &= report("a program that fails", Some(Class::Form), &failing);
    let verdict = match passed {
        true => "the comparer fails where it must",
        false => "THE COMPARER IS AT FAULT",
    };
    println!("{verdict}");
    passed
}

const REPLACED: [(&str, &str, &str, Class); 8] = [
    ("a refused number", "refused 4", "refused 5", Class::Refusals),
    (
        "a refusal passed over",
        "refused 4",
        "ok\nbranch 0 1 3",
        Class::Refusals,
    ),
    (
        "an accepted command refused",
        "ok\nbranch 0 1 2",
        "refused 4",
        Class::Refusals,
    ),
    ("a readable line", "ok\nbranch 0 1 2", "unreadable", Class::Refusals),
    ("a table's spare place", "check spare 0", "check spare 1", Class::Tables),
    ("a float past the tables", "past 0", "past 1", Class::Tables),
    (
        "a missing word",
        "spring 3f000000 3f400000",
        "spring 3f000000",
        Class::Form,
    ),
    ("a spare word", "starts 0 0 1 2", "starts 0 0 1 2 5", Class::Form),
];

/// The last line that begins so is left out.
fn without_line(list: &str, right: &str, begin: &str) -> Comparison {
    let at = right.rfind(begin).expect("such a line") + 1;
    let end = right[at..].find('\n').map_or(right.len(), |end| at + end + 1);
    stored::compare(list, &format!("{}{}", &right[..at], &right[end..]), true)
}

/// The answers with the last word of a class spoilt.
fn spoilt(answers: &str, class: Class, how: Spoil) -> String {
    let mut lines: Vec<String> = answers.lines().map(String::from).collect();
    let found = lines.iter().enumerate().rev().find_map(|(number, line)| {
        let at = places(line)
            .enumerate()
            .filter(|(_, (_, place))| place.class == class)
            .last();
        at.filter(|_| !is_status(line)).map(|(at, _)| (number, at))
    });
    let (number, at) = found.unwrap_or_else(|| panic!("no {} in the list", class.name()));
    let mut words: Vec<String> = lines[number].split(' ').map(String::from).collect();
    words[at] = spoilt_word(&words[at], class, how);
    lines[number] = words.join(" ");
    lines.join("\n") + "\n"
}

fn spoilt_word(word: &str, class: Class, how: Spoil) -> String {
    match (float(word), how) {
        (Some(value), Spoil::Share(share)) => {
            let tolerance = match class.rule() {
                Rule::Within(most) => most,
                _ => 0.001 * value.abs().max(1.0),
            };
            format!("{:08x}", (value + tolerance * share).to_bits())
        }
        (Some(value), Spoil::Least) => format!("{:08x}", value.to_bits() ^ 1),
        (None, _) => format!("{word}1"),
    }
}

/// Whether exactly one difference was found, in the wanted class, or none.
fn report(name: &str, wanted: Option<Class>, comparison: &Comparison) -> bool {
    let found: Vec<Class> = comparison
        .differences
        .iter()
        .map(|difference| difference.class)
        .collect();
    let as_wanted = found == wanted.into_iter().collect::<Vec<_>>();
    let what = if wanted.is_some() { "reported" } else { "let pass" };
    println!("{} {name}: {what}", if as_wanted { "ok  " } else { "FAIL" });
    as_wanted
}
