//! What a comparison came to, in words.

use crate::class::{Class, Rule};
use crate::compare::{Comparison, Count};
use std::collections::BTreeMap;
use std::fmt::{Display, Write};

const SHOWN: usize = 20;

pub fn print(comparison: &Comparison) {
    let refused: u64 = comparison.refused.values().sum();
    if !comparison.scripts.is_empty() {
        println!("scripts by family: {}", listed(&comparison.scripts));
    }
    println!(
        "{} commands, {refused} refused ({})",
        comparison.commands,
        listed(&comparison.refused)
    );
    println!(
        "{:34} {:9} {:>12} {:>12} {:>9} {:>12} {:>8}",
        "class", "rule", "values", "same bits", "worst", "left out", "differ"
    );
    for class in Class::ALL {
        let count = comparison.counts.get(&class).copied().unwrap_or_default();
        let (rule, worst) = match class.rule() {
            Rule::Exact => ("exact".to_string(), String::new()),
            Rule::Number => ("number".to_string(), String::new()),
            Rule::Within(most) | Rule::Share(most) => (most.to_string(), format!("{:.4}", count.worst)),
        };
        println!(
            "{:34} {rule:9} {:>12} {:>12} {worst:>9} {:>12} {:>8}",
            class.name(),
            count.values,
            count.same_bits,
            count.left_out,
            count.differences
        );
    }
    let total = |of: fn(&Count) -> u64| -> u64 { comparison.counts.values().map(of).sum() };
    println!(
        "{:44} {:>12} {:>12} {:>22} {:>8}",
        "all",
        total(|count| count.values),
        total(|count| count.same_bits),
        total(|count| count.left_out),
        comparison.found()
    );
    print_left_out(comparison);
    for difference in comparison.differences.iter().take(SHOWN) {
        let class = difference.class.name();
        println!(
            "script {} line {}: {class}: {}",
            difference.script, difference.line, difference.what
        );
        println!("    {}", difference.command);
    }
    println!("{} differences", comparison.found());
}

fn print_left_out(comparison: &Comparison) {
    for (reason, values) in &comparison.left_out {
        println!("left out: {values} values: {}", reason.words());
    }
    for (commands, why) in [
        (comparison.unasked, "pokes that the crate can't be asked"),
        (comparison.abandoned, "after a difference in what is accepted"),
    ] {
        if commands > 0 {
            println!("left out: {commands} commands: {why}");
        }
    }
}

fn listed(counts: &BTreeMap<impl Display, u64>) -> String {
    let pairs: Vec<String> = counts.iter().map(|(name, count)| format!("{name}: {count}")).collect();
    pairs.join(", ")
}

/// How many words of each class were compared, and how many left out.
pub fn counts(comparison: &Comparison) -> String {
    let mut text = format!("{} commands\n", comparison.commands);
    for class in Class::ALL {
        let count = comparison.counts.get(&class).copied().unwrap_or_default();
        writeln!(
            text,
            "{}: {} compared, {} left out",
            class.name(),
            count.values,
            count.left_out
        )
        .expect("memory can be written");
    }
    text
}
