//! How often each command was answered in each way.

use script::NAMES;
use std::collections::BTreeMap;
use std::fmt;

/// Accepted, refused by each number, unreadable.
const WAYS: usize = 14;
const UNREADABLE: usize = 13;

/// For each command, how often it got each answer.
#[derive(Clone, Debug, Default)]
pub struct Coverage(BTreeMap<String, [u64; WAYS]>);

impl Coverage {
    pub fn count(&mut self, line: &[u8], answer: &[u8]) {
        let way = if answer.starts_with(b"ok") {
            0
        } else if let Some(number) = answer.strip_prefix(b"refused ") {
            number
                .iter()
                .take_while(|b| b.is_ascii_digit())
                .fold(0, |n, b| 10 * n + usize::from(b - b'0'))
        } else if answer.starts_with(b"unreadable") {
            UNREADABLE
        } else {
            return;
        };
        let first = line
            .split(|&b| b == b' ')
            .find(|word| !word.is_empty())
            .unwrap_or_default();
        let name = NAMES.iter().find(|name| name.as_bytes() == first).unwrap_or(&"(other)");
        self.0.entry(name.to_string()).or_insert([0; WAYS])[way] += 1;
    }

    pub fn add(&mut self, other: &Coverage) {
        for (name, counts) in &other.0 {
            let sums = self.0.entry(name.clone()).or_insert([0; WAYS]);
            for (sum, count) in sums.iter_mut().zip(counts) {
                *sum += count;
            }
        }
    }
}

impl fmt::Display for Coverage {
    fn fmt(&self, f: &mut fmt::Formatter) -> fmt::Result {
        write!(f, "{:11}{:>8}", "", "ok")?;
        for number in 1..UNREADABLE {
            write!(f, "{number:>8}")?;
        }
        writeln!(f, "{:>11}", "unreadable")?;
        for (name, counts) in &self.0 {
            write!(f, "{name:11}")?;
            for count in &counts[..UNREADABLE] {
                if *count == 0 {
                    write!(f, "{:>8}", ".")?;
                } else {
                    write!(f, "{count:>8}")?;
                }
            }
            writeln!(f, "{:>11}", counts[UNREADABLE])?;
        }
        Ok(())
    }
}
