//! What is printed: a line for each timed call.

use crate::times::least;

/// The times of a call on each side, in ns.
#[derive(Clone, Copy)]
pub struct Times {
    pub ours: f64,
    pub rust: f64,
    /// Plain Rust that is handed an arm and answers with one, as ours is and does.
    pub by_value: Option<f64>,
    /// The crate's own text.
    pub text: Option<f64>,
}

impl Times {
    /// Ours and plain Rust, where no arm is passed on.
    pub fn of(ours: &mut dyn FnMut(), rust: &mut dyn FnMut()) -> Times {
        let [ours, rust] = least([ours, rust]);
        Times::both(ours, rust)
    }

    /// The times of both, where no arm is passed on.
    pub fn both(ours: f64, rust: f64) -> Times {
        Times {
            ours,
            rust,
            by_value: None,
            text: None,
        }
    }
}

pub struct Table {
    worst: f64,
    remarks: Vec<String>,
}

/// ns, with a tenth where they are few.
fn ns(time: f64) -> String {
    format!("{time:.*}", usize::from(time < 100.0))
}

/// A time and its ratio, or nothing where there is none.
fn cell(ours: f64, other: Option<f64>) -> String {
    match other {
        Some(other) => format!("{:>10} {:6.2}", ns(other), ours / other),
        None => format!("{:>10} {:>6}", "-", "-"),
    }
}

impl Table {
    pub fn new() -> Table {
        println!(
            "{:28} {:>9} {:>17} {:>17} {:>17}",
            "", "ours", "plain Rust", "arm by value", "crate's text"
        );
        println!(
            "{:28} {:>9} {}",
            "",
            "ns",
            format!("{:>10} {:>6} ", "ns", "ratio").repeat(3)
        );
        Table {
            worst: 0.0,
            remarks: vec![],
        }
    }

    pub fn line(&mut self, name: &str, times: Times) -> Times {
        let Times {
            ours,
            rust,
            by_value,
            text,
        } = times;
        self.worst = self.worst.max(ours / by_value.unwrap_or(rust));
        let cells = [Some(rust), by_value, text].map(|other| cell(ours, other));
        println!("{name:28} {:>9} {}", ns(ours), cells.join(" "));
        times
    }

    /// A line for each size.
    pub fn sizes<const N: usize>(
        &mut self,
        name: &str,
        unit: &str,
        sizes: [usize; N],
        time: impl Fn(usize) -> Times,
    ) -> [Times; N] {
        let times = sizes.map(|size| {
            let unit = if size == 1 { unit.trim_end_matches('s') } else { unit };
            self.line(&format!("{name}, {size} {unit}"), time(size))
        });
        let (first, last) = (times[0], times[N - 1]);
        self.remark(format!(
            "{name}: {} {unit} take {:.1} times as long as {} (plain Rust: {:.1})",
            sizes[N - 1],
            last.ours / first.ours,
            sizes[0],
            last.rust / first.rust
        ));
        times
    }

    /// Printed at the end.
    pub fn remark(&mut self, text: String) {
        self.remarks.push(text);
    }

    pub fn sum_up(&self) {
        println!();
        self.remarks.iter().for_each(|line| println!("{line}"));
        println!(
            "worst ratio, an arm being passed on by value on both sides: {:.2}",
            self.worst
        );
    }
}
