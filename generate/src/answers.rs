//! The answers of a program, one by one.

/// The line that says what became of a command, and those after it.
pub struct Answers<'a> {
    lines: std::iter::Peekable<std::str::Lines<'a>>,
}

impl<'a> Answers<'a> {
    pub fn of(output: &'a str) -> Self {
        Answers {
            lines: output.lines().peekable(),
        }
    }
}

impl<'a> Iterator for Answers<'a> {
    type Item = (&'a str, Vec<&'a str>);

    fn next(&mut self) -> Option<Self::Item> {
        let status = self.lines.next()?;
        let mut rest = Vec::new();
        while let Some(line) = self.lines.next_if(|line| !is_status(line)) {
            rest.push(line);
        }
        Some((status, rest))
    }
}

pub fn is_status(line: &str) -> bool {
    matches!(line, "ok" | "unreadable" | "unasked")
        || ["refused ", "wrong ", "panic"]
            .iter()
            .any(|word| line.starts_with(word))
}

/// What stands for an answer that didn't come.
pub const NO_ANSWER: (&str, Vec<&str>) = ("no answer", Vec::new());
