//! The words of a command line, and what becomes of them.

use std::process::ExitCode;

/// What a command came to: whether nothing differs. `None` where its words can't be read.
pub type Outcome = Option<Result<bool, String>>;

/// How a program ends.
pub fn concluded(outcome: Outcome, usage: &str) -> ExitCode {
    match outcome {
        Some(Ok(true)) => ExitCode::SUCCESS,
        Some(Ok(false)) => ExitCode::FAILURE,
        Some(Err(error)) => {
            eprintln!("{error}");
            ExitCode::FAILURE
        }
        None => {
            eprintln!("{usage}");
            ExitCode::from(2)
        }
    }
}

/// `--name value`, `--flag`, and plain words.
pub struct Arguments(Vec<String>);

impl Arguments {
    /// Those of this program.
    pub fn of_program() -> Arguments {
        Arguments(std::env::args().skip(1).collect())
    }

    pub fn flag(&mut self, name: &str) -> bool {
        let at = self.0.iter().position(|word| word == name);
        at.map(|at| self.0.remove(at)).is_some()
    }

    /// The value of an option, read, or what stands for it where it isn't given; `None` where it can't be read.
    pub fn option<T>(&mut self, name: &str, otherwise: T, read: impl Fn(&str) -> Option<T>) -> Option<T> {
        let Some(at) = self.0.iter().position(|word| word == name) else {
            return Some(otherwise);
        };
        let value = self.0.get(at + 1).and_then(|word| read(word))?;
        self.0.drain(at..at + 2);
        Some(value)
    }

    /// A number, or what stands for it.
    pub fn number(&mut self, name: &str, otherwise: u64) -> Option<u64> {
        self.option(name, otherwise, |word| word.parse().ok())
    }

    /// The next plain word.
    pub fn plain(&mut self) -> Option<String> {
        (!self.0.is_empty()).then(|| self.0.remove(0))
    }

    pub fn all_read(&self) -> Option<()> {
        self.0.is_empty().then_some(())
    }
}
