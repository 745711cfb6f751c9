//! The crate's answers to a script.

use super::engine::Engine;
use super::facts::Facts;
use super::later;
use script::{Command, Line, read};
use std::cell::Cell;
use std::panic::{AssertUnwindSafe, catch_unwind};

#[derive(Clone)]
pub struct Session(script::Session<Engine>);

impl Session {
    pub fn new(root_shifts_by_01: bool) -> Session {
        Session(script::Session::new(Engine::new(root_shifts_by_01)))
    }

    /// A command's answer; `panic` and the words where the crate gives up, `unasked` where there is nothing to ask it.
    pub fn answer(&mut self, command: &Command) -> String {
        caught(|| {
            let mut text = Vec::new();
            self.0.answer_command(command, &mut text);
            String::from_utf8(text).expect("an answer is text")
        })
    }

    /// A line's answer; the commands beyond the script are read too, if asked for.
    pub fn answer_line(&mut self, line: &[u8], later_commands: bool) -> String {
        match read(line) {
            Line::Nothing => String::new(),
            Line::Command(command) => self.answer(&command),
            Line::Unreadable if later_commands => {
                caught(|| later::answer(&mut self.0, line).unwrap_or("unreadable\n".into()))
            }
            Line::Unreadable => "unreadable\n".into(),
        }
    }

    pub fn facts(&self) -> Facts {
        self.0.engine.facts()
    }
}

thread_local! {
    /// Whether the crate is being asked.
    static ASKED: Cell<bool> = const { Cell::new(false) };
}

/// What the crate panics over is an answer, not a fault of the program: from now on nothing is told of it.
pub fn keep_quiet() {
    let tell = std::panic::take_hook();
    std::panic::set_hook(Box::new(move |panic| {
        if !ASKED.get() {
            tell(panic);
        }
    }));
}

/// What `answer` gives, or the words of the panic that it ends in.
fn caught(answer: impl FnOnce() -> String) -> String {
    ASKED.set(true);
    let answered = catch_unwind(AssertUnwindSafe(answer));
    ASKED.set(false);
    answered.unwrap_or_else(|panic| {
        let text = panic.downcast_ref::<String>().map(String::as_str);
        let words = text.or(panic.downcast_ref::<&str>().copied()).unwrap_or("");
        format!("panic {}\n", words.replace('\n', " "))
    })
}
