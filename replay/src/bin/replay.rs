//! Plays the replay script on standard input through the exported functions, and writes its answers.

use std::process::ExitCode;

fn main() -> ExitCode {
    replay::replay(replay::Lent::new())
}
