//! The same through the methods of the arm that keeps its own memory: what a script asks with a broken arm or short memory is answered `unasked`.

use std::process::ExitCode;

fn main() -> ExitCode {
    replay::replay(replay::Owned::default())
}
