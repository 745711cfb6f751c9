//! Answers the replay script on standard input by the plain reading.

use std::io;
use std::process::ExitCode;

fn main() -> ExitCode {
    match script::run(plain::Engine::default(), io::stdin().lock(), io::stdout().lock()) {
        Ok(()) => ExitCode::SUCCESS,
        Err(error) => {
            eprintln!("plain: {error}");
            ExitCode::FAILURE
        }
    }
}
