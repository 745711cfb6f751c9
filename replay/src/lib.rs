//! The replay script over what a plug-in calls: the exported functions with an arm and memory of one's own ([`Lent`]), and the arm that keeps its own
//! memory ([`Owned`]).

mod terms;

mod lent;

mod owned;

pub use lent::Lent;
pub use owned::Owned;

use script::Engine;
use std::io;
use std::process::ExitCode;

/// Plays the script on standard input over an engine, and writes its answers to standard output.
pub fn replay(engine: impl Engine) -> ExitCode {
    match script::run(engine, io::stdin().lock(), io::stdout().lock()) {
        Ok(()) => ExitCode::SUCCESS,
        Err(error) => {
            eprintln!("replay: {error}");
            ExitCode::FAILURE
        }
    }
}
