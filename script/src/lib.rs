//! The replay script: one command a line, an answer for each. docs/SCRIPT.md describes it.
//!
//! One reader and one writer serve every engine that plays it: the proved library as the plug-in calls it, the plain reading of document 01, and the
//! crate's own text.

pub mod limits;

mod terms;

mod command;
mod words;

mod engine;

mod lines;
mod session;

mod run;

pub use command::{Command, Line, NAMES, Poke, read};
pub use engine::{Answer, Engine, No};
pub use lines::Lines;
pub use run::{answers_to, run};
pub use session::{Session, write_row};
pub use terms::{
    ConstraintRow, Coupling, Kept, Limit, LinkState, MaskCounts, NewCoupling, NewLink, Pose, Role, RootType, RowName,
    Split,
};
pub use words::{MOST_DIGITS_AFTER_POINT, MOST_IN_DECIMAL, MOST_LINE, Words, float};
