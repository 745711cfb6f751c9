//! Commands as lines of a script.

mod line;
mod spoilt;
mod word;

pub use line::line;
pub use spoilt::{decimal, no_float, spoilt};
pub use word::{Plainly, Spelling, Variously};
