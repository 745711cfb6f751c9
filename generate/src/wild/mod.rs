//! Scripts made up by a seed: long lives of sound arms, broken arms, borders of every argument, and text that can't be
//! read.

mod author;
mod coverage;

mod commands;
mod pokes;
mod text;

mod lives;

pub use coverage::Coverage;
pub use lives::{Script, script};
