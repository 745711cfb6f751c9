//! What needs the crate's own text.

mod conditioning;
mod facts;

mod engine;

mod later;

mod session;

mod differ;
mod store;

mod commands;

pub use commands::run;
