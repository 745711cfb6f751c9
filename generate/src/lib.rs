//! What runs by chance, the same for the same seed: numbers, floats, arms, commands and scripts; and what a program answers to such scripts.
//!
//! Floats and arguments are drawn as values; how a script spells them is decided after that.

pub mod rng;

pub mod floats;
pub mod shape;

pub mod hand;
pub mod masses;

pub mod spelling;

pub mod families;
pub mod wild;

pub mod batches;

pub mod answers;

pub mod changes;
pub mod compare;

pub mod arguments;

pub use hand::{Hand, Nature};
pub use rng::Rng;
pub use shape::Shape;
