//! Scripts of long mixed sequences, for the comparison with the crate. A comment before a command says what is expected of it, where that isn't `ok`.

mod expected;
mod family;

mod maker;

mod acts;
mod refusals;
mod solves;

mod life;

pub use expected::Expected;
pub use family::Family;
pub use life::script;
