//! The boundary to the proved functions: what is declared in Rust and in C is what the Rattle source has, and is laid out as the Rattle side lays it out.

mod another_layout;
mod declarations;
mod header;
#[cfg(feature = "layouts")]
mod layouts;
#[path = "../../build/sha256.rs"]
mod sha256;
mod sizes;
mod source;
