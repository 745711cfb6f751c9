//! The arm from outside: over lent memory between guards, with any argument, and through the safe type.

mod calls;
mod equality;
mod exported;
mod given;
mod memory;
mod methods;
mod outline;
mod refusals;
mod sequences;
#[path = "../common/size.rs"]
mod size;
mod soak;
mod state;
mod tags;
mod wild;
