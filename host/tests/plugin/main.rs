//! Splits, mask counts and the rotation, through the safe functions over bare lists and numbers.

mod marked;
mod random_bytes;
mod rotation;
#[path = "../common/size.rs"]
mod size;
mod small_lists;
