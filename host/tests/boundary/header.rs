//! What `include/giellavor.h` declares is what the Rattle source has.

use crate::source::{exported, header_functions, header_numbers, header_structs, laid_out, limits};
use giellavor::ffi;

#[test]
fn the_functions_are_those_of_the_source() {
    assert_eq!(header_functions(), exported());
}

#[test]
fn the_structs_are_those_of_the_source() {
    assert_eq!(header_structs(), laid_out());
}

#[test]
fn the_limits_and_the_version_are_those_of_the_source() {
    let mut numbers = limits();
    numbers.insert("VERSION".to_string(), ffi::version() as usize);
    assert_eq!(header_numbers(), numbers);
}
