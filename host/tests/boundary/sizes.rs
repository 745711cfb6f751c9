//! What the archive says of itself is what crosses: the size of each struct, and a version that is raised with every change.

use crate::sha256;
use crate::source::{crossing, declared_order, header_order, sizes};
use giellavor::ffi;

/// The version and the sum of all that crosses in it, a line for each.
const VERSIONS: &str = include_str!("versions.txt");

#[test]
fn the_archive_has_the_sizes_that_the_source_gives_by_the_rules_of_c() {
    let sizes = sizes();
    let order = declared_order();
    assert_eq!(order.len(), sizes.len());
    for (place, name) in (0..).zip(&order) {
        assert_eq!(ffi::size(place) as usize, sizes[name], "{name}");
    }
    for place in [order.len() as u32, order.len() as u32 + 1, u32::MAX] {
        assert_eq!(ffi::size(place), 0);
    }
}

#[test]
fn the_header_has_the_structs_in_the_same_order() {
    assert_eq!(header_order(), declared_order());
}

/// Where this fails, something that crosses has changed: raise the version in `crates/sizes`, `src/archive.rs` and the header, and add a line.
#[test]
fn what_crosses_is_what_its_version_says() {
    let lines: Vec<(u32, &str)> = VERSIONS
        .lines()
        .filter_map(|line| line.split_once(' '))
        .map(|(version, sum)| (version.parse().unwrap(), sum))
        .collect();
    assert!(lines.windows(2).all(|two| two[0].0 < two[1].0), "versions rise");
    let last = (ffi::version(), &sha256::sum(crossing().as_bytes())[..]);
    assert_eq!(lines.last(), Some(&last));
}
