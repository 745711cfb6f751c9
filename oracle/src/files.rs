//! Where the stored list stands.

use std::path::{Path, PathBuf};

/// The list and its counts, without their ending.
pub fn stored() -> PathBuf {
    Path::new(env!("CARGO_MANIFEST_DIR")).join("stored")
}

/// The text of a file.
///
/// # Errors
/// It can't be read.
pub fn read(path: impl AsRef<Path>) -> Result<String, String> {
    let path = path.as_ref();
    std::fs::read_to_string(path).map_err(|error| format!("{}: {error}", path.display()))
}
