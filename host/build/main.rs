//! Links the proved archives, and makes those with `rt lib` that aren't there or aren't made of what stands in the repository.

mod archive;
mod kit;
mod sha256;
mod sources;
mod stop;

use archive::Archive;
use std::env;
use std::fs;
use std::fs::File;
use std::os::fd::AsRawFd;
use std::path::{Path, PathBuf};
use stop::stop;

/// The calls of the library.
const CALLS: Archive = Archive {
    name: "giellavor",
    crates: &["plugin", "exports", "exports_views", "sizes"],
};

/// What the tests of the layouts and `bench/` call, each by the feature of that name.
const FEATURES: [(&str, Archive); 2] = [
    (
        "CARGO_FEATURE_LAYOUTS",
        Archive {
            name: "giellavor_layouts",
            crates: &["layouts"],
        },
    ),
    (
        "CARGO_FEATURE_TIMED",
        Archive {
            name: "giellavor_timed",
            crates: &["timed"],
        },
    ),
];

fn main() {
    let host = PathBuf::from(env::var_os("CARGO_MANIFEST_DIR").unwrap_or_default());
    let root = host.parent().unwrap_or(&host).to_path_buf();
    let folder = root.join("target/giellavor");
    fs::create_dir_all(&folder).unwrap_or_else(|why| stop(&format!("{} can't be made: {why}", folder.display())));
    println!("cargo::rerun-if-changed=build");
    println!("cargo::rerun-if-changed={}", root.join("crates.txt").display());
    println!("cargo::rerun-if-env-changed=PATH");
    println!("cargo::rustc-link-search=native={}", folder.display());
    if let Some(rt) = kit::rt() {
        println!("cargo::rerun-if-changed={}", rt.display());
    }
    let toolchain = kit::version();
    if toolchain.is_none() {
        println!("cargo::warning=`rt version` doesn't run: whether another toolchain made the archives isn't known");
    }
    let asked = FEATURES.iter().filter(|(set, _)| env::var_os(set).is_some());
    let _alone = alone(&root.join("crates.txt"));
    for archive in [&CALLS].into_iter().chain(asked.map(|(_, archive)| archive)) {
        archive.link(&root, &folder, toolchain.as_deref());
    }
    readme(&root.join("README.md"));
}

/// Waits until no other build script works on this repository's archives; none does until the file is closed.
fn alone(file: &Path) -> File {
    unsafe extern "C" {
        safe fn flock(file: i32, operation: i32) -> i32;
    }
    const EXCLUSIVE: i32 = 2;
    let opened = File::open(file).unwrap_or_else(|why| stop(&format!("{} can't be read: {why}", file.display())));
    while flock(opened.as_raw_fd(), EXCLUSIVE) != 0 {
        let why = std::io::Error::last_os_error();
        if why.kind() != std::io::ErrorKind::Interrupted {
            stop(&format!("{} can't be locked: {why}", file.display()));
        }
    }
    opened
}

/// The Rust blocks of the repository's README, for the doc tests.
fn readme(file: &Path) {
    println!("cargo::rerun-if-changed={}", file.display());
    let text = fs::read_to_string(file).unwrap_or_default();
    let blocks = text
        .split("```rust\n")
        .skip(1)
        .filter_map(|rest| rest.split("```").next());
    let blocks: String = blocks.map(|block| format!("```\n{block}```\n")).collect();
    let made = PathBuf::from(env::var_os("OUT_DIR").unwrap_or_default()).join("readme.md");
    fs::write(&made, blocks).unwrap_or_else(|why| stop(&format!("{} can't be written: {why}", made.display())));
}
