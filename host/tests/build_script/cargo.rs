//! Cargo asks the build script again where something has changed, and two cargo runs at once don't disturb each other.

use crate::repository::{JOINED, Repository, told};
use std::env;
use std::fs;
use std::path::Path;
use std::process::{Command, Stdio};

const MANIFEST: &str = "[package]\nname = \"giellavor\"\nedition = \"2024\"\nbuild = \"build/main.rs\"\nlinks = \"giellavor\"\n[workspace]\n";

/// The small repository with a Rust crate that has this crate's build script, and nothing else of it.
fn with_crate(name: &str) -> Repository {
    let repository = Repository::new(name);
    repository.write("host/Cargo.toml", MANIFEST);
    repository.write("host/src/lib.rs", "");
    for file in fs::read_dir(Path::new(env!("CARGO_MANIFEST_DIR")).join("build"))
        .unwrap()
        .flatten()
    {
        let text = fs::read_to_string(file.path()).unwrap();
        repository.write(&format!("host/build/{}", file.file_name().display()), &text);
    }
    repository
}

/// A cargo run that links nothing, into a folder of its own.
fn cargo(repository: &Repository, folder: &str) -> Command {
    let path = env::var("PATH").unwrap_or_default();
    let mut cargo = Command::new(env::var_os("CARGO").unwrap_or("cargo".into()));
    cargo
        .args(["check", "--offline", "--quiet"])
        .current_dir(repository.path("host"));
    cargo.env("CARGO_TARGET_DIR", repository.path(folder));
    cargo.env("PATH", format!("{}:{path}", repository.path("kit/bin").display()));
    cargo.stdout(Stdio::piped()).stderr(Stdio::piped());
    cargo
}

#[test]
fn cargo_asks_again_where_something_has_changed() {
    let repository = with_crate("asked_again");
    let run = || {
        told(cargo(&repository, "cargo").output().unwrap());
        repository.made()
    };
    repository.write("crates/base/proofs/Proof.antt", "-- a proof\n");
    assert_eq!(run(), JOINED);
    assert_eq!(run(), 0);
    fs::remove_file(repository.path("crates/base/proofs/Proof.antt")).unwrap();
    assert_eq!(run(), JOINED, "a deleted source");
    repository.write("crates/sizes/specs/Sizes.antt", "-- sizes\n");
    assert_eq!(run(), JOINED, "a new source");
    repository.write("target/giellavor/libgiellavor.a", "cut");
    assert_eq!(run(), JOINED, "a cut archive");
    fs::remove_dir_all(repository.path("target")).unwrap();
    assert_eq!(run(), JOINED, "no archive");
    repository.write("kit/version", "another kit\n");
    let rt = repository.path("kit/bin/rt");
    fs::copy(&rt, repository.path("kit/rt")).unwrap();
    fs::rename(repository.path("kit/rt"), &rt).unwrap();
    assert_eq!(run(), JOINED, "another toolchain");
    assert_eq!(run(), 0);
}

#[test]
fn two_cargo_runs_at_once_make_it_once() {
    let repository = with_crate("two_at_once");
    let runs = ["one", "two"].map(|folder| cargo(&repository, folder).spawn().unwrap());
    for run in runs {
        told(run.wait_with_output().unwrap());
    }
    assert_eq!(repository.made(), JOINED);
}
