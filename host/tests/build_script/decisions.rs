//! When the build script makes an archive anew: by content, whatever the times of the files are.

use crate::repository::{JOINED, Repository, told};
use std::fs;

#[test]
fn what_was_made_is_not_made_again() {
    let repository = Repository::new("made_once");
    assert_eq!(repository.run(), JOINED);
    assert_eq!(
        repository.archive(),
        b"// plugin\n// exports\n// exports_views\n// sizes\n"
    );
    assert_eq!(repository.run(), 0);
}

#[test]
fn a_file_that_is_written_with_the_same_content_is_no_change() {
    let repository = Repository::new("same_content");
    repository.run();
    repository.write("crates/base/src/lib.rt", "// base\n");
    assert_eq!(repository.run(), 0);
}

#[test]
fn a_source_that_is_changed_added_renamed_or_deleted_counts() {
    let repository = Repository::new("sources");
    repository.run();
    repository.write("crates/base/src/lib.rt", "// Base\n");
    assert_eq!(repository.run(), JOINED, "changed");
    repository.write("crates/base/proofs/deep/Proof.antt", "-- a proof\n");
    assert_eq!(repository.run(), JOINED, "added");
    let at = |name: &str| repository.path(&format!("crates/base/proofs/deep/{name}"));
    fs::rename(at("Proof.antt"), at("Other.antt")).unwrap();
    assert_eq!(repository.run(), JOINED, "renamed");
    fs::remove_file(at("Other.antt")).unwrap();
    assert_eq!(repository.run(), JOINED, "deleted");
    assert_eq!(repository.run(), 0);
}

#[test]
fn what_a_crate_uses_counts() {
    let repository = Repository::new("uses");
    repository.run();
    let list = fs::read_to_string(repository.path("crates.txt")).unwrap();
    repository.write("crates.txt", &list.replace("sizes staticlib:", "sizes staticlib: base"));
    assert_eq!(repository.run(), JOINED);
}

#[test]
fn what_a_crate_is_counts() {
    let repository = Repository::new("kinds");
    repository.run();
    let list = fs::read_to_string(repository.path("crates.txt")).unwrap();
    repository.write("crates.txt", &list.replace("sizes staticlib:", "sizes:"));
    assert_eq!(repository.run(), JOINED);
}

#[test]
fn who_asks_is_told_what_is_proved() {
    let repository = Repository::new("told");
    repository.write("kit/told", "");
    let run = || {
        told(
            repository
                .script()
                .env("GIELLAVOR_TELL", repository.path("kit/told"))
                .output()
                .unwrap(),
        )
    };
    run();
    let heard = || fs::read_to_string(repository.path("kit/told")).unwrap();
    let all = "2 of 6: plugin\n3 of 6: exports\n5 of 6: exports_views\n6 of 6: sizes\n";
    assert_eq!(heard(), all);
    run();
    assert_eq!(heard(), all, "nothing had to be proved");
}

#[test]
fn what_no_joined_crate_uses_is_no_change() {
    let repository = Repository::new("unused");
    repository.run();
    repository.write("crates/other/src/lib.rt", "// Other\n");
    repository.write("crates/base/must-fail/one.edit", "an edit\n");
    let list = fs::read_to_string(repository.path("crates.txt")).unwrap();
    repository.write("crates.txt", &format!("# A comment.\n{list}more: other\n"));
    assert_eq!(repository.run(), 0);
}

#[test]
fn another_toolchain_counts() {
    let repository = Repository::new("toolchain");
    repository.run();
    repository.write("kit/version", "another kit\n");
    assert_eq!(repository.run(), JOINED);
    assert_eq!(repository.run(), 0);
}

#[test]
fn an_archive_that_is_cut_swapped_or_gone_is_made_anew() {
    let repository = Repository::new("archives");
    repository.run();
    let whole = repository.archive();
    let cut = String::from_utf8_lossy(&whole[..10]).into_owned();
    for other in [&cut[..], "", "another archive\n"] {
        repository.write("target/giellavor/libgiellavor.a", other);
        assert_eq!(repository.run(), JOINED);
        assert_eq!(repository.archive(), whole);
    }
    for gone in ["libgiellavor.a", "libgiellavor.stamp"] {
        fs::remove_file(repository.path(&format!("target/giellavor/{gone}"))).unwrap();
        assert_eq!(repository.run(), JOINED);
    }
}

#[test]
fn without_a_toolchain_an_archive_that_fits_is_linked_and_any_other_is_not() {
    let repository = Repository::new("no_toolchain");
    repository.run();
    let without = || {
        repository
            .script()
            .env("PATH", repository.path("crates"))
            .output()
            .unwrap()
    };
    let said = told(without());
    assert!(said.contains("cargo::warning=`rt version` doesn't run"), "{said}");
    assert!(said.contains("cargo::rustc-link-lib=static=giellavor\n"), "{said}");
    repository.write("crates/base/src/lib.rt", "// Base\n");
    let run = without();
    assert!(!run.status.success());
    let said = String::from_utf8_lossy(&run.stderr);
    assert!(
        said.contains("its sources have changed") && said.contains("put the Rattle kit's `rt` on PATH"),
        "{said}"
    );
}

#[test]
fn an_archive_that_cannot_be_made_is_not_linked() {
    let repository = Repository::new("refused");
    repository.run();
    fs::remove_file(repository.path("crates/sizes/src/lib.rt")).unwrap();
    let run = repository.script().output().unwrap();
    assert!(!run.status.success());
    assert!(!String::from_utf8_lossy(&run.stdout).contains("rustc-link-lib"));
    assert!(String::from_utf8_lossy(&run.stderr).contains("`rt lib` in crates/sizes failed"));
}

#[test]
fn an_archive_whose_sources_change_meanwhile_is_not_linked() {
    let repository = Repository::new("meanwhile");
    repository.write("kit/meanwhile", "// Base\n");
    let run = repository.script().output().unwrap();
    assert!(!run.status.success());
    assert!(String::from_utf8_lossy(&run.stderr).contains("build once more"));
    fs::remove_file(repository.path("kit/meanwhile")).unwrap();
    repository.made();
    assert_eq!(repository.run(), JOINED);
}

#[test]
fn of_runs_at_once_one_makes_it_and_the_others_wait() {
    let repository = Repository::new("at_once");
    let runs: Vec<_> = (0..4).map(|_| repository.script().spawn().unwrap()).collect();
    for run in runs {
        told(run.wait_with_output().unwrap());
    }
    assert_eq!(repository.made(), JOINED);
}
