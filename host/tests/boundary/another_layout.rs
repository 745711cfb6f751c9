//! An archive that isn't the one of this crate is never run. Here is one of the right names whose functions kill the process, and that says of itself what
//! it is told to say. A program over the crate is linked with it, in the place of what the build script links, and every call of it is refused by 255.

use crate::source::{exported, host, include};
use giellavor::ffi;
use std::env;
use std::ffi::OsString;
use std::fs;
use std::path::{Path, PathBuf};
use std::process::Command;

const TARGET: &str = "x86_64-unknown-linux-gnu";

/// What the archive may say otherwise, each by an environment variable.
const LIES: [&str; 3] = ["OTHER_VERSION", "OTHER_SIZE", "ONE_STRUCT_MORE"];

#[test]
fn no_function_of_an_archive_of_another_layout_is_run() {
    let folder = folder("another_layout");
    build_program(&folder);
    let run = |lie: Option<&str>| cargo(&folder, "run").envs(lie.map(|lie| (lie, "1"))).output().unwrap();
    for lie in LIES {
        let said = run(Some(lie));
        let text = String::from_utf8_lossy(&said.stdout);
        assert!(said.status.success(), "{lie}: {said:?}");
        assert_eq!(text.lines().count(), exported().len() - 2, "{text}");
        for line in text.lines() {
            assert!(line.ends_with(" 255"), "{lie}: {line}");
        }
    }
    // Where it says what it should, its functions are run: that they kill is no empty threat.
    assert!(!run(None).status.success());
}

#[test]
fn a_c_program_is_told_before_its_first_call() {
    let folder = folder("another_layout_in_c");
    let source = include().join("../examples/c/tickets.c");
    cc(
        &folder,
        &[
            "-I",
            &include().to_string_lossy(),
            &source.to_string_lossy(),
            "stand_in.o",
            "-o",
            "tickets",
        ],
    );
    let words = env::var_os("RUN").into_iter().chain([folder.join("tickets").into()]);
    let words: Vec<OsString> = words.collect();
    let run = |lie: Option<&str>| {
        let mut program = Command::new(&words[0]);
        program.args(&words[1..]).envs(lie.map(|lie| (lie, "1")));
        program.output().unwrap().status.code()
    };
    // Killed, it has no code.
    assert_eq!(run(None), None);
    for lie in LIES {
        assert_eq!(run(Some(lie)), Some(1), "{lie}");
    }
}

/// The archive's text: what it says of itself, and under every other name what kills.
fn stand_in() -> String {
    let sizes: Vec<u32> = (0..)
        .map(|place| ffi::size(place))
        .take_while(|&size| size != 0)
        .collect();
    let (version, count) = (ffi::version(), sizes.len());
    let sizes: String = sizes.iter().map(|size| format!("{size}, ")).collect();
    let [other_version, other_size, one_more] = LIES.map(|lie| format!("(getenv(\"{lie}\") != 0)"));
    let asked = format!(
        "extern char *getenv(const char *);
         static const unsigned sizes[] = {{ {sizes} 8 }};
         unsigned giellavor_version(void) {{ return {version} + {other_version}; }}
         unsigned giellavor_size(unsigned place) {{
             return place < {count} + {one_more} ? sizes[place] + 8 * {other_size} : 0;
         }}\n"
    );
    let others = exported()
        .into_keys()
        .filter(|name| !asked.contains(&format!("{name}(")));
    let others: String = others
        .map(|name| format!("void {name}(void) {{ __builtin_trap(); }}\n"))
        .collect();
    asked + &others
}

/// An archive of one object file. Rust's compiler makes the index itself.
fn archive_of(object: &[u8]) -> Vec<u8> {
    let length = object.len();
    let mut archive = format!(
        "!<arch>\n{:<16}{:<12}{:<6}{:<6}{:<8}{length:<10}`\n",
        "stand_in.o/", 0, 0, 0, 644
    )
    .into_bytes();
    archive.extend(object);
    archive.resize(archive.len().next_multiple_of(2), b'\n');
    archive
}

fn cc(folder: &Path, words: &[&str]) {
    let mut compiler = Command::new(env::var_os("CC").unwrap_or("cc".into()));
    assert!(compiler.args(words).current_dir(folder).status().unwrap().success());
}

/// A folder with the stand-in as an object file and as an archive.
fn folder(name: &str) -> PathBuf {
    let folder = Path::new(env!("CARGO_TARGET_TMPDIR")).join(name);
    fs::create_dir_all(&folder).unwrap();
    fs::write(folder.join("stand_in.c"), stand_in()).unwrap();
    cc(&folder, &["-c", "stand_in.c", "-o", "stand_in.o"]);
    let object = fs::read(folder.join("stand_in.o")).unwrap();
    fs::write(folder.join("libgiellavor.a"), archive_of(&object)).unwrap();
    folder
}

/// Builds `another_layout/program.rs` there. For what has the `links` key that the configuration names, cargo runs no build script.
fn build_program(folder: &Path) {
    let manifest = format!(
        "[package]\nname = \"another_layout\"\nedition = \"2024\"\n\
         [dependencies]\ngiellavor = {{ path = {:?} }}\n[workspace]\n",
        host()
    );
    let configuration = format!(
        "[target.{TARGET}.giellavor]\nrustc-link-lib = [\"static=giellavor\"]\nrustc-link-search = [{folder:?}]\n"
    );
    fs::create_dir_all(folder.join("src")).unwrap();
    fs::create_dir_all(folder.join(".cargo")).unwrap();
    fs::write(folder.join("src/main.rs"), include_str!("another_layout/program.rs")).unwrap();
    fs::write(folder.join("Cargo.toml"), manifest).unwrap();
    fs::write(folder.join(".cargo/config.toml"), configuration).unwrap();
    let built = cargo(folder, "build").output().unwrap();
    assert!(built.status.success(), "{}", String::from_utf8_lossy(&built.stderr));
}

fn cargo(folder: &Path, verb: &str) -> Command {
    let mut cargo = Command::new(env::var_os("CARGO").unwrap_or("cargo".into()));
    cargo.args([verb, "--offline", "--quiet", "--target", TARGET]);
    cargo.env("CARGO_TARGET_DIR", folder.join("target")).current_dir(folder);
    cargo
}
