//! The Rattle kit, by its `rt` on PATH.

use crate::stop::stop;
use std::env;
use std::io::{self, BufRead, BufReader};
use std::path::{Path, PathBuf};
use std::process::{Command, ExitStatus, Stdio};

/// Where `rt` is.
pub fn rt() -> Option<PathBuf> {
    let path = env::var_os("PATH")?;
    let found = env::split_paths(&path)
        .map(|folder| folder.join("rt"))
        .find(|file| file.is_file());
    found?.canonicalize().ok()
}

/// The toolchain's identity, where it can be asked.
pub fn version() -> Option<String> {
    let said = Command::new("rt")
        .arg("version")
        .output()
        .ok()
        .filter(|said| said.status.success())?;
    Some(String::from_utf8_lossy(&said.stdout).trim().to_string())
}

/// Proves a static library and all that it uses, and makes its archive, crates/NAME/out/libNAME.a. Each crate that has to be proved is told of as it begins.
pub fn lib(root: &Path, name: &str, begins: impl Fn(&str)) -> PathBuf {
    let folder = root.join("crates").join(name);
    let mut rt = Command::new("rt");
    rt.arg("lib").current_dir(&folder);
    succeed(rt, &format!("`rt lib` in crates/{name}"), |line| {
        let begun = line
            .strip_prefix("rt: chose --jobs ")
            .and_then(|rest| rest.split_once(" for "));
        if let Some((_, name)) = begun {
            begins(name);
        }
    });
    folder.join("out").join(format!("lib{name}.a"))
}

/// Joins archives into one. `rt lib` exports the functions of its own crate alone; what these use stands beside them, under names that no other archive sees.
pub fn join(archives: &[PathBuf], into: &Path) {
    let kit = rt().and_then(|rt| Some(rt.parent()?.parent()?.to_path_buf()));
    let archiver = kit.unwrap_or_default().join("toolchain/bin/llvm-ar");
    let mut join = Command::new(&archiver);
    join.arg("qLcs").arg(into).args(archives);
    succeed(join, &archiver.display().to_string(), |_| {});
}

/// Runs a command, hears each line that it says, and ends the build with all of them where it fails.
fn succeed(command: Command, name: &str, hear: impl Fn(&str)) {
    let mut said = vec![];
    let run = run(command, |line| {
        hear(&line);
        said.push(line);
    });
    match run {
        Err(why) => stop(&format!("{name} can't be run: {why}")),
        Ok(status) if !status.success() => stop(&format!("{name} failed ({status}):\n{}", said.join("\n"))),
        Ok(_) => {}
    }
}

/// Runs a command, whose errors come among its other lines.
fn run(mut command: Command, mut hear: impl FnMut(String)) -> io::Result<ExitStatus> {
    let (from, to) = io::pipe()?;
    command.stdin(Stdio::null()).stdout(to.try_clone()?).stderr(to);
    let mut running = command.spawn()?;
    // With it go its ends of the pipe, so that the lines end with the run.
    drop(command);
    for line in BufReader::new(from).split(b'\n') {
        hear(String::from_utf8_lossy(&line?).into_owned());
    }
    running.wait()
}
