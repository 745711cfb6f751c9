//! A small repository with the crate's own build script, and a kit that proves nothing and counts its calls.

use std::env;
use std::fs;
use std::os::unix::fs::PermissionsExt;
use std::path::{Path, PathBuf};
use std::process::{Command, Output, Stdio};
use std::sync::OnceLock;

const CRATES: &str = "base:\nplugin staticlib: base\nexports staticlib: base\nviews: base\n\
    exports_views staticlib: base views\nsizes staticlib:\nother: base\n";

/// The crates that the archive of the calls joins.
pub const JOINED: usize = 4;

pub struct Repository {
    root: PathBuf,
}

fn temporary() -> &'static Path {
    Path::new(env!("CARGO_TARGET_TMPDIR"))
}

/// The build script, compiled for the machine that builds.
fn script() -> &'static Path {
    static SCRIPT: OnceLock<PathBuf> = OnceLock::new();
    SCRIPT.get_or_init(|| {
        let made = temporary().join("build_script");
        let mut rustc = Command::new(env::var_os("RUSTC").unwrap_or("rustc".into()));
        rustc.args([
            "--edition",
            "2024",
            concat!(env!("CARGO_MANIFEST_DIR"), "/build/main.rs"),
            "-o",
        ]);
        assert!(rustc.arg(&made).status().unwrap().success());
        made
    })
}

impl Repository {
    pub fn new(name: &str) -> Repository {
        let root = temporary().join(name);
        let _ = fs::remove_dir_all(&root);
        let repository = Repository { root };
        repository.write("crates.txt", CRATES);
        repository.write("README.md", "");
        for line in CRATES.lines() {
            let name = line.split([' ', ':']).next().unwrap();
            repository.write(&format!("crates/{name}/src/lib.rt"), &format!("// {name}\n"));
            repository.write(&format!("crates/{name}/specs/Lib.antt"), "");
        }
        repository.write("host/out/none", "");
        repository.write("kit/version", "a kit\n");
        repository.write("kit/calls", "");
        repository.program("kit/bin/rt", include_str!("rt"));
        repository.program("kit/toolchain/bin/llvm-ar", include_str!("llvm-ar"));
        repository
    }

    pub fn path(&self, name: &str) -> PathBuf {
        self.root.join(name)
    }

    pub fn write(&self, name: &str, text: &str) {
        let path = self.path(name);
        fs::create_dir_all(path.parent().unwrap()).unwrap();
        fs::write(path, text).unwrap();
    }

    fn program(&self, name: &str, text: &str) {
        self.write(name, text);
        fs::set_permissions(self.path(name), fs::Permissions::from_mode(0o755)).unwrap();
    }

    pub fn archive(&self) -> Vec<u8> {
        fs::read(self.path("target/giellavor/libgiellavor.a")).unwrap()
    }

    /// How often an archive of a crate was made since this was last asked.
    pub fn made(&self) -> usize {
        let calls = fs::read_to_string(self.path("kit/calls")).unwrap();
        self.write("kit/calls", "");
        calls.lines().count()
    }

    /// The build script as cargo starts it, with the kit on PATH.
    pub fn script(&self) -> Command {
        let path = env::var("PATH").unwrap_or_default();
        let mut script = Command::new(script());
        script.current_dir(self.path("host"));
        script.env("CARGO_MANIFEST_DIR", self.path("host"));
        script.env("OUT_DIR", self.path("host/out"));
        script.env("PATH", format!("{}:{path}", self.path("kit/bin").display()));
        script.stdout(Stdio::piped()).stderr(Stdio::piped());
        script
    }

    /// A run that must succeed; how often it made an archive of a crate.
    pub fn run(&self) -> usize {
        told(self.script().output().unwrap());
        self.made()
    }
}

/// None stays, but that of a test that failed: `rt ci` refuses a source of Rattle below the project's folder that is of none of the crates on its list.
impl Drop for Repository {
    fn drop(&mut self) {
        if !std::thread::panicking() {
            let _ = fs::remove_dir_all(&self.root);
        }
    }
}

/// What a run printed that must have succeeded.
pub fn told(run: Output) -> String {
    assert!(run.status.success(), "{}", String::from_utf8_lossy(&run.stderr));
    String::from_utf8_lossy(&run.stdout).into_owned()
}
