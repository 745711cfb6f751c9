//! Writes, into OUT_DIR, module declarations that point at the crate's own files, and passages cut out of others.
//!
//! RAPIER_SRC names the folder that holds the crate's `src/`; a relative path starts at the repository's root.
use std::path::{Path, PathBuf};
use std::{env, fs};

const JOINT: &str = "dynamics/joint";
const MULTIBODY: &str = "dynamics/joint/multibody_joint";
const BODY_PARTS: &str = "dynamics/rigid_body_components.rs";

fn main() {
    println!("cargo:rerun-if-env-changed=RAPIER_SRC");
    println!("cargo:rerun-if-changed=src/private.rs");
    let here = PathBuf::from(env::var("CARGO_MANIFEST_DIR").unwrap());
    let given = env::var("RAPIER_SRC").unwrap_or_else(|_| "../shared/docs/src".to_string());
    let source = Source(here.join("../..").join(given).join("src"));
    let out = PathBuf::from(env::var("OUT_DIR").unwrap());

    // multibody.rs shares a module with private.rs, which is how its private fields are reached.
    let multibody = format!(
        "mod multibody {{ include!({:?}); include!({:?}); }}\n",
        source.file(&format!("{MULTIBODY}/multibody.rs")),
        here.join("src/private.rs")
    );
    let others = [
        "multibody_link",
        "multibody_workspace",
        "multibody_ik",
        "multibody_joint",
        "unit_multibody_joint",
    ];
    write(
        &out,
        "multibody_joint.rs",
        multibody + &source.modules(MULTIBODY, &others),
    );
    write(
        &out,
        "joint.rs",
        source.modules(JOINT, &["fixed_joint", "generic_joint", "motor_model"]),
    );
    write(&out, "dynamics.rs", source.modules("dynamics", &["rigid_body_handle"]));
    write(
        &out,
        "inv.rs",
        source.passage("utils/mod.rs", "const INV_EPSILON", "pub(crate) fn simd_inv", 1),
    );

    let body_type = source.passage(BODY_PARTS, "pub enum RigidBodyType", "bitflags::bitflags!", 0);
    let velocity = source.passage(
        BODY_PARTS,
        "pub struct RigidBodyVelocity",
        "impl RigidBodyVelocity<Real> {",
        0,
    );
    let sums = source.passage(
        BODY_PARTS,
        "impl core::ops::Mul<Real> for RigidBodyVelocity",
        "#[cfg_attr",
        0,
    );
    write(
        &out,
        "bodies.rs",
        format!(
            "#[derive(Copy, Clone, Debug, PartialEq, Eq)]\n{body_type}\
             #[derive(Copy, Clone, Debug, PartialEq)]\n#[repr(C)]\n{velocity}{sums}"
        ),
    );
}

fn write(out: &Path, name: &str, text: String) {
    fs::write(out.join(name), text).unwrap();
}

struct Source(PathBuf);

impl Source {
    fn file(&self, name: &str) -> PathBuf {
        let path = self.0.join(name);
        let path = path
            .canonicalize()
            .unwrap_or_else(|_| panic!("no {}: set RAPIER_SRC", path.display()));
        println!("cargo:rerun-if-changed={}", path.display());
        path
    }

    /// Module declarations for whole files.
    fn modules(&self, folder: &str, names: &[&str]) -> String {
        let declare = |name: &&str| {
            format!(
                "#[path = {:?}]\nmod {name};\n",
                self.file(&format!("{folder}/{name}.rs"))
            )
        };
        names.iter().map(declare).collect()
    }

    /// The lines from the first that begins with `from` to the next that begins with `to`, less `spare` lines at the end.
    fn passage(&self, name: &str, from: &str, to: &str, spare: usize) -> String {
        let text = fs::read_to_string(self.file(name)).unwrap();
        let lines: Vec<&str> = text.lines().collect();
        let after = |at: usize, mark: &str| {
            let found = lines[at..].iter().position(|line| line.starts_with(mark));
            at + found.unwrap_or_else(|| panic!("{name}: no line begins with {mark}"))
        };
        let first = after(0, from);
        lines[first..after(first, to) - spare].join("\n") + "\n"
    }
}
