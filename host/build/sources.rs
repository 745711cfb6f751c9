//! What an archive is made of: the crates that it joins and, by the lines of crates.txt, all that they use.

use crate::sha256;
use crate::stop::stop;
use std::collections::BTreeSet;
use std::fs;
use std::path::{Path, PathBuf};

/// What of a crate goes into an archive, with the proofs without which there is none.
const PARTS: [&str; 3] = ["src", "specs", "proofs"];

pub struct Sources {
    /// The crates, in the order of crates.txt, in which each stands behind those that it uses.
    pub crates: Vec<String>,
    /// The folders of their files.
    pub folders: Vec<PathBuf>,
    /// The sum over their lines of crates.txt and over the names and contents of their files.
    pub sum: String,
}

impl Sources {
    pub fn of(root: &Path, joined: &[&str]) -> Sources {
        let list = fs::read_to_string(root.join("crates.txt"))
            .unwrap_or_else(|why| stop(&format!("crates.txt can't be read: {why}")));
        let listed = listed(&list);
        let used = used(&listed, joined);
        let mut text = format!("{joined:?}").into_bytes();
        let mut crates = vec![];
        let mut folders = vec![];
        for Listed { name, kind, uses } in listed.iter().filter(|of| used.contains(of.name)) {
            text.extend(format!("\n{name} {kind}: {uses:?}").into_bytes());
            let parts = PARTS.map(|part| root.join("crates").join(name).join(part));
            for part in parts.into_iter().filter(|part| part.is_dir()) {
                add_files(&mut text, root, &part);
                folders.push(part);
            }
            crates.push(name.to_string());
        }
        Sources {
            crates,
            folders,
            sum: sha256::sum(&text),
        }
    }

    /// Which of the crates it is, in words.
    pub fn place(&self, name: &str) -> String {
        let at = self.crates.iter().position(|known| known == name);
        let at = at.map_or("?".to_string(), |at| (at + 1).to_string());
        format!("{at} of {}: {name}", self.crates.len())
    }
}

/// A line of crates.txt: a crate, what it is beside a library, and what it uses.
struct Listed<'a> {
    name: &'a str,
    kind: &'a str,
    uses: Vec<&'a str>,
}

fn listed(list: &str) -> Vec<Listed<'_>> {
    list.lines()
        .filter_map(|line| line.split('#').next()?.split_once(':'))
        .map(|(head, uses)| {
            let (name, kind) = head.trim().split_once(' ').unwrap_or((head.trim(), ""));
            let uses = uses.split_whitespace().collect();
            Listed { name, kind, uses }
        })
        .collect()
}

/// The crates and all that they use.
fn used<'a>(listed: &[Listed<'a>], joined: &[&'a str]) -> BTreeSet<&'a str> {
    let mut found = BTreeSet::new();
    let mut open = joined.to_vec();
    while let Some(name) = open.pop() {
        if found.insert(name) {
            open.extend(listed.iter().filter(|of| of.name == name).flat_map(|of| &of.uses));
        }
    }
    found
}

/// Adds name, length and content of every file below a folder, in the order of their names.
fn add_files(text: &mut Vec<u8>, root: &Path, folder: &Path) {
    let Ok(entries) = fs::read_dir(folder) else { return };
    let mut paths: Vec<PathBuf> = entries.flatten().map(|entry| entry.path()).collect();
    paths.sort();
    for path in paths {
        if path.is_dir() {
            add_files(text, root, &path);
            continue;
        }
        let content = fs::read(&path).unwrap_or_else(|why| stop(&format!("{} can't be read: {why}", path.display())));
        let name = path.strip_prefix(root).unwrap_or(&path);
        text.extend(format!("\n{} {}\n", name.display(), content.len()).into_bytes());
        text.extend(content);
    }
}
