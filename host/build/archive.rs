//! An archive of proved functions, target/giellavor/libNAME.a, and beside it a stamp: what it was made of, by which toolchain, and its own sum. It is
//! made anew where the stamp doesn't fit; no time counts.

use crate::sources::Sources;
use crate::stop::stop;
use crate::{kit, sha256};
use std::env;
use std::fmt;
use std::fs;
use std::io::Write;
use std::path::{Path, PathBuf};
use std::process;

/// An archive's name, and the crates whose functions it has.
pub struct Archive {
    pub name: &'static str,
    pub crates: &'static [&'static str],
}

/// The three sums of an archive, a line each.
#[derive(PartialEq)]
struct Stamp {
    sources: String,
    toolchain: String,
    archive: String,
}

impl fmt::Display for Stamp {
    fn fmt(&self, to: &mut fmt::Formatter) -> fmt::Result {
        writeln!(to, "{}\n{}\n{}", self.sources, self.toolchain, self.archive)
    }
}

impl Stamp {
    fn read(file: &Path) -> Option<Stamp> {
        let text = fs::read_to_string(file).ok()?;
        let [sources, toolchain, archive] = text.lines().collect::<Vec<_>>()[..] else {
            return None;
        };
        Some(Stamp {
            sources: sources.into(),
            toolchain: toolchain.into(),
            archive: archive.into(),
        })
    }
}

impl Archive {
    /// Links the archive, made anew where it has to be. Cargo asks again where one of its sources, the archive or its stamp was written since.
    pub fn link(&self, root: &Path, folder: &Path, toolchain: Option<&str>) {
        let sources = Sources::of(root, self.crates);
        let (file, stamp) = self.files(folder);
        if let Some(why) = self.unfit(folder, &sources, toolchain) {
            let Some(toolchain) = toolchain else {
                stop(&format!(
                    "{} has to be made ({why}), and `rt version` doesn't run: put the Rattle kit's `rt` on PATH.",
                    file.display()
                ))
            };
            self.make(root, folder, &sources, toolchain);
        }
        for path in sources.folders.iter().chain([&file, &stamp]) {
            println!("cargo::rerun-if-changed={}", path.display());
        }
        println!("cargo::rustc-link-lib=static={}", self.name);
    }

    fn files(&self, folder: &Path) -> (PathBuf, PathBuf) {
        let file = |ending| folder.join(format!("lib{}.{ending}", self.name));
        (file("a"), file("stamp"))
    }

    /// Why the archive can't be linked as it is. Where no toolchain can be asked, the one that made it is believed.
    fn unfit(&self, folder: &Path, sources: &Sources, toolchain: Option<&str>) -> Option<&'static str> {
        let (file, stamp) = self.files(folder);
        let Ok(archive) = fs::read(file) else {
            return Some("it isn't there");
        };
        let Some(stamp) = Stamp::read(&stamp) else {
            return Some("it has no stamp");
        };
        if stamp.archive != sha256::sum(&archive) {
            Some("it isn't the one that was made")
        } else if stamp.sources != sources.sum {
            Some("its sources have changed")
        } else if toolchain.is_some_and(|toolchain| toolchain != stamp.toolchain) {
            Some("another toolchain made it")
        } else {
            None
        }
    }

    fn make(&self, root: &Path, folder: &Path, sources: &Sources, toolchain: &str) {
        let (file, stamp) = self.files(folder);
        let begins = |name: &str| tell(&sources.place(name));
        let parts: Vec<PathBuf> = self.crates.iter().map(|name| kit::lib(root, name, begins)).collect();
        let made = folder.join(format!("made.{}", process::id()));
        let _ = fs::remove_file(&made);
        kit::join(&parts, &made);
        if Sources::of(root, self.crates).sum != sources.sum {
            stop("the sources have changed while an archive was made of them: build once more.");
        }
        let archive = fs::read(&made).unwrap_or_else(|why| stop(&format!("{} can't be read: {why}", made.display())));
        put(&made, &file);
        let text = Stamp {
            sources: sources.sum.clone(),
            toolchain: toolchain.into(),
            archive: sha256::sum(&archive),
        };
        fs::write(&made, text.to_string())
            .unwrap_or_else(|why| stop(&format!("{} can't be written: {why}", made.display())));
        put(&made, &stamp);
    }
}

/// Tells whoever builds how far it is, where he has named a place for that in `GIELLAVOR_TELL`: cargo keeps what a build script prints to itself.
fn tell(words: &str) {
    let place = env::var_os("GIELLAVOR_TELL");
    let place = place.and_then(|place| fs::OpenOptions::new().append(true).open(place).ok());
    if let Some(mut place) = place {
        // Whether anybody reads it is nothing to the build.
        let _ = writeln!(place, "{words}");
    }
}

/// Puts a whole file in another's place at once: whoever reads that has the old one or the new one.
fn put(file: &Path, place: &Path) {
    fs::rename(file, place).unwrap_or_else(|why| stop(&format!("{} can't be written: {why}", place.display())));
}
