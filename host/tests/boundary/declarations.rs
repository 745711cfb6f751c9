//! What `src/ffi.rs`, `src/archive.rs`, `src/abi.rs` and `src/limits.rs` declare is what the Rattle source has, and only the first two have `unsafe` code.

use crate::source::{code, declared, declared_structs, exported, exported_by, files, host, laid_out, limits};

#[test]
fn the_functions_are_those_of_the_source() {
    let [calls, timed] = declared();
    assert!(!calls.is_empty());
    assert_eq!(calls, exported());
    let others = exported_by(&["layouts", "timed"]);
    for (name, signature) in timed {
        assert_eq!(Some(&signature), others.get(&name), "{name}");
    }
}

#[test]
fn the_structs_are_those_of_the_source() {
    let laid_out = laid_out();
    assert!(!laid_out.is_empty());
    assert_eq!(declared_structs(), laid_out);
}

#[test]
fn the_limits_are_those_of_the_source() {
    use giellavor::{BLOCK, COUPLINGS, DOFS, LINKS, TABLES};
    let declared = [
        ("LINKS", LINKS),
        ("COUPLINGS", COUPLINGS),
        ("DOFS", DOFS),
        ("BLOCK", BLOCK),
        ("TABLES", TABLES),
    ];
    assert_eq!(limits(), declared.map(|(name, size)| (name.to_string(), size)).into());
}

#[test]
fn unsafe_code_stands_only_where_functions_are_declared() {
    let mut others = files(&host().join("src"), ".rs");
    others.extend(files(&host().join("examples"), ".rs"));
    others.retain(|file| !file.ends_with("src/ffi.rs") && !file.ends_with("src/archive.rs"));
    assert!(!others.is_empty());
    for file in others {
        let text = code(&file)
            .replace("unsafe_op_in_unsafe_fn", "")
            .replace("deny(unsafe_code)", "");
        assert!(!text.contains("unsafe"), "{}", file.display());
    }
}
