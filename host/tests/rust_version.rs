//! `tools/need-rust` asks for the Rust that `Cargo.toml` names.

#[test]
fn the_least_version_is_the_same() {
    let tool = include_str!("../../tools/need-rust");
    assert!(tool.contains(concat!("\nleast=", env!("CARGO_PKG_RUST_VERSION"), "\n")));
}
