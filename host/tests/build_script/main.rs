//! The build script: which archives it makes anew, and which it links as they are. `rt` is a stand-in here, and nothing is proved.

mod cargo;
mod decisions;
mod repository;
#[path = "../../build/sha256.rs"]
mod sha256;

/// Examples of FIPS 180-2 and around the length of a block.
#[test]
fn sums_are_those_of_the_standard() {
    let of_a = |times| sha256::sum(&vec![b'a'; times]);
    assert_eq!(
        sha256::sum(b""),
        "e3b0c44298fc1c149afbf4c8996fb92427ae41e4649b934ca495991b7852b855"
    );
    assert_eq!(
        sha256::sum(b"abc"),
        "ba7816bf8f01cfea414140de5dae2223b00361a396177a9cb410ff61f20015ad"
    );
    assert_eq!(
        of_a(55),
        "9f4390f8d30c2dd92ec9f095b65e2b9ae9b0a925a5258e241c9f1e910f734318"
    );
    assert_eq!(
        of_a(56),
        "b35439a4ac6f0948b6d6f9e3c6af0f5f590ce20f1bde7090ef7970686ec6738a"
    );
    assert_eq!(
        of_a(64),
        "ffe054fe7ae0cb6dc65c3af9b61d5209f439851db43d0ba5997337df154668eb"
    );
    assert_eq!(
        of_a(1_000_000),
        "cdc76e5c9914fb9281a1c7e284d73e67f1809a48a497200e046d39ccc7112cd0"
    );
}
