//! The three files of the original are those that were published: their SHA-256 sums are held here.

mod common;
use common::sha256;

#[test]
fn the_sum_is_sha_256() {
    assert_eq!(sha256(b"abc"), "ba7816bf8f01cfea414140de5dae2223b00361a396177a9cb410ff61f20015ad");
    assert_eq!(sha256(b""), "e3b0c44298fc1c149afbf4c8996fb92427ae41e4649b934ca495991b7852b855");
}

#[test]
fn the_original_is_unchanged() {
    let published = [
        ("glass.rs", include_bytes!("../src/glass.rs").as_slice(), "cd8ed66ff5d1caac21eca3868f18dbe50aa63e5cc3369ae653707ea6840559e0"),
        ("lattice.rs", include_bytes!("../src/lattice.rs").as_slice(), "fad50d1c8102189a02cfa6a67604007149d1485e873df8d77cfb3040b9feca03"),
        ("rng.rs", include_bytes!("../src/rng.rs").as_slice(), "608cddbe76ccce994a7d7f8edc3f69a51b2dc087e7477f5cb3d90639fe94ccb2"),
    ];
    for (name, text, sum) in published {
        assert_eq!(sha256(text), sum, "{name} is not the published file");
    }
}
