//! The cache is the published file, byte for byte.

use std::process::Command;

const SHA_256: &str = "42007e7055fa7428d9350378c8761657b20331666f6c0aa3b9f8e13198f37418";

#[test]
fn the_cache_is_the_published_file() {
    let path = concat!(env!("CARGO_MANIFEST_DIR"), "/src/storage/page_cache.rs");
    let output = Command::new("sha256sum")
        .arg("--")
        .arg(path)
        .output()
        .expect("sha256sum runs");
    assert!(output.status.success(), "sha256sum reads the file");
    let sum = String::from_utf8(output.stdout).expect("sha256sum writes text");
    assert_eq!(sum.split_whitespace().next(), Some(SHA_256));
}
