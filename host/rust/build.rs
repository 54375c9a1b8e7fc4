//! Links the proved library, which `tools/library` makes.
use std::path::PathBuf;

fn main() {
    println!("cargo:rerun-if-env-changed=PAGE_CACHE_LIBRARY");
    let made = PathBuf::from(env!("CARGO_MANIFEST_DIR")).join("../../crates/page_cache_c/out/libpage_cache_c.a");
    let library = std::env::var_os("PAGE_CACHE_LIBRARY").map_or(made, PathBuf::from);
    println!("cargo:rerun-if-changed={}", library.display());
    assert!(library.is_file(), "{} is not there: tools/library makes it", library.display());
    let folder = library.parent().expect("the library is in a folder");
    println!("cargo:rustc-link-search=native={}", folder.display());
    println!("cargo:rustc-link-lib=static=page_cache_c");
}
