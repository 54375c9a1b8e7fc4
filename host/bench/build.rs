//! Links the archive of crate `bench_calls`, which `tools/bench` makes and names.
use std::path::PathBuf;

fn main() {
    println!("cargo:rerun-if-env-changed=BENCH_CALLS_LIBRARY");
    let library = PathBuf::from(std::env::var_os("BENCH_CALLS_LIBRARY").expect("tools/bench builds this"));
    println!("cargo:rerun-if-changed={}", library.display());
    let folder = library.parent().expect("the library is in a folder");
    println!("cargo:rustc-link-search=native={}", folder.display());
    println!("cargo:rustc-link-lib=static=bench_calls");
}
