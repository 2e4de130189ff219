//! Says where the proved library stands, seen from this package.

use std::env;
use std::path::Path;

fn main() {
    let manifest = env::var("CARGO_MANIFEST_DIR").expect("cargo sets it");
    let folder = Path::new(&manifest).join("../../crates/hyperqueue/out");
    let library = folder.join("libhyperqueue.a");
    println!("cargo:rustc-link-search=native={}", folder.display());
    println!("cargo:rerun-if-changed={}", library.display());
}
