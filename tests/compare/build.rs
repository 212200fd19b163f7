//! Tells the linker where the archives under test are: STATICLIB_DIR, or
//! target/staticlib of the repository.

use std::path::Path;

const ARCHIVES: [&str; 4] = [
    "packing_exports",
    "snapshot",
    "step_exports",
    "view_exports",
];

fn main() {
    let dir = std::env::var("STATICLIB_DIR").unwrap_or("../../target/staticlib".into());
    let dir = Path::new(env!("CARGO_MANIFEST_DIR")).join(dir);
    println!("cargo:rerun-if-env-changed=STATICLIB_DIR");
    println!("cargo:rustc-link-search=native={}", dir.display());
    for name in ARCHIVES {
        let archive = dir.join(format!("lib{name}.a"));
        println!("cargo:rerun-if-changed={}", archive.display());
    }
}
