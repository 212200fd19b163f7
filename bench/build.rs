//! Tells the linker where the archives under test are: STATICLIB_DIR, or
//! target/staticlib of the repository. Each binary names its own archives.
//! Compiles the calls of libspectrum where it is installed.

use std::path::Path;
use std::process::Command;

const ARCHIVES: [&str; 2] = ["packing_exports", "snapshot"];

const SHIM: &str = "src/libspectrum.c";

fn main() {
    let dir = std::env::var("STATICLIB_DIR").unwrap_or("../target/staticlib".into());
    let dir = Path::new(env!("CARGO_MANIFEST_DIR")).join(dir);
    println!("cargo:rerun-if-env-changed=STATICLIB_DIR");
    println!("cargo:rustc-link-search=native={}", dir.display());
    for name in ARCHIVES {
        let archive = dir.join(format!("lib{name}.a"));
        println!("cargo:rerun-if-changed={}", archive.display());
    }
    println!("cargo:rerun-if-changed={SHIM}");
    println!("cargo:rustc-check-cfg=cfg(libspectrum)");
    if let Ok(out) = std::env::var("OUT_DIR") {
        if compile_shim(Path::new(&out)) {
            println!("cargo:rustc-link-search=native={out}");
            println!("cargo:rustc-cfg=libspectrum");
        }
    }
}

/// Whether the shim compiles, links and is in its archive.
fn compile_shim(out: &Path) -> bool {
    let (object, archive) = (out.join("libspectrum.o"), out.join("libspectrum_shim.a"));
    let library = out.join("shim_links.so");
    let run = |command: &mut Command| command.output().is_ok_and(|done| done.status.success());
    let _ = std::fs::remove_file(&archive);
    run(Command::new("gcc")
        .args(["-O2", "-fPIC", "-c", SHIM, "-o"])
        .arg(&object))
        && run(Command::new("gcc")
            .args(["-shared", "-o"])
            .arg(library)
            .arg(&object)
            .arg("-lspectrum"))
        && run(Command::new("ar").arg("rcs").arg(&archive).arg(&object))
}
