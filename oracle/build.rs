//! Finds the two files of the source, which are compiled unchanged from where they lie, and says whether the archives of
//! the port are there: the crate `wegrulsta` links them, by the same rule.
use std::path::{Path, PathBuf};
use std::{env, fs};

const SOURCE: &str = "../../shared/docs/src/crates/pemu-radio/src/ble";
const ARCHIVE: &str = "../target/staticlib";

fn main() {
    let here = PathBuf::from(env::var("CARGO_MANIFEST_DIR").expect("cargo names the folder"));
    println!("cargo:rerun-if-changed=build.rs");
    name_source(&place(&here, "ORACLE_SOURCE", SOURCE));
    find_port(&place(&here, "WEGRULSTA_ARCHIVE", ARCHIVE));
}

/// A folder named by an environment variable, or where it lies in the repository.
fn place(here: &Path, variable: &str, otherwise: &str) -> PathBuf {
    println!("cargo:rerun-if-env-changed={variable}");
    here.join(env::var(variable).unwrap_or_else(|_| otherwise.to_string()))
}

/// Writes the module lines. A `#[path]` within `include!` counts from the written file, hence whole paths.
fn name_source(folder: &Path) {
    let mut lines = String::new();
    for name in ["controller", "hci"] {
        let file = folder.join(format!("{name}.rs"));
        let file = file.canonicalize().unwrap_or_else(|e| panic!("the source {}: {e}", file.display()));
        println!("cargo:rerun-if-changed={}", file.display());
        lines += &format!("#[allow(dead_code)]\n#[path = {file:?}]\npub mod {name};\n");
    }
    let out = PathBuf::from(env::var("OUT_DIR").expect("cargo names the output folder"));
    fs::write(out.join("source.rs"), lines).expect("the output folder can be written");
}

/// `cfg(archive)` says that `libcontroller.a`, `libcapi.a` and `libcapi_bench.a` are there.
fn find_port(folder: &Path) {
    let archives = ["libcontroller.a", "libcapi.a", "libcapi_bench.a"].map(|name| folder.join(name));
    println!("cargo:rustc-check-cfg=cfg(archive)");
    for archive in &archives {
        println!("cargo:rerun-if-changed={}", archive.display());
    }
    if archives.iter().all(|archive| archive.exists()) {
        println!("cargo:rustc-cfg=archive");
    }
}
