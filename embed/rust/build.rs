//! Finds the archives that `embed/archives controller` and `embed/archives capi` make, and has them linked; beside them, where it is
//! there, that of `capi_bench`, which only `bench` needs. They lie in target/staticlib of the repository, or in the folder that the
//! environment variable WEGRULSTA_ARCHIVE names. Where one is not there the crate still compiles, so that what depends on it does
//! too; a program that makes a call won't link then.
use std::env;
use std::path::{Path, PathBuf};

const FOLDER: &str = "../../target/staticlib";

fn main() {
    let here = PathBuf::from(env::var("CARGO_MANIFEST_DIR").expect("cargo names the folder"));
    let folder = here.join(env::var("WEGRULSTA_ARCHIVE").unwrap_or_else(|_| FOLDER.to_string()));
    println!("cargo:rerun-if-changed=build.rs");
    println!("cargo:rerun-if-env-changed=WEGRULSTA_ARCHIVE");
    println!("cargo:rustc-check-cfg=cfg(archive)");
    let archives = ["libcontroller.a", "libcapi.a"].map(|name| folder.join(name));
    for archive in &archives {
        println!("cargo:rerun-if-changed={}", archive.display());
    }
    println!("cargo:rerun-if-changed={}", folder.join("libcapi_bench.a").display());
    if archives.iter().all(|archive| archive.exists()) {
        link(&folder);
    } else {
        println!("cargo:linked=0");
        println!("cargo:warning=no libcontroller.a and libcapi.a at {}: `embed/archives controller` and", folder.display());
        println!("cargo:warning=`embed/archives capi` make them, or WEGRULSTA_ARCHIVE names another folder. wegrulsta::LINKED is");
        println!("cargo:warning=false, and calls won't link.");
    }
}

fn link(folder: &Path) {
    println!("cargo:linked=1");
    println!("cargo:rustc-cfg=archive");
    println!("cargo:rustc-link-search=native={}", folder.display());
    println!("cargo:rustc-link-lib=static=controller");
    println!("cargo:rustc-link-lib=static=capi");
    if folder.join("libcapi_bench.a").exists() {
        println!("cargo:rustc-link-lib=static=capi_bench");
    }
}
