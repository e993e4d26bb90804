//! Links libzompelgors.a, and with the feature `regions` `libzompelgors_regions.a` too. They are taken from the folder
//! `ZOMPELGORS_LIB` (relative to this package), else from `../target/staticlib` of the project or `../../../lib` of a
//! release. Nothing stops here: to check the package and to read its pages takes no archive and no x86-64 machine.
use std::env;
use std::path::{Path, PathBuf};

/// Where the archives lie in the project, and in a release.
const FOLDERS: [&str; 2] = ["../target/staticlib", "../../../lib"];

fn archive(folder: &Path, library: &str) -> PathBuf {
    folder.join(format!("lib{library}.a"))
}

/// The folder that is named, or the first that has the archive, or the project's.
fn folder() -> PathBuf {
    let package = PathBuf::from(env::var_os("CARGO_MANIFEST_DIR").unwrap_or_default());
    if let Some(given) = env::var_os("ZOMPELGORS_LIB") {
        return package.join(given);
    }
    let folders = FOLDERS.map(|folder| package.join(folder));
    let found = folders
        .iter()
        .find(|folder| archive(folder, "zompelgors").is_file());
    found.unwrap_or(&folders[0]).clone()
}

fn main() {
    println!("cargo:rerun-if-env-changed=ZOMPELGORS_LIB");
    println!("cargo:rerun-if-changed=build.rs");
    let arch = env::var("CARGO_CFG_TARGET_ARCH").unwrap_or_default();
    if arch != "x86_64" {
        println!(
            "cargo:warning=the library is for x86-64: nothing can be linked for {arch} (cargo --target x86_64-unknown-linux-gnu)"
        );
        return;
    }
    let folder = folder();
    println!("cargo:rustc-link-search=native={}", folder.display());
    link(&folder, "zompelgors");
    if env::var_os("CARGO_FEATURE_REGIONS").is_some() {
        link(&folder, "zompelgors_regions");
    }
}

fn link(folder: &Path, library: &str) {
    let archive = archive(folder, library);
    println!("cargo:rerun-if-changed={}", archive.display());
    if !archive.is_file() {
        println!(
            "cargo:warning=no {}, so nothing can be linked: make it by './build.sh {library}', or set ZOMPELGORS_LIB to the folder that has it",
            archive.display()
        );
    }
    println!("cargo:rustc-link-lib=static={library}");
}
