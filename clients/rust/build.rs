//! Makes the linker find libtpmsim: in the folder `TPMSIM_LIB_DIR`; otherwise in `native/MACHINE`, where a packed
//! package contains it; otherwise in the repository's `dist/`.
//!
//! The build script of a dependent package reads the folder from `DEP_TPMSIM_LIBDIR`.

use std::env;
use std::path::{Path, PathBuf};
use std::process::exit;

/// Returns the value of a variable that cargo sets for a build script, or an empty string.
fn told(name: &str) -> String {
    env::var(name).unwrap_or_default()
}

/// Returns the kind of library in a folder, static or dynamic, or nothing if the folder has no
/// library.
fn kind_in(folder: &Path) -> Option<&'static str> {
    let has = |name: &str| folder.join(name).exists();
    if has("libtpmsim.a") {
        return Some("static");
    }
    has("libtpmsim.so").then_some("dylib")
}

/// Returns the folder of the repository with the shipped files for a machine.
fn shipped(repository: &Path, machine: &str) -> PathBuf {
    let dist = repository.join("dist");
    match machine {
        "x86_64" => dist,
        other => dist.join(other),
    }
}

/// Returns the folders in which the library may be. The first that has one is used.
fn folders() -> Vec<PathBuf> {
    let named = told("TPMSIM_LIB_DIR");
    if !named.is_empty() {
        return vec![PathBuf::from(named)];
    }
    let package = PathBuf::from(told("CARGO_MANIFEST_DIR"));
    let machine = told("CARGO_CFG_TARGET_ARCH");
    let mut folders = vec![package.join("native").join(&machine)];
    folders.extend(package.ancestors().nth(2).map(|repository| shipped(repository, &machine)));
    folders
}

/// Returns the folder of the library and the library's kind, or ends the build with a message.
fn library() -> (PathBuf, &'static str) {
    let folders = folders();
    let found = folders.iter().find_map(|folder| Some((folder.clone(), kind_in(folder)?)));
    found.unwrap_or_else(|| {
        let places: Vec<String> = folders.iter().map(|it| it.display().to_string()).collect();
        eprintln!("tpmsim: there is no libtpmsim in {}", places.join(" or "));
        eprintln!("tpmsim: set TPMSIM_LIB_DIR to its folder, or vendor what `make crate` packs");
        exit(1);
    })
}

fn main() {
    println!("cargo:rerun-if-env-changed=TPMSIM_LIB_DIR");
    println!("cargo:rerun-if-changed=build.rs");
    if told("CARGO_CFG_TARGET_OS") != "linux" {
        eprintln!("tpmsim: libtpmsim is for Linux alone");
        exit(1);
    }
    let (folder, kind) = library();
    let place = folder.display();
    println!("cargo:rustc-link-lib={kind}=tpmsim");
    // The tests and examples of this package find a shared library without LD_LIBRARY_PATH. Cargo passes this
    // to no dependent package, whose own build script has to.
    if kind == "dylib" {
        println!("cargo:rustc-link-arg=-Wl,-rpath,{place}");
    }
    println!("cargo:rustc-env=TPMSIM_NATIVE={place}");
    println!("cargo:rustc-link-search=native={place}");
    println!("cargo:rerun-if-changed={place}");
    println!("cargo:libdir={place}");
}
