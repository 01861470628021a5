//! Tells the linker where the verified static library is, and stops where it is not.

use std::env;
use std::path::{self, Path, PathBuf};

/// Where to look instead of the repository's own build, for trying another library.
const OTHER_DIRECTORY: &str = "CIDHOMBA_LIBRARY_DIR";

/// The other directory by its whole path, since the linker may not run where this script does.
fn other_directory() -> Option<PathBuf> {
    let other = env::var_os(OTHER_DIRECTORY).filter(|other| !other.is_empty())?;
    Some(path::absolute(other).expect("the working directory is known"))
}

/// Where the repository's own build leaves the library.
fn own_directory() -> PathBuf {
    let crate_directory = env::var_os("CARGO_MANIFEST_DIR").expect("cargo sets this");
    let root = Path::new(&crate_directory).ancestors().nth(2).expect("the crate is two levels down");
    root.join("target/staticlib")
}

/// Fails the build. Else the linker would, after everything is compiled and in words of its own.
fn tell_missing(library: &Path, is_other: bool) {
    let path = library.display();
    if is_other {
        println!("cargo::error=there is no {path}, where {OTHER_DIRECTORY} says to look");
        println!("cargo::error=unset it to use the library that ./quickstart builds in the repository");
    } else {
        println!("cargo::error=the verified library is not built: there is no {path}");
        println!("cargo::error=run ./quickstart in the repository's root, which proves and builds it");
    }
    println!("cargo::error=or run ./install PREFIX there, and set {OTHER_DIRECTORY} to PREFIX/lib");
}

fn main() {
    let other = other_directory();
    let is_other = other.is_some();
    let directory = other.unwrap_or_else(own_directory);
    let library = directory.join("libcidhomba.a");
    println!("cargo::rerun-if-env-changed={OTHER_DIRECTORY}");
    println!("cargo::rerun-if-changed={}", library.display());
    if !library.is_file() {
        return tell_missing(&library, is_other);
    }
    println!("cargo::rustc-link-search=native={}", directory.display());
    println!("cargo::rustc-link-lib=static=cidhomba");
}
