//! Links the static library `libcapi.a`.
//!
//! The directory that holds it is named by `PELLET_LIB_DIR`, a relative one
//! taken from the workspace's directory; without it, the library is looked for
//! where the repository's own build puts it.

use std::env;
use std::path::{Path, PathBuf};

const DIRECTORY_VARIABLE: &str = "PELLET_LIB_DIR";
const DEFAULT_DIRECTORY: &str = "../crates/capi/out";

fn main() {
    let directory = library_directory();
    let library = directory.join("libcapi.a");
    println!("cargo:rerun-if-env-changed={DIRECTORY_VARIABLE}");
    println!("cargo:rerun-if-changed={}", library.display());
    println!("cargo:rerun-if-changed=build.rs");
    assert!(
        library.is_file(),
        "{} is missing: build it with `rt lib` in crates/capi, \
         or name its directory in {DIRECTORY_VARIABLE}",
        library.display()
    );
    println!("cargo:rustc-link-search=native={}", directory.display());
    println!("cargo:rustc-link-lib=static=capi");
}

fn library_directory() -> PathBuf {
    let package = env::var_os("CARGO_MANIFEST_DIR").expect("cargo names the package directory");
    let workspace = Path::new(&package)
        .parent()
        .expect("the package lies in the workspace");
    // Joining an absolute path gives that path itself.
    workspace.join(env::var_os(DIRECTORY_VARIABLE).unwrap_or_else(|| DEFAULT_DIRECTORY.into()))
}
