//! Has the crate linked with `libtarjimp.a`, which `rt lib` writes in `crates/tarjimp`.

use std::env;
use std::path::{Path, PathBuf};

/// Names the folder that has the library. A relative path counts from this crate's folder.
const VARIABLE: &str = "TARJIMP_LIB_DIR";

/// Where the library is if the variable is not set, or empty.
const DEFAULT: &str = "../../crates/tarjimp/out";

fn main() {
    println!("cargo::rerun-if-changed=build.rs");
    println!("cargo::rerun-if-env-changed={VARIABLE}");
    let here = env::var_os("CARGO_MANIFEST_DIR").expect("cargo names the crate's folder");
    let folder = env::var_os(VARIABLE)
        .filter(|folder| !folder.is_empty())
        .map_or_else(|| PathBuf::from(DEFAULT), PathBuf::from);
    let folder = Path::new(&here).join(folder);
    let library = folder.join("libtarjimp.a");
    println!("cargo::rerun-if-changed={}", library.display());
    if !library.is_file() {
        println!(
            "cargo::error=there is no {}: run `rt lib` in the folder crates/tarjimp of the repository, or set {VARIABLE} to the folder that has it",
            library.display()
        );
        return; // cargo ends the build because of the error
    }
    println!("cargo::rustc-link-search=native={}", folder.display());
    println!("cargo::rustc-link-lib=static=tarjimp");
}
