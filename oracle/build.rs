//! Writes `source.rs` into the build folder: each file of the source whole and unchanged inside a
//! module of its name, followed by one child module, `reach`, that opens its private functions.

use std::path::{Path, PathBuf};
use std::process::Command;
use std::{env, fs, io};

/// Names the folder that holds the source. A relative path counts from the repository's root.
const VARIABLE: &str = "TARJIMP_RUST_SRC";

/// Where the source is if the variable is not set, or empty.
const DEFAULT: &str = "../shared/docs/src";

/// Where the files are in the folder.
const INSIDE: &str = "crates/ironrdp-graphics/src";

/// The files, without `.rs`.
const FILES: [&str; 3] = ["dwt_extrapolate", "progressive", "srl"];

/// The port's static library, in the repository.
const PORT: &str = "crates/tarjimp/out/libtarjimp.a";

fn main() {
    println!("cargo::rerun-if-changed=build.rs");
    if env::var_os("CARGO_FEATURE_PORT").is_some() {
        link_port();
    }
    println!("cargo::rerun-if-env-changed={VARIABLE}");

    let source = env::var_os(VARIABLE)
        .filter(|folder| !folder.is_empty())
        .map_or_else(|| PathBuf::from(DEFAULT), PathBuf::from)
        .join(INSIDE);
    let out = env::var_os("OUT_DIR").expect("cargo names the build folder");

    let mut generated = Vec::new();
    for name in FILES {
        let file = source.join(name).with_extension("rs");
        match read(&file) {
            Ok(text) => add_module(&mut generated, name, &text),
            Err(error) => {
                println!(
                    "cargo::error={VARIABLE}: cannot read {} (a relative path counts from the repository's root): {error}",
                    file.display()
                );
                return; // cargo ends the build because of the error
            }
        }
    }
    fs::write(Path::new(&out).join("source.rs"), generated).expect("the build folder is writable");
}

/// Has the programs `compare` and `bench` linked with the port.
fn link_port() {
    let folder = env::var("CARGO_MANIFEST_DIR").expect("cargo names the package's folder");
    let library = Path::new(&folder).join("..").join(PORT);
    println!("cargo::rerun-if-changed={}", library.display());
    link_place();
    for program in ["compare", "bench"] {
        println!("cargo::rustc-link-arg-bin={program}={}", library.display());
    }
}

/// Has the library of `bench` begin 32 bytes past a multiple of 64, whatever stands before it: where a function begins
/// moves its row by up to a tenth, and two libraries are compared at the same place.
fn link_place() {
    let out = PathBuf::from(env::var_os("OUT_DIR").expect("cargo names the build folder"));
    let (text, object) = (out.join("place.s"), out.join("place.o"));
    let lines = ".text\n.balign 64\n.globl tarjimp_place\ntarjimp_place:\n.skip 32\n";
    fs::write(&text, lines).expect("the build folder is writable");
    let status = Command::new("cc")
        .arg("-c")
        .arg(&text)
        .arg("-o")
        .arg(&object)
        .status();
    assert!(
        status.is_ok_and(|status| status.success()),
        "cc cannot assemble {}",
        text.display()
    );
    for argument in ["-Wl,-u,tarjimp_place", &object.display().to_string()] {
        println!("cargo::rustc-link-arg-bin=bench={argument}");
    }
}

/// Reads a file of the source and has cargo watch it. A build script runs in the folder of its
/// package, so the repository's root is one step up.
fn read(file: &Path) -> io::Result<Vec<u8>> {
    let from_here = Path::new("..").join(file);
    println!("cargo::rerun-if-changed={}", from_here.display());
    fs::read(from_here)
}

/// Adds the module of one file. The text keeps every byte; a child module sees its parent's
/// private items, so the wrappers of `src/reach` can call them.
fn add_module(generated: &mut Vec<u8>, name: &str, text: &[u8]) {
    generated.extend_from_slice(format!("#[allow(dead_code)]\npub mod {name} {{\n").as_bytes());
    generated.extend_from_slice(text);
    generated.extend_from_slice(
        format!(
            "\npub mod reach {{ include!(concat!(env!(\"CARGO_MANIFEST_DIR\"), \"/src/reach/{name}.rs\")); }}\n}}\n"
        )
        .as_bytes(),
    );
}
