//! Copies the published Rust files into the build folder and makes sure that they are unchanged.

use std::env;
use std::fs;
use std::path::{Path, PathBuf};
use std::process;

/// The published files, each with whether it is built as a module file of its own.
///
/// The others are included by src/lib.rs into modules that also hold an accessor.
const FILES: [(&str, bool); 11] = [
    ("handshake", false),
    ("index", true),
    ("keys", true),
    ("message", true),
    ("replay", false),
    ("ring_buffer", true),
    ("rng", true),
    ("session", false),
    ("tai64n", true),
    ("timers", true),
    ("tunnel", false),
];

fn main() {
    let from = source_folder();
    let to = PathBuf::from(env::var_os("OUT_DIR").expect("cargo sets OUT_DIR"));
    let mut modules = String::new();

    for (name, own_module) in FILES {
        copy_unchanged(
            &from.join(format!("{name}.rs")),
            &to.join(format!("{name}.rs")),
        );
        if own_module {
            modules.push_str(&module(name));
        }
    }
    write(&to.join("modules.rs"), modules.as_bytes());

    println!("cargo::rerun-if-changed=build.rs");
    println!("cargo::rerun-if-env-changed=SANSTUN_SRC");
}

/// The folder of the published files: `src` in SANSTUN_SRC, or in the shared documents.
fn source_folder() -> PathBuf {
    let package = PathBuf::from(env::var_os("CARGO_MANIFEST_DIR").expect("cargo sets this"));
    let given = env::var_os("SANSTUN_SRC").filter(|folder| !folder.is_empty());
    let folder = given.map_or_else(|| PathBuf::from("../../shared/docs/src"), PathBuf::from);

    package.join(folder).join("src")
}

/// Copies one file, reads both again and compares them.
fn copy_unchanged(from: &Path, to: &Path) {
    println!("cargo::rerun-if-changed={}", from.display());
    write(to, &read(from));

    if read(from) != read(to) {
        stop(&format!(
            "{} was changed while it was copied",
            from.display()
        ));
    }
}

/// A line that declares one published file as a module beside the line's own file.
fn module(name: &str) -> String {
    format!("#[allow(dead_code, unused)]\n#[path = \"{name}.rs\"]\nmod {name};\n")
}

/// Reads a whole file, or stops the build.
fn read(path: &Path) -> Vec<u8> {
    fs::read(path).unwrap_or_else(|error| stop(&format!("cannot read {}: {error}", path.display())))
}

/// Writes a whole file, or stops the build.
fn write(path: &Path, bytes: &[u8]) {
    if let Err(error) = fs::write(path, bytes) {
        stop(&format!("cannot write {}: {error}", path.display()));
    }
}

/// Ends the build with a plain message.
fn stop(message: &str) -> ! {
    println!("cargo::error={message}");
    process::exit(1)
}
