//! Stages the commit's files, which `sources.sha256` names, for the compiler.
//!
//! A staged file is the original, byte for byte. Where `probes` has a file of
//! the same name, one line follows that declares it as a module of the original.

use std::path::{Path, PathBuf};
use std::{env, fs};

/// Where the commit's files are, seen from the repository's root.
const DEFAULT_SOURCES: &str = "../shared/docs/src";

/// The modules that the crate root includes; their files are staged beside it.
const MODULES: &str = "
#[allow(dead_code, unfulfilled_lint_expectations)]
pub mod disseminator {
    pub use crate::network::Disseminator;
    pub mod rotor;
    pub mod turbine;
}
pub mod types {
    pub mod slot;
    pub mod stake;
    pub mod validator_index;
}
";

fn main() {
    let package = PathBuf::from(env::var_os("CARGO_MANIFEST_DIR").unwrap());
    let out = PathBuf::from(env::var_os("OUT_DIR").unwrap());
    let oracle = package.parent().unwrap();
    let chosen = env::var("ALPENGLOW_SRC").unwrap_or(DEFAULT_SOURCES.into());
    let sources = oracle.parent().unwrap().join(chosen);
    let list = oracle.join("sources.sha256");

    println!("cargo::rerun-if-env-changed=ALPENGLOW_SRC");
    watch(&package.join("build.rs"));
    watch(&package.join("probes"));
    watch(&list);
    for line in String::from_utf8(read(&list)).unwrap().lines() {
        let (_, name) = line.split_once("  ").expect("a hash, then a file");
        stage(&sources.join(name), name, &package.join("probes"), &out);
    }
    fs::write(out.join("src/modules.rs"), MODULES).unwrap();
}

/// Copies one file, adds the line for its probe, and checks what was written.
fn stage(original: &Path, name: &str, probes: &Path, out: &Path) {
    watch(original);
    let mut bytes = read(original);
    assert!(bytes.ends_with(b"\n"), "{name} ends within a line");

    let probe = probes.join(original.file_name().unwrap());
    if probe.exists() {
        bytes.extend(format!("#[path = {probe:?}] pub mod probe;\n").bytes());
    }
    let staged = out.join(name);
    fs::create_dir_all(staged.parent().unwrap()).unwrap();
    fs::write(&staged, bytes).unwrap();
    check(&read(&staged), &read(original), probe.exists(), name);
}

/// A staged file must be the original, and one line more if it has a probe.
fn check(staged: &[u8], original: &[u8], has_probe: bool, name: &str) {
    let added = staged.strip_prefix(original);
    let added = added.unwrap_or_else(|| panic!("{name} was staged with changes"));
    let lines = added.iter().filter(|byte| **byte == b'\n').count();
    assert_eq!(lines, usize::from(has_probe), "lines added to {name}");
    assert_eq!(!added.is_empty(), has_probe, "bytes added to {name}");
}

fn read(path: &Path) -> Vec<u8> {
    fs::read(path).unwrap_or_else(|error| panic!("{}: {error}", path.display()))
}

/// Has cargo run this again when the file changes.
fn watch(path: &Path) {
    println!("cargo::rerun-if-changed={}", path.display());
}
