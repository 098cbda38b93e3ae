//! Links the proved library: the archive in the folder that `VALWYDR_LIB_DIR` names, or else a
//! copy of the one that `rt lib` writes.

use std::ffi::OsString;
use std::path::{Path, PathBuf};
use std::process::{Command, Output, exit};
use std::{env, fs, io};

/// The variable that names a folder with the archive.
const LIB_DIR: &str = "VALWYDR_LIB_DIR";

/// The archive's name.
const ARCHIVE: &str = "libvalwydr.a";

fn main() {
    println!("cargo::rerun-if-env-changed={LIB_DIR}");
    let folder = match env::var_os(LIB_DIR) {
        Some(folder) => given(folder),
        None => built(),
    };
    println!("cargo::rustc-link-search=native={}", folder.display());
    println!("cargo::rustc-link-lib=static=valwydr");
}

/// The folder that the variable names, with the archive in it.
fn given(folder: OsString) -> PathBuf {
    let folder = PathBuf::from(folder);
    let Ok(archive) = folder.join(ARCHIVE).canonicalize() else {
        fail(&format!(
            "{LIB_DIR} is '{}', which has no {ARCHIVE}",
            folder.display()
        ));
    };
    watch(&archive);
    parent(&archive)
}

/// The folder of what this script makes, with a copy of the archive that `rt` writes once it has
/// proved the library. `rt` removes its own when it proves all crates.
fn built() -> PathBuf {
    let package = env::var_os("CARGO_MANIFEST_DIR").map(PathBuf::from);
    let root = parent(&parent(&package.unwrap_or_default()));
    let library = root.join("crates/valwydr");
    watch_sources(&root);
    let run = Command::new("rt")
        .args(["lib", "--cpu=x86-64"])
        .current_dir(&library)
        .output();
    match run {
        Ok(output) if output.status.success() => copied(&library.join("out").join(ARCHIVE)),
        Ok(output) => fail(&refused(&output)),
        Err(error) => fail(&missing(&error)),
    }
}

/// The folder that cargo gives this script, with a copy of the archive.
fn copied(archive: &Path) -> PathBuf {
    let folder = env::var_os("OUT_DIR")
        .map(PathBuf::from)
        .unwrap_or_default();
    match fs::copy(archive, folder.join(ARCHIVE)) {
        Ok(_) => folder,
        Err(error) => fail(&format!("'{}' can't be copied: {error}", archive.display())),
    }
}

/// Has cargo run this script again after a change in what the library is made from. What `rt`
/// writes beside it, in `out`, is left out: each run changes it.
fn watch_sources(root: &Path) {
    watch(&root.join("crates.txt"));
    for folder in fs::read_dir(root.join("crates"))
        .into_iter()
        .flatten()
        .flatten()
    {
        for part in ["src", "specs", "proofs"] {
            let part = folder.path().join(part);
            if part.is_dir() {
                watch(&part);
            }
        }
    }
}

/// What to say where `rt` ended with an error: its own words.
fn refused(output: &Output) -> String {
    format!(
        "'rt lib --cpu=x86-64' ended with {}:\n{}{}",
        output.status,
        String::from_utf8_lossy(&output.stdout),
        String::from_utf8_lossy(&output.stderr)
    )
}

/// What to say where `rt` could not be started.
fn missing(error: &io::Error) -> String {
    format!(
        "the Rattle toolchain's rt is needed to build {ARCHIVE}, and did not start: {error}\n\
         Put it on the PATH, or set {LIB_DIR} to a folder that has {ARCHIVE}."
    )
}

/// The folder that a file or folder is in.
fn parent(path: &Path) -> PathBuf {
    path.parent().map(Path::to_path_buf).unwrap_or_default()
}

/// Has cargo run this script again after a change there.
fn watch(path: &Path) {
    println!("cargo::rerun-if-changed={}", path.display());
}

/// Ends the build with a message.
fn fail(message: &str) -> ! {
    eprintln!("{message}");
    exit(1);
}
