//! Links the archive of the folder that `VALWYDR_LIB_DIR` names.

use std::env;

fn main() {
    println!("cargo::rerun-if-env-changed=VALWYDR_LIB_DIR");
    let folder = env::var("VALWYDR_LIB_DIR").expect("VALWYDR_LIB_DIR names the archive's folder");
    println!("cargo::rerun-if-changed={folder}/libvalwydr.a");
    println!("cargo::rustc-link-search=native={folder}");
    println!("cargo::rustc-link-lib=static=valwydr");
}
