//! Links `libprobe.a` and `libsallowknot.a`, the libraries under test.
//!
//! Their folder is `SALLOWKNOT_LIB`, or `../../target/native` if that is unset.

use std::env;
use std::path::PathBuf;

fn main() {
    let folder = match env::var_os("SALLOWKNOT_LIB") {
        Some(folder) => PathBuf::from(folder),
        None => PathBuf::from(env::var_os("CARGO_MANIFEST_DIR").expect("set by cargo"))
            .join("../../target/native"),
    };
    println!("cargo:rerun-if-env-changed=SALLOWKNOT_LIB");
    println!("cargo:rerun-if-changed=build.rs");
    println!("cargo:rustc-link-search=native={}", folder.display());
    for library in ["probe", "sallowknot"] {
        let archive = folder.join(format!("lib{library}.a"));
        println!("cargo:rerun-if-changed={}", archive.display());
        println!("cargo:rustc-link-lib=static={library}");
    }
}
