//! Links the static library of the crate `exports`: target/staticlib/libexports.a, or the one in the folder that INTAKE_LIBRARY names. Where that folder
//! has libexports.so, it is linked and can be another one in each run.

use std::{env, path::Path};

fn main() {
    println!("cargo:rerun-if-env-changed=INTAKE_LIBRARY");
    let here = env::var("CARGO_MANIFEST_DIR").expect("cargo names the package's folder");
    let folder = env::var("INTAKE_LIBRARY").unwrap_or_else(|_| format!("{here}/../../target/staticlib"));
    let shared = Path::new(&folder).join("libexports.so").exists();
    println!("cargo:rerun-if-changed={folder}/{}", if shared { "libexports.so" } else { "libexports.a" });
    println!("cargo:rustc-link-search=native={folder}");
    println!("cargo:rustc-link-lib={}=exports", if shared { "dylib" } else { "static" });
}
