//! Links libintake.a: the one in the folder that INTAKE_LIB_DIR names, or the installed one, which pkg-config finds.

use std::{env, process::Command};

fn installed() -> Option<String> {
    let found = Command::new("pkg-config").args(["--variable=libdir", "intake"]).output().ok()?;
    let folder = String::from_utf8(found.stdout).ok()?.trim().to_owned();
    Some(folder).filter(|folder| found.status.success() && !folder.is_empty())
}

fn main() {
    println!("cargo:rerun-if-env-changed=INTAKE_LIB_DIR");
    println!("cargo:rerun-if-env-changed=PKG_CONFIG_PATH");
    let folder = env::var("INTAKE_LIB_DIR").ok().or_else(installed);
    let folder = folder.expect("libintake.a is found by pkg-config, or INTAKE_LIB_DIR names its folder");
    println!("cargo:rerun-if-changed={folder}/libintake.a");
    println!("cargo:rustc-link-search=native={folder}");
    println!("cargo:rustc-link-lib=static=intake");
}
