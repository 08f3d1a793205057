//! Copies the six source files of entity-runtime into the build's own folder and appends to each copy what lets it compile here: a `use` of a shim,
//! and in the runtime a child module, which may call its private functions. The files themselves stay as they are.

use std::{
    env, fs,
    path::{Path, PathBuf},
};

/// Beside the repository, unless ENTITY_RUNTIME names another folder.
const SOURCES: &str = "../../../shared/docs/src/crates/entity-core/src";

fn sources(here: &str) -> PathBuf {
    println!("cargo:rerun-if-env-changed=ENTITY_RUNTIME");
    env::var_os("ENTITY_RUNTIME").map_or_else(|| Path::new(here).join(SOURCES), PathBuf::from)
}

fn appended(module: &str, here: &str) -> String {
    match module {
        "number" => "use crate::shims::ParsedNumber as _;\n".to_owned(),
        "runtime" => format!("use crate::shims::AsNumber as _;\n#[path = {:?}]\npub mod calls;\n", format!("{here}/src/calls.rs")),
        _ => String::new(),
    }
}

fn main() {
    let here = env::var("CARGO_MANIFEST_DIR").expect("cargo names the package's folder");
    let out = env::var("OUT_DIR").expect("cargo names the build's folder");
    let mut modules = String::new();
    for module in ["truth", "number", "definition", "runtime", "error", "observed"] {
        let source = sources(&here).join(format!("{module}.rs"));
        println!("cargo:rerun-if-changed={}", source.display());
        let text = fs::read_to_string(&source).unwrap_or_else(|error| panic!("{}: {error}", source.display()));
        let copy = Path::new(&out).join(format!("{module}.rs"));
        fs::write(&copy, text + "\n" + &appended(module, &here)).expect("the build's folder can be written");
        modules += &format!("#[path = {copy:?}]\n#[allow(dead_code, unused_imports)]\nmod {module};\n");
    }
    fs::write(Path::new(&out).join("modules.rs"), modules).expect("the build's folder can be written");
}
