//! Finds the library: in the folder that `DOMRETH_LIB` names, in the checkout that this crate is part of, or by pkg-config.
use std::env;
use std::path::{Path, PathBuf};
use std::process::{Command, exit};

const HELP: &str = "there is no libdomreth.a. In a checkout of Domreth run one of these:

    scripts/build-domreth --unproved    compiles it without a proof, in about two minutes
    scripts/build-domreth               proves and compiles it, in half an hour

Then set DOMRETH_LIB to its folder bindings/lib, or install it by scripts/install-domreth PREFIX, where pkg-config finds it.";

fn main() {
    println!("cargo:rerun-if-env-changed=DOMRETH_LIB");
    println!("cargo:rerun-if-env-changed=PKG_CONFIG_PATH");
    // The documentation of the crate needs no library.
    if env::var_os("DOCS_RS").is_some() {
        return;
    }
    let Some(folder) = folder() else {
        eprintln!("{HELP}");
        exit(1);
    };
    println!("cargo:rustc-link-search=native={}", folder.display());
    println!("cargo:rustc-link-lib=static=domreth");
    println!("cargo:rerun-if-changed={}", folder.join("libdomreth.a").display());
}

/// The folder of the library. One that `DOMRETH_LIB` names is taken as it is, so that a wrong one is not passed over.
fn folder() -> Option<PathBuf> {
    if let Some(named) = env::var_os("DOMRETH_LIB") {
        return Some(PathBuf::from(named)).filter(|it| has_library(it));
    }
    let beside = PathBuf::from(env::var_os("CARGO_MANIFEST_DIR")?).join("../lib");
    [Some(beside), installed()].into_iter().flatten().find(|it| has_library(it))
}

fn has_library(folder: &Path) -> bool {
    folder.join("libdomreth.a").is_file()
}

/// The folder that pkg-config names.
fn installed() -> Option<PathBuf> {
    let said = Command::new("pkg-config").args(["--variable=libdir", "domreth"]).output().ok()?;
    let text = String::from_utf8(said.stdout).ok().filter(|_| said.status.success())?;
    Some(PathBuf::from(text.trim()))
}
