//! With the feature `rattle`, links the static library that `rt lib` has written in `crates/exports`, and
//! with `measures` that of `crates/measures`; the kit's own goes beside them.

use std::env;
use std::path::{Path, PathBuf};
use std::process::Command;

fn main() {
    println!("cargo:rerun-if-changed=build.rs");
    let here = env::var("CARGO_MANIFEST_DIR").expect("cargo names the folder of the package");
    let crates = Path::new(&here).join("../crates");
    if env::var_os("CARGO_FEATURE_RATTLE").is_some() {
        link(&crates.join("exports/out"), "exports");
    }
    if env::var_os("CARGO_FEATURE_MEASURES").is_some() {
        link(&crates.join("measures/out"), "measures");
        link(&kit().join("c"), "libc_c");
    }
}

/// The folder of the kit: `rt doc` names a page that lies in it.
fn kit() -> PathBuf {
    let page = Command::new("rt").arg("doc").output().expect("rt is on the path").stdout;
    let page = String::from_utf8(page).expect("a path in plain text");
    Path::new(page.trim()).parent().expect("the page lies in the folder of the kit").into()
}

fn link(folder: &Path, library: &str) {
    println!("cargo:rerun-if-changed={}", folder.join(format!("lib{library}.a")).display());
    println!("cargo:rustc-link-search=native={}", folder.display());
    println!("cargo:rustc-link-lib=static={library}");
}
