//! Links the static library of the dock, where there is one: cfg `dock` says so. Without it everything else is built.

use std::env;
use std::path::PathBuf;

/// Where `rt lib` in crates/dock_c leaves it, seen from this package.
const FOLDER: &str = "../crates/dock_c/out";
const FILE: &str = "libdock_c.a";

fn main() {
    println!("cargo:rustc-check-cfg=cfg(dock)");
    println!("cargo:rerun-if-env-changed=DOCK_LIB");
    let package = PathBuf::from(env::var_os("CARGO_MANIFEST_DIR").expect("cargo sets CARGO_MANIFEST_DIR"));
    let folder = package.join(env::var_os("DOCK_LIB").unwrap_or_else(|| FOLDER.into()));
    println!("cargo:rerun-if-changed={}", folder.join(FILE).display());
    if !folder.join(FILE).is_file() {
        println!("cargo:warning=built without the dock: DOCK_LIB, or crates/dock_c/out, has no {FILE}");
        return;
    }
    println!("cargo:rustc-cfg=dock");
    println!("cargo:rustc-link-search=native={}", folder.display());
    println!("cargo:rustc-link-lib=static=dock_c");
}
