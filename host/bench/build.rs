//! Links the static library of the dock, from the folder that DOCK_LIB names or from where `rt lib` leaves it.

use std::env;
use std::path::PathBuf;
use std::process::exit;

const FOLDER: &str = "../../crates/dock_c/out";
const FILE: &str = "libdock_c.a";

fn main() {
    println!("cargo:rerun-if-env-changed=DOCK_LIB");
    let package = PathBuf::from(env::var_os("CARGO_MANIFEST_DIR").expect("cargo sets CARGO_MANIFEST_DIR"));
    let folder = package.join(env::var_os("DOCK_LIB").unwrap_or_else(|| FOLDER.into()));
    println!("cargo:rerun-if-changed={}", folder.join(FILE).display());
    if !folder.join(FILE).is_file() {
        println!("cargo:warning=DOCK_LIB, or crates/dock_c/out, has no {FILE}: make it by rt lib in crates/dock_c");
        exit(1)
    }
    println!("cargo:rustc-link-search=native={}", folder.display());
    println!("cargo:rustc-link-lib=static=dock_c");
}
