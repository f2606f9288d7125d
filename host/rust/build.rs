//! Links libdock_c.a, from the folder DOCK_LIB or else from where `rt lib` in crates/dock_c puts it.

use std::env;
use std::path::{Path, PathBuf};

fn main() {
    let here = env::var("CARGO_MANIFEST_DIR").expect("cargo sets it");
    let made = Path::new(&here).join("../../crates/dock_c/out");
    let folder = env::var_os("DOCK_LIB").map_or(made, PathBuf::from);
    let library = folder.join("libdock_c.a");
    assert!(
        library.is_file(),
        "{} is not there: run `rt lib` in crates/dock_c, or set DOCK_LIB to its folder",
        library.display()
    );
    println!("cargo:rerun-if-env-changed=DOCK_LIB");
    println!("cargo:rerun-if-changed={}", library.display());
    println!("cargo:rustc-link-search=native={}", folder.display());
    println!("cargo:rustc-link-lib=static=dock_c");
}
