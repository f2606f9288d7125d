//! Says which libdock_c.a the program is linked with, by the start of its SHA-256, for `--version`.

use std::env;
use std::path::{Path, PathBuf};
use std::process::Command;

fn main() {
    let here = env::var("CARGO_MANIFEST_DIR").expect("cargo sets it");
    let made = Path::new(&here).join("../../crates/dock_c/out");
    let library = env::var_os("DOCK_LIB").map_or(made, PathBuf::from).join("libdock_c.a");
    println!("cargo:rerun-if-env-changed=DOCK_LIB");
    println!("cargo:rerun-if-changed={}", library.display());
    let said = Command::new("sha256sum").arg(&library).output();
    let sum = said.map(|out| String::from_utf8_lossy(&out.stdout).chars().take(16).collect::<String>());
    let identity = sum.ok().filter(|sum| sum.len() == 16).unwrap_or_else(|| "unknown".into());
    println!("cargo:rustc-env=PITCHCASE_LIBRARY={identity}");
}
