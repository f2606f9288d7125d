//! Copies imago's files, byte by byte, from the folder that IMAGO_SRC names, and writes the `mod` lines that lead to them.

use std::env;
use std::fs;
use std::path::{Path, PathBuf};
use std::process::exit;

const FILES: [&str; 5] =
    ["src/io_buffers.rs", "src/misc_helpers.rs", "src/storage/mod.rs", "src/storage/drivers.rs", "src/storage/ext.rs"];

const MODULES: [(&str, &str); 3] = [
    ("pub mod io_buffers;", "src/io_buffers.rs"),
    ("pub(crate) mod misc_helpers;", "src/misc_helpers.rs"),
    ("pub mod storage;", "src/storage/mod.rs"),
];

fn main() {
    println!("cargo:rerun-if-env-changed=IMAGO_SRC");
    let folder = PathBuf::from(env::var_os("IMAGO_SRC").unwrap_or_else(|| stop("it is not set")));
    let out = PathBuf::from(env::var_os("OUT_DIR").expect("cargo sets OUT_DIR"));
    for name in FILES {
        let from = find(&folder, name);
        println!("cargo:rerun-if-changed={}", from.display());
        let to = out.join(name);
        fs::create_dir_all(to.parent().expect("every name has a folder")).expect("OUT_DIR can be written");
        fs::write(&to, fs::read(&from).expect("the file was found")).expect("OUT_DIR can be written");
    }
    let lines: String =
        MODULES.iter().map(|(declaration, name)| format!("#[path = {:?}]\n{declaration}\n", out.join(name))).collect();
    fs::write(out.join("modules.rs"), lines).expect("OUT_DIR can be written");
}

/// The file of that name, or of that name and `.txt`.
fn find(folder: &Path, name: &str) -> PathBuf {
    [name.to_owned(), format!("{name}.txt")]
        .iter()
        .map(|n| folder.join(n))
        .find(|path| path.is_file())
        .unwrap_or_else(|| stop(&format!("{} has no {name} or {name}.txt", folder.display())))
}

fn stop(why: &str) -> ! {
    println!("cargo:warning=set IMAGO_SRC to the folder that has imago 0.2.6's src/storage/ext.rs: {why}");
    exit(1)
}
