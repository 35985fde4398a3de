//! Links libmctc.a. DICEPEACH_LIBRARY names its folder, absolute or from the repository's root; without it the folder
//! is the one that `tools/library` writes to.

use std::env;
use std::path::{Path, PathBuf};
use std::process::exit;

const VARIABLE: &str = "DICEPEACH_LIBRARY";
const DEFAULT_FOLDER: &str = "target/staticlib";

fn main() {
    println!("cargo:rerun-if-env-changed={VARIABLE}");
    let folder = folder();
    let library = folder.join("libmctc.a");
    println!("cargo:rerun-if-changed={}", library.display());
    if !library.is_file() {
        eprintln!("there is no {}", library.display());
        eprintln!("make it with `bash tools/library` in the repository, or name its folder with {VARIABLE}");
        exit(1);
    }
    println!("cargo:rustc-link-search=native={}", folder.display());
    println!("cargo:rustc-link-lib=static=mctc");
}

/// The folder of the library. Joining an absolute path gives that path.
fn folder() -> PathBuf {
    let named = env::var_os(VARIABLE).unwrap_or_else(|| DEFAULT_FOLDER.into());
    let folder = repository().join(named);
    folder.canonicalize().unwrap_or(folder)
}

/// Two folders above this one.
fn repository() -> PathBuf {
    let here = env::var_os("CARGO_MANIFEST_DIR").unwrap_or_default();
    let root = Path::new(&here).ancestors().nth(2);
    root.unwrap_or(Path::new("")).to_path_buf()
}
