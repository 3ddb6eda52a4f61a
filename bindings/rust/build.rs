//! Finds the static library: in the folder `RUGXENI_LIB`, else where `tests/staticlib.sh` leaves it.

use std::env;
use std::path::PathBuf;

const ARCHIVE: &str = "librugxeni.a";

fn main() {
    println!("cargo::rerun-if-env-changed=RUGXENI_LIB");
    let folder = match env::var_os("RUGXENI_LIB") {
        Some(folder) => PathBuf::from(folder),
        None => PathBuf::from(env::var_os("CARGO_MANIFEST_DIR").unwrap_or_default())
            .join("../../target/staticlib"),
    };
    let archive = folder.join(ARCHIVE);
    println!("cargo::rerun-if-changed={}", archive.display());
    if !archive.is_file() {
        println!(
            "cargo::error=no {ARCHIVE} in {}: run `bash tests/staticlib.sh rugxeni` at the root of the repository, or set RUGXENI_LIB to its folder",
            folder.display()
        );
        return;
    }
    println!("cargo::rustc-link-search=native={}", folder.display());
    println!("cargo::rustc-link-lib=static=rugxeni");
}
