//! Links libtohiranga.a from the folder that TOHIRANGA_LIB names, or from target/staticlib of this repository. A relative folder is
//! taken from where cargo was called, and else from this crate's folder.
use std::env;
use std::path::{Path, PathBuf};

const ARCHIVE: &str = "libtohiranga.a";

fn folder(here: &Path) -> PathBuf {
    match env::var_os("TOHIRANGA_LIB") {
        None => here.join("../../target/staticlib"),
        Some(given) => {
            let called_from = env::var_os("PWD").map_or(here.to_path_buf(), PathBuf::from);
            [called_from.join(&given), here.join(&given)]
                .into_iter()
                .find(|folder| folder.join(ARCHIVE).is_file())
                .unwrap_or_else(|| called_from.join(&given))
        }
    }
}

fn main() {
    println!("cargo:rerun-if-env-changed=TOHIRANGA_LIB");
    let here =
        PathBuf::from(env::var_os("CARGO_MANIFEST_DIR").expect("cargo names the crate's folder"));
    let folder = folder(&here);
    let archive = folder.join(ARCHIVE);
    println!("cargo:rerun-if-changed={}", archive.display());
    if !archive.is_file() {
        eprintln!(
            "{} is not there. Run `tests/build_archive` at the top of Tohiranga's repository, which makes target/staticlib/{ARCHIVE}, \
             or `bash install PREFIX`, and set TOHIRANGA_LIB to the folder that has it.",
            archive.display()
        );
        std::process::exit(1);
    }
    println!("cargo:rustc-link-search=native={}", folder.display());
    println!("cargo:rustc-link-lib=static=tohiranga");
}
