//! Links the archive of an earlier commit, libbefore.a, from the folder that TOHIRANGA_BEFORE names, where the feature `before` asks for it.
use std::env;

fn main() {
    println!("cargo:rerun-if-env-changed=TOHIRANGA_BEFORE");
    if env::var_os("CARGO_FEATURE_BEFORE").is_none() {
        return;
    }
    let folder =
        env::var("TOHIRANGA_BEFORE").expect("TOHIRANGA_BEFORE names the folder of libbefore.a");
    println!("cargo:rerun-if-changed={folder}/libbefore.a");
    println!("cargo:rustc-link-search=native={folder}");
    println!("cargo:rustc-link-lib=static=before");
}
