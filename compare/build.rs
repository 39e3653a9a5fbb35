//! Says where the engine's static library lies; only asked for with feature `engine`. The benchmark
//! names a folder of its own.

use std::env;
use std::path::{Path, PathBuf};

fn main() {
    println!("cargo::rerun-if-changed=build.rs");
    println!("cargo::rerun-if-env-changed=EWF_LIBRARY_FOLDER");
    if env::var_os("CARGO_FEATURE_ENGINE").is_none() {
        return;
    }
    let package = env::var("CARGO_MANIFEST_DIR").expect("cargo names the package's folder");
    let proved = Path::new(&package).join("../target/staticlib");
    let folder = env::var_os("EWF_LIBRARY_FOLDER").map_or(proved, PathBuf::from);
    println!("cargo::rerun-if-changed={}", folder.join("libcapi.a").display());
    println!("cargo::rustc-link-search=native={}", folder.display());
    println!("cargo::rustc-link-lib=static=capi");
}
