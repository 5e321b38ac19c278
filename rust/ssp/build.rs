//! Links libssp.a, from the folder that `SSP_LIB` names or else from the repository's lib.

use std::env;
use std::path::{Path, PathBuf};

fn main() {
    println!("cargo::rerun-if-env-changed=SSP_LIB");
    let folder = env::var_os("SSP_LIB").map_or_else(
        || Path::new(env!("CARGO_MANIFEST_DIR")).join("../../lib"),
        PathBuf::from,
    );
    let library = folder.join("libssp.a");
    println!("cargo::rerun-if-changed={}", library.display());
    if !library.is_file() {
        println!(
            "cargo::error={} is missing: run `scripts/library` in the repository, or set SSP_LIB to the folder that has libssp.a",
            library.display()
        );
        return;
    }
    println!("cargo::rustc-link-search=native={}", folder.display());
    println!("cargo::rustc-link-lib=static=ssp");
}
