//! Links the archive that `rt lib` writes in the crate `coordinator`.
use std::env;
use std::path::{Path, PathBuf};

fn main() {
    let root = Path::new(env!("CARGO_MANIFEST_DIR")).parent().unwrap();
    let dir = env::var_os("COORDINATOR_LIB_DIR").map_or(root.join("crates/coordinator/out"), PathBuf::from);
    println!("cargo:rerun-if-env-changed=COORDINATOR_LIB_DIR");
    println!("cargo:rerun-if-changed={}", dir.join("libcoordinator.a").display());
    println!("cargo:rustc-link-search=native={}", dir.display());
    println!("cargo:rustc-link-lib=static=coordinator");
}
