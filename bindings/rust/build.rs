//! Links the archive `libmelvorash_c.a` from the folder that MELVORASH_LIB names, else from where
//! `scripts/build library` writes it.
use std::env;
use std::path::{Path, PathBuf};

fn main() {
    let usual = Path::new(env!("CARGO_MANIFEST_DIR")).join("../../target/staticlib");
    let folder = env::var_os("MELVORASH_LIB").map_or(usual, PathBuf::from);
    println!("cargo:rerun-if-env-changed=MELVORASH_LIB");
    println!("cargo:rerun-if-changed={}", folder.join("libmelvorash_c.a").display());
    println!("cargo:rustc-link-search=native={}", folder.display());
    println!("cargo:rustc-link-lib=static=melvorash_c");
}
