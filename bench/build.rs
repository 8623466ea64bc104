//! Links the proved library, whose archive TABLEWALK_ARCHIVE names.
use std::{env, path::Path};

fn main() {
    println!("cargo:rerun-if-env-changed=TABLEWALK_ARCHIVE");
    let archive = env::var("TABLEWALK_ARCHIVE").unwrap_or_default();
    let folder = Path::new(&archive)
        .parent()
        .expect("TABLEWALK_ARCHIVE names the archive");
    println!("cargo:rerun-if-changed={archive}");
    println!("cargo:rustc-link-search=native={}", folder.display());
    println!("cargo:rustc-link-lib=static=tablewalk");
}
