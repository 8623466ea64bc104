//! Links the proved library, whose archive TABLEWALK_ARCHIVE names. Without one the program
//! compares the crate with the plain reading alone.
use std::{env, path::Path};

fn main() {
    println!("cargo:rerun-if-env-changed=TABLEWALK_ARCHIVE");
    println!("cargo:rustc-check-cfg=cfg(library)");
    let archive = env::var("TABLEWALK_ARCHIVE").unwrap_or_default();
    if archive.is_empty() {
        return;
    }
    let folder = Path::new(&archive).parent().expect("an archive stands in a folder");
    println!("cargo:rerun-if-changed={archive}");
    println!("cargo:rustc-link-search=native={}", folder.display());
    println!("cargo:rustc-link-lib=static=tablewalk");
    println!("cargo:rustc-cfg=library");
}
