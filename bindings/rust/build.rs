// Links libtablewalk.a: from the folder that TABLEWALK_LIB_DIR names, else from target/staticlib of
// the repository that this crate stands in, or from target/native where the build is for Arm.

use std::path::PathBuf;

fn main() {
    println!("cargo:rerun-if-env-changed=TABLEWALK_LIB_DIR");
    let named = std::env::var_os("TABLEWALK_LIB_DIR").map(PathBuf::from);
    let here = PathBuf::from(std::env::var_os("CARGO_MANIFEST_DIR").expect("cargo names the crate's folder"));
    let target = std::env::var("CARGO_CFG_TARGET_ARCH").unwrap_or_default();
    let (ours, command) = match target.as_str() {
        "x86_64" => ("../../target/staticlib", "tools/staticlib"),
        "aarch64" => ("../../target/native", "tools/staticlib --native"),
        _ => {
            eprintln!(
                "tablewalk: libtablewalk.a holds code for x86-64 or for Arm (aarch64), and this build is for {target}."
            );
            std::process::exit(1);
        }
    };
    let folder = named.clone().unwrap_or_else(|| here.join(ours));
    let archive = folder.join("libtablewalk.a");
    println!("cargo:rerun-if-changed={}", archive.display());

    if !archive.is_file() {
        eprintln!("tablewalk: there is no {}.", archive.display());
        match named {
            Some(_) => eprintln!("TABLEWALK_LIB_DIR names that folder. It must hold libtablewalk.a."),
            None => {
                eprintln!("Run {command} at the top of the repository, which proves and builds it,");
                eprintln!("or let TABLEWALK_LIB_DIR name the folder that holds it.");
            }
        }
        std::process::exit(1);
    }
    println!("cargo:rustc-link-search=native={}", folder.display());
    println!("cargo:rustc-link-lib=static=tablewalk");
}
