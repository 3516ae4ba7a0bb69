//! Links libwospinzo.a from WOSPINZO_LIB_DIR, by default target/staticlib of
//! the repository.
use std::env;
use std::path::PathBuf;

fn main() {
    println!("cargo:rerun-if-env-changed=WOSPINZO_LIB_DIR");
    let here = PathBuf::from(env::var("CARGO_MANIFEST_DIR").unwrap());
    let dir = match env::var("WOSPINZO_LIB_DIR") {
        Ok(dir) => here.join(dir),
        Err(_) => here.join("../../target/staticlib"),
    };
    let archive = dir.join("libwospinzo.a");
    println!("cargo:rerun-if-changed={}", archive.display());
    if !archive.is_file() {
        eprintln!("there is no {}", archive.display());
        eprintln!("`./archive` in the repository builds it;");
        eprintln!("WOSPINZO_LIB_DIR names another folder that has it");
        std::process::exit(1);
    }
    println!("cargo:rustc-link-search=native={}", dir.display());
    println!("cargo:rustc-link-lib=static=wospinzo");
}
