//! Links libwospinzo.a from WOSPINZO_LIB_DIR, by default target/staticlib of
//! the repository.
use std::env;
use std::path::PathBuf;

fn main() {
    println!("cargo:rerun-if-env-changed=WOSPINZO_LIB_DIR");
    if env::var_os("CARGO_FEATURE_ARCHIVE").is_none() {
        return;
    }
    let here = PathBuf::from(env::var("CARGO_MANIFEST_DIR").unwrap());
    let dir = match env::var("WOSPINZO_LIB_DIR") {
        Ok(dir) => here.join(dir),
        Err(_) => here.join("../../target/staticlib"),
    };
    println!(
        "cargo:rerun-if-changed={}",
        dir.join("libwospinzo.a").display()
    );
    println!("cargo:rustc-link-search=native={}", dir.display());
    println!("cargo:rustc-link-lib=static=wospinzo");
}
