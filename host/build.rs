// Tells the linker where libmicro32.a is: in the folder that MICRO32_LIB names, else in ../target/staticlib, where
// `host/library` writes it.
use std::env;
use std::path::PathBuf;

fn main() {
    let here = PathBuf::from(env::var("CARGO_MANIFEST_DIR").expect("cargo sets it"));
    let folder = env::var("MICRO32_LIB").map(PathBuf::from).unwrap_or_else(|_| here.join("../target/staticlib"));
    let file = folder.join("libmicro32.a");
    if !file.exists() {
        panic!("{} is not there: run `host/library` at the top of the repository, or set MICRO32_LIB", file.display());
    }
    println!("cargo:rustc-link-search=native={}", folder.display());
    println!("cargo:rustc-link-lib=static=micro32");
    println!("cargo:rerun-if-changed={}", file.display());
    println!("cargo:rerun-if-env-changed=MICRO32_LIB");
}
