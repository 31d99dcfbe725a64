//! Names the static library to link, in the folder `HOMIE5_LIB_DIR`, else where `tools/build viewer` writes it:
//! `libhomie5.a`, as it is installed, or where there is none `libviewer.a`, as it is proved and compiled. Where neither
//! is there yet, whatever links nothing, `cargo doc` and `cargo check`, works all the same.

use std::env;
use std::path::PathBuf;

fn main() {
    println!("cargo:rerun-if-env-changed=HOMIE5_LIB_DIR");
    let here = PathBuf::from(env::var("CARGO_MANIFEST_DIR").expect("cargo names the crate's folder"));
    let folder = match env::var("HOMIE5_LIB_DIR") {
        Ok(named) => PathBuf::from(named),
        Err(_) => here.join("../../target/staticlib"),
    };
    let file = |name| folder.join(format!("lib{name}.a"));
    let name = if file("homie5").is_file() { "homie5" } else { "viewer" };
    if !file(name).is_file() {
        let remedy = "run `tools/build viewer`, or name the library's folder in HOMIE5_LIB_DIR";
        println!("cargo:warning={} has neither libhomie5.a nor libviewer.a: {remedy}", folder.display());
    }
    println!("cargo:rerun-if-changed={}", file(name).display());
    println!("cargo:rustc-link-search=native={}", folder.display());
    println!("cargo:rustc-link-lib=static={name}");
}
