//! The documentation is made where there is no library yet, and without a warning.

use std::path::Path;
use std::process::Command;

#[test]
fn documentation_needs_no_library() {
    let folder = Path::new(env!("CARGO_TARGET_TMPDIR"));
    let made = Command::new(env!("CARGO"))
        .args(["doc", "--offline", "--no-deps", "--manifest-path", concat!(env!("CARGO_MANIFEST_DIR"), "/Cargo.toml")])
        .env("CARGO_TARGET_DIR", folder.join("documented"))
        .env("HOMIE5_LIB_DIR", folder.join("no_library"))
        .env("RUSTDOCFLAGS", "-D warnings")
        .output()
        .unwrap();
    let said = String::from_utf8_lossy(&made.stderr);
    assert!(made.status.success(), "{said}");
    assert!(said.contains("no_library has neither libhomie5.a nor libviewer.a: run `tools/build viewer`"), "{said}");
}
