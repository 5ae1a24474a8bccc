//! Gives the package the proved library, made by `tests/make`, unless the feature `library` is turned off: linked on x86-64, for
//! which it is compiled; elsewhere `bridge.c` is built with it for `src/library/bridged.rs` to start.

use std::env::var;
use std::path::Path;
use std::process::Command;

fn main() {
    println!("cargo:rerun-if-changed=build.rs");
    if var("CARGO_FEATURE_LIBRARY").is_err() {
        return;
    }
    let of_cargo = |name| var(name).unwrap_or_else(|_| panic!("cargo sets {name}"));
    let here = of_cargo("CARGO_MANIFEST_DIR");
    let here = Path::new(&here);
    let directory = here.join("../target/staticlib");
    println!("cargo:rerun-if-changed={}", directory.join("libcapi.a").display());
    if of_cargo("CARGO_CFG_TARGET_ARCH") == "x86_64" {
        println!("cargo:rustc-link-search=native={}", directory.display());
        println!("cargo:rustc-link-lib=static=capi");
        return;
    }
    for file in ["x86", "bridge.c", "../include/flagcopper.h"] {
        println!("cargo:rerun-if-changed={file}");
    }
    let bridge = Path::new(&of_cargo("OUT_DIR")).join("bridge");
    let built = Command::new(here.join("x86")).arg("build").arg(&bridge).arg(here.join("bridge.c")).status();
    assert!(built.expect("tests/x86 can be run").success(), "bridge.c isn't built");
    println!("cargo:rustc-env=FLAGCOPPER_BRIDGE={}", bridge.display());
}
