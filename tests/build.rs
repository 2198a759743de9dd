// Links the static library, built before by `tools/staticlib` from the crate `a6plan_c`.

use std::env;
use std::path::Path;

fn main() {
    let package = env::var("CARGO_MANIFEST_DIR").expect("cargo sets CARGO_MANIFEST_DIR");
    let folder = Path::new(&package).join("../target/staticlib");
    let archive = folder.join("liba6plan.a");
    println!("cargo:rerun-if-changed={}", archive.display());
    println!("cargo:rerun-if-changed=build.rs");
    if !archive.exists() {
        panic!("no ../target/staticlib/liba6plan.a: build it first with `tools/staticlib`");
    }
    println!("cargo:rustc-link-search=native={}", folder.display());
    println!("cargo:rustc-link-lib=static=a6plan");
}
