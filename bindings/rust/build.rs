//! Links libkip.a: that in the folder KIP_LIB if it is set, else the one in this crate. If KIP_KIT names a Rattle kit, its heap
//! calls are linked too, which a library straight from `tools/build-crates` needs.

use std::env::var;

fn main() {
    println!("cargo:rerun-if-env-changed=KIP_LIB");
    println!("cargo:rerun-if-env-changed=KIP_KIT");
    let own = || var("CARGO_MANIFEST_DIR").map(|here| format!("{here}/lib"));
    if let Ok(folder) = var("KIP_LIB").or_else(|_| own()) {
        println!("cargo:rerun-if-changed={folder}/libkip.a");
        println!("cargo:rustc-link-search=native={folder}");
    }
    println!("cargo:rustc-link-lib=static=kip");
    if let Ok(kit) = var("KIP_KIT") {
        println!("cargo:rustc-link-search=native={kit}/c");
        println!("cargo:rustc-link-lib=static=libc_c");
    }
}
