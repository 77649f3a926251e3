//! Tells the linker where `rt lib` wrote the archive.

use std::path::Path;

fn main() {
    let folder = Path::new(env!("CARGO_MANIFEST_DIR")).join("../../crates/voardusk/out");
    let archive = folder.join("libvoardusk.a");
    println!("cargo::rerun-if-changed={}", archive.display());
    if !archive.is_file() {
        println!("cargo::error=there is no crates/voardusk/out/libvoardusk.a: run `rt lib` in crates/voardusk first");
        return;
    }
    println!("cargo::rustc-link-search=native={}", folder.display());
    println!("cargo::rustc-link-lib=static=voardusk");
}
