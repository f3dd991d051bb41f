//! Links the proved library where it is there, and says so by the flag `proved`.

use std::env;
use std::path::PathBuf;

fn main() {
    println!("cargo::rustc-check-cfg=cfg(proved)");
    println!("cargo::rerun-if-env-changed=PROVED");
    let folder = match env::var_os("PROVED") {
        Some(folder) => PathBuf::from(folder),
        None => PathBuf::from("../.."),
    };
    let library = folder.join("target/staticlib/libmmu_c.a");
    println!("cargo::rerun-if-changed={}", library.display());
    let Ok(library) = library.canonicalize() else {
        return;
    };
    let folder = library.parent().expect("a file stands in a folder");
    println!("cargo::rustc-cfg=proved");
    println!("cargo::rustc-link-search=native={}", folder.display());
    println!("cargo::rustc-link-lib=static=mmu_c");
}
