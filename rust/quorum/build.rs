//! Links the static library `libquorum.a`, from `QUORUM_LIB_DIR` or else from
//! `target/staticlib`. A relative folder is taken from the repository's top.

use std::{env, path::Path};

fn main() {
    let crate_dir = env::var_os("CARGO_MANIFEST_DIR").expect("cargo sets it");
    let repository = Path::new(&crate_dir)
        .ancestors()
        .nth(2)
        .expect("rust/quorum");
    let library_dir = env::var_os("QUORUM_LIB_DIR").unwrap_or("target/staticlib".into());
    let library_dir = repository.join(library_dir);
    let archive = library_dir.join("libquorum.a");
    println!("cargo::rerun-if-env-changed=QUORUM_LIB_DIR");
    println!("cargo::rerun-if-changed={}", archive.display());
    if !archive.is_file() {
        println!(
            "cargo::error={} is missing: run `make lib` in {}, or set QUORUM_LIB_DIR",
            archive.display(),
            repository.display()
        );
        return;
    }
    println!("cargo::rustc-link-search=native={}", library_dir.display());
    println!("cargo::rustc-link-lib=static=quorum");
}
