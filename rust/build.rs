//! Links the proved library, which `bin/library` writes. It is code for x86-64 with System V calls.
//!
//! `.ci/rust` sets AMBERCELL_WITHOUT_LIBRARY where that cannot link, to check types and to test what calls nothing.
use std::env;
use std::path::Path;

fn main() {
    println!("cargo:rerun-if-env-changed=AMBERCELL_WITHOUT_LIBRARY");
    if env::var_os("AMBERCELL_WITHOUT_LIBRARY").is_some() {
        return;
    }
    let target = env::var("TARGET").unwrap();
    assert!(
        target.starts_with("x86_64-") && target.contains("-linux-"),
        "libambercell.a is for x86-64 Linux, and does not link for {target}"
    );
    let folder = Path::new(&env::var("CARGO_MANIFEST_DIR").unwrap()).join("../target/staticlib");
    let library = folder.join("libambercell.a");
    assert!(
        library.exists(),
        "no {}: run `bin/library` first",
        library.display()
    );

    println!("cargo:rerun-if-changed={}", library.display());
    println!("cargo:rustc-link-search=native={}", folder.display());
    println!("cargo:rustc-link-lib=static=ambercell");
}
