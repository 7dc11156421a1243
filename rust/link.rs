//! Links a static library of the repository, if the feature `rattle` of the package that is built asks for it.

use std::path::Path;

/// Links `crates/NAME/out/libNAME.a`, which `rt lib` makes in crates/NAME.
pub fn link(name: &str) {
    println!("cargo:rerun-if-changed=build.rs");
    println!("cargo:rerun-if-changed=../link.rs");
    if std::env::var_os("CARGO_FEATURE_RATTLE").is_none() {
        return;
    }
    let folder = Path::new(env!("CARGO_MANIFEST_DIR")).join("../../crates").join(name).join("out");
    let library = folder.join(format!("lib{name}.a"));
    println!("cargo:rerun-if-changed={}", library.display());
    if !library.exists() {
        eprintln!("{} is missing: run `rt lib` in crates/{name} of the repository first", library.display());
        std::process::exit(1);
    }
    println!("cargo:rustc-link-search=native={}", folder.display());
    println!("cargo:rustc-link-lib=static={name}");
}
