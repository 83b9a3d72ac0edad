//! Links the static libraries that `tools/libraries` makes. They are looked for in the folder that FEEDCHECK_STATICLIB names,
//! by default `target/staticlib` of the repository.

use std::path::PathBuf;

fn main() {
    println!("cargo:rerun-if-env-changed=FEEDCHECK_STATICLIB");
    let folder = match std::env::var_os("FEEDCHECK_STATICLIB") {
        Some(path) => PathBuf::from(path),
        None => PathBuf::from(std::env::var_os("CARGO_MANIFEST_DIR").unwrap()).join("../../target/staticlib"),
    };
    println!("cargo:rustc-link-search=native={}", folder.display());
    for name in ["register", "scheme", "builder", "plan", "search", "penalty", "bound", "plain", "job", "listing", "costliest"] {
        let file = folder.join(format!("lib{name}.a"));
        assert!(file.exists(), "{} is not there: run tools/libraries in the repository", file.display());
        println!("cargo:rerun-if-changed={}", file.display());
        println!("cargo:rustc-link-lib=static={name}");
    }
}
