//! Tells cargo where `libmikjuqan.a` stands: in the directory `MIKJUQAN_LIB_DIR`, else in `../target/staticlib`.

use std::env;
use std::path::PathBuf;

fn main() {
    println!("cargo:rerun-if-env-changed=MIKJUQAN_LIB_DIR");
    let directory = match env::var_os("MIKJUQAN_LIB_DIR") {
        Some(given) => PathBuf::from(given),
        None => PathBuf::from(env!("CARGO_MANIFEST_DIR")).join("../target/staticlib"),
    };
    let archive = directory.join("libmikjuqan.a");
    println!("cargo:rerun-if-changed={}", archive.display());
    // The linker runs in another directory, so a relative path would not do.
    let found = archive.canonicalize().unwrap_or_else(|error| {
        panic!(
            "{}: {error}; make it with `tools/build` of the repository, or name its directory in MIKJUQAN_LIB_DIR",
            archive.display()
        )
    });
    let directory = found.parent().expect("a file stands in a directory");
    println!("cargo:rustc-link-search=native={}", directory.display());
    println!("cargo:rustc-link-lib=static=mikjuqan");
}
