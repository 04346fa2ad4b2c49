//! Tells the tests where the product's static libraries `libcapi.a` and
//! `libpanel.a` lie: in the directory named by `BARZHILUP_LIB`, otherwise in
//! `../target/staticlib` seen from this package. A relative name is taken from
//! this package.

use std::env;
use std::path::{absolute, Path, PathBuf};

fn main() {
    let package = PathBuf::from(env::var_os("CARGO_MANIFEST_DIR").expect("the package's place"));
    let named = env::var_os("BARZHILUP_LIB").filter(|name| !name.is_empty());
    let directory = match named {
        Some(name) => package.join(name),
        None => package.join("..").join("target").join("staticlib"),
    };
    let directory = tidy(&absolute(directory).expect("an absolute directory"));
    println!("cargo:rustc-link-search=native={}", directory.display());
    for library in ["libcapi.a", "libpanel.a"] {
        println!(
            "cargo:rerun-if-changed={}",
            directory.join(library).display()
        );
    }
    println!("cargo:rerun-if-env-changed=BARZHILUP_LIB");
    println!("cargo:rerun-if-changed=build.rs");
}

/// The directory by its plain name if it is there already.
fn tidy(directory: &Path) -> PathBuf {
    directory
        .canonicalize()
        .unwrap_or_else(|_| directory.to_path_buf())
}
