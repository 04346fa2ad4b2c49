//! Tells the linker where the static libraries `libcapi.a` and `libpanel.a`
//! lie: in the directory named by `BARZHILUP_LIB`, otherwise in
//! `target/staticlib` under the project's root. A relative name is taken from
//! this package. Where one is missing, the build stops with the command that
//! makes it.

use std::env;
use std::ffi::OsString;
use std::path::{absolute, Path, PathBuf};

/// Each library's crate of the project, and its archive.
const LIBRARIES: [(&str, &str); 2] = [("capi", "libcapi.a"), ("panel", "libpanel.a")];

fn main() {
    println!("cargo::rerun-if-env-changed=BARZHILUP_LIB");
    println!("cargo::rerun-if-changed=build.rs");
    let directory = directory();
    for (_, archive) in LIBRARIES {
        let archive = directory.join(archive);
        println!("cargo::rerun-if-changed={}", archive.display());
    }
    match missing(&directory) {
        Some(message) => println!("cargo::error={message}"),
        None => println!("cargo::rustc-link-search=native={}", directory.display()),
    }
}

/// The directory that `BARZHILUP_LIB` names, if it does.
fn named() -> Option<OsString> {
    env::var_os("BARZHILUP_LIB").filter(|name| !name.is_empty())
}

/// Where the archives have to be.
fn directory() -> PathBuf {
    let package = PathBuf::from(env::var_os("CARGO_MANIFEST_DIR").expect("the package's place"));
    let directory = match named() {
        Some(name) => package.join(name),
        None => package.join("../../target/staticlib"),
    };
    let directory = absolute(directory).expect("an absolute directory");
    directory.canonicalize().unwrap_or(directory)
}

/// Which archives the directory has not, and the command that makes them; none
/// if it has both.
fn missing(directory: &Path) -> Option<String> {
    let missing = LIBRARIES.map(|(_, archive)| {
        let found = directory.join(archive).is_file();
        (!found).then_some(archive)
    });
    let archives: Vec<_> = missing.into_iter().flatten().collect();
    if archives.is_empty() {
        return None;
    }
    let (by, unset) = match named() {
        Some(_) => (", which BARZHILUP_LIB names", " without BARZHILUP_LIB"),
        None => ("", ""),
    };
    Some(format!(
        "no {} in {}{by}: run `bash scripts/libraries` in the project's root and build \
         again{unset}, or set BARZHILUP_LIB to a directory with {}",
        archives.join(" and no "),
        directory.display(),
        LIBRARIES.map(|(_, archive)| archive).join(" and "),
    ))
}
