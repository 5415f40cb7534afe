//! Finds libwarm.a and tells cargo to link it: in the folder `WARM_LIB_DIR` if that is set, else in target/staticlib of
//! the repository. A relative `WARM_LIB_DIR` counts from the root of the repository.

use std::env;
use std::path::PathBuf;

fn main() {
    println!("cargo:rerun-if-env-changed=WARM_LIB_DIR");
    check_target();
    let folder = library_folder();
    let archive = folder.join("libwarm.a");
    println!("cargo:rerun-if-changed={}", archive.display());
    assert!(
        archive.is_file(),
        "{} is not there: run `./build warm` in the repository, which writes target/staticlib/libwarm.a, \
         or set WARM_LIB_DIR to the folder that has libwarm.a (a relative one counts from the root of the repository)",
        archive.display()
    );
    println!("cargo:rustc-link-search=native={}", folder.display());
    println!("cargo:rustc-link-lib=static=warm");
}

/// The archive has code for one kind of machine only.
fn check_target() {
    let arch = env::var("CARGO_CFG_TARGET_ARCH").unwrap();
    let os = env::var("CARGO_CFG_TARGET_OS").unwrap();
    assert!(
        (arch.as_str(), os.as_str()) == ("x86_64", "linux"),
        "libwarm.a, as `./build warm` writes it, is for x86-64 Linux only, and the target is {arch} {os}"
    );
}

fn library_folder() -> PathBuf {
    let root = PathBuf::from(env::var_os("CARGO_MANIFEST_DIR").unwrap()).join("../..");
    let named = env::var_os("WARM_LIB_DIR").filter(|folder| !folder.is_empty());
    let folder = root.join(named.unwrap_or_else(|| "target/staticlib".into()));
    folder.canonicalize().unwrap_or(folder)
}
