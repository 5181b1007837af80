//! Links libboxstore.a, the proved code.

use std::env;
use std::path::{Path, PathBuf};
use std::process::ExitCode;

const VARIABLE: &str = "BOXSTORE_ARCHIVE_DIR";

fn main() -> ExitCode {
    println!("cargo::rerun-if-env-changed={VARIABLE}");
    let target = |part: &str| env::var(format!("CARGO_CFG_TARGET_{part}")).unwrap_or_default();
    let (arch, width) = (target("ARCH"), target("POINTER_WIDTH"));
    if (&*arch, &*width) != ("x86_64", "64") {
        eprintln!("boxstore: libboxstore.a is for x86-64 Linux, and the target is {arch} with addresses of {width} bits.");
        return ExitCode::FAILURE;
    }
    let folder = env::var_os(VARIABLE).map_or_else(default_folder, PathBuf::from);
    if folder.is_relative() {
        eprintln!(
            "boxstore: {VARIABLE} names a folder by its absolute path; it is '{}'.",
            folder.display()
        );
        return ExitCode::FAILURE;
    }
    let archive = folder.join("libboxstore.a");
    println!("cargo::rerun-if-changed={}", archive.display());
    if !archive.is_file() {
        eprintln!(
            "boxstore: {} is not there.\n`./build boxstore`, run at the root of the repository, makes \
             target/staticlib/libboxstore.a.\nThe variable {VARIABLE} names another folder to take it from.",
            archive.display()
        );
        return ExitCode::FAILURE;
    }
    println!("cargo::rustc-link-search=native={}", folder.display());
    println!("cargo::rustc-link-lib=static=boxstore");
    ExitCode::SUCCESS
}

/// target/staticlib of the repository that has this crate.
fn default_folder() -> PathBuf {
    let manifest = env::var_os("CARGO_MANIFEST_DIR").expect("cargo sets CARGO_MANIFEST_DIR");
    Path::new(&manifest).join("../../target/staticlib")
}
