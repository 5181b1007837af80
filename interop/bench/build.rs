//! Looks for LMDB and SQLite, and links those that are there.

use std::env;
use std::io::Write;
use std::path::Path;
use std::process::{Command, Stdio};

fn main() {
    println!("cargo::rerun-if-changed=build.rs");
    // Debian's list of what is installed. A header that is installed keeps the
    // date of its making, so that its own date tells nothing.
    println!("cargo::rerun-if-changed=/var/lib/dpkg/status");
    for (name, header, library) in [
        ("lmdb", "lmdb.h", "lmdb"),
        ("sqlite", "sqlite3.h", "sqlite3"),
    ] {
        if links(header, library) {
            println!("cargo::rustc-cfg={name}");
            println!("cargo::rustc-link-lib=dylib={library}");
        }
    }
}

/// Whether the C compiler finds the header and the library.
fn links(header: &str, library: &str) -> bool {
    let folder = env::var_os("OUT_DIR").expect("cargo sets OUT_DIR");
    let child = Command::new("cc")
        .args(["-x", "c", "-", "-o"])
        .arg(Path::new(&folder).join("probe"))
        .arg(format!("-l{library}"))
        .stdin(Stdio::piped())
        .stdout(Stdio::null())
        .stderr(Stdio::null())
        .spawn();
    let Ok(mut child) = child else {
        return false;
    };
    let program = format!("#include <{header}>\nint main(void) {{ return 0; }}\n");
    let mut input = child.stdin.take().expect("it is piped");
    let written = input.write_all(program.as_bytes());
    drop(input);
    child.wait().is_ok_and(|status| status.success()) && written.is_ok()
}
