//! Links target/host/libstopblocker.a; where it is not there, host/build makes it first.

use std::path::Path;
use std::process::Command;

fn main() {
    let host = Path::new(env!("CARGO_MANIFEST_DIR")).parent().expect("the crate stands in host/");
    let folder = host.parent().expect("host/ stands in the repository").join("target/host");
    let archive = folder.join("libstopblocker.a");
    println!("cargo:rerun-if-changed={}", archive.display());
    if !archive.exists() {
        let built = Command::new(host.join("build")).status().expect("host/build can be run");
        assert!(built.success(), "host/build could not make {}, which this crate links: {built}", archive.display());
    }
    println!("cargo:rustc-link-search=native={}", folder.display());
    println!("cargo:rustc-link-lib=static=stopblocker");
}
