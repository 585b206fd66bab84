//! Links libhns_ffi.a, libhns_ffi_frames.a, libhns_ffi_packets.a and libhns_ffi_writers.a: from the folder that
//! HNS_FFI_LIB names, or from where `tools/staticlib` writes them.
use std::env;
use std::path::{Path, PathBuf};

fn main() {
    println!("cargo::rerun-if-env-changed=HNS_FFI_LIB");
    let package = env::var("CARGO_MANIFEST_DIR").expect("cargo sets it");
    let written = Path::new(&package).join("../../target/staticlib");
    let folder = env::var_os("HNS_FFI_LIB").map_or(written, PathBuf::from);
    println!("cargo::rustc-link-search=native={}", folder.display());
    println!("cargo::rustc-env=HNS_FFI_LIBRARIES={}", folder.display());
    for name in [
        "hns_ffi",
        "hns_ffi_frames",
        "hns_ffi_packets",
        "hns_ffi_writers",
    ] {
        let library = folder.join(format!("lib{name}.a"));
        println!("cargo::rerun-if-changed={}", library.display());
        if !library.exists() {
            println!(
                "cargo::error=no {}: run `tools/staticlib {name}`",
                library.display()
            );
            return;
        }
        println!("cargo::rustc-link-lib=static={name}");
    }
}
