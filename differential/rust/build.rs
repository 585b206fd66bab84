//! Takes a published crate from the folder that HNS_RS_SRC names, or from beside the repository:
//! the file as it stands, as a module, since cargo takes no variable for a library's path.
use std::path::{Path, PathBuf};
use std::{env, fs};

fn main() {
    println!("cargo::rerun-if-env-changed=HNS_RS_SRC");
    let name = env::var("CARGO_PKG_NAME").expect("cargo sets it");
    let source = folder().join("crates").join(name).join("src/lib.rs");
    println!("cargo::rerun-if-changed={}", source.display());
    if !source.exists() {
        println!("cargo::error=no published source at {}", source.display());
        println!("cargo::error=set HNS_RS_SRC to the folder that has its crates/");
        return;
    }
    let out = env::var("OUT_DIR").expect("cargo sets it");
    let module = format!(
        "#[path = {:?}]\nmod published;\n",
        source.display().to_string()
    );
    fs::write(Path::new(&out).join("published.rs"), module).expect("OUT_DIR");
}

fn folder() -> PathBuf {
    let package = env::var("CARGO_MANIFEST_DIR").expect("cargo sets it");
    let beside = Path::new(&package).join("../../../../shared/docs/src");
    let folder = env::var_os("HNS_RS_SRC").map_or(beside, PathBuf::from);
    folder.canonicalize().unwrap_or(folder)
}
