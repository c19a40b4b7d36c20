//! Finds the proved archive: in the folder that CHOMKADIEU_ARCHIVE names, else where `tools/archive` puts it.
use std::env;
use std::path::{Path, PathBuf};

fn main() {
    println!("cargo:rerun-if-env-changed=CHOMKADIEU_ARCHIVE");
    let here = env::var("CARGO_MANIFEST_DIR").expect("cargo says where the crate is");
    let default = Path::new(&here).join("../../target/staticlib");
    let folder = env::var_os("CHOMKADIEU_ARCHIVE").map_or(default, PathBuf::from);
    let archive = folder.join("libcapi.a");
    println!("cargo:rerun-if-changed={}", archive.display());
    assert!(
        archive.is_file(),
        "there is no {}: run `tools/archive` at the repository's top, or name the archive's folder in CHOMKADIEU_ARCHIVE",
        archive.display()
    );
    println!("cargo:rustc-link-search=native={}", folder.display());
    println!("cargo:rustc-link-lib=static=capi");
}
