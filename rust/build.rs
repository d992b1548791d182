//! Links libnulambiro.a from the folder NULAMBIRO_LIB_DIR, or from where
//! `tools/build nulambiro` writes it in this repository.

use std::env;
use std::path::PathBuf;
use std::process::exit;

const ARCHIVE: &str = "libnulambiro.a";

fn main() {
    println!("cargo:rerun-if-env-changed=NULAMBIRO_LIB_DIR");
    let folder = match env::var_os("NULAMBIRO_LIB_DIR") {
        Some(named) => PathBuf::from(named),
        None => {
            let manifest =
                env::var_os("CARGO_MANIFEST_DIR").expect("cargo sets the manifest's folder");
            PathBuf::from(manifest).join("../target/staticlib")
        }
    };
    println!("cargo:rerun-if-changed={}", folder.join(ARCHIVE).display());
    // rustc may run in another folder than this script: the path has to be absolute.
    let Ok(archive) = folder.join(ARCHIVE).canonicalize() else {
        eprintln!(
            "{} is missing: run `tools/build nulambiro` in the repository's root, \
             or set NULAMBIRO_LIB_DIR to the folder that has {ARCHIVE}",
            folder.join(ARCHIVE).display()
        );
        exit(1);
    };
    let folder = archive.parent().expect("a file stands in a folder");
    println!("cargo:rustc-link-search=native={}", folder.display());
    println!("cargo:rustc-link-lib=static=nulambiro");
}
