//! Finds `libbezglami.a`, the one archive of a release: in the folder that `BEZGLAMI_LIB` names, or in `lib` of the release that
//! this crate lies in.

use std::env;
use std::path::PathBuf;

fn main() {
    println!("cargo:rerun-if-env-changed=BEZGLAMI_LIB");
    let folder = match env::var_os("BEZGLAMI_LIB") {
        Some(folder) => PathBuf::from(folder),
        None => PathBuf::from(env::var_os("CARGO_MANIFEST_DIR").expect("cargo sets it"))
            .join("../../lib"),
    };
    let library = folder.join("libbezglami.a");
    assert!(
        library.is_file(),
        "{} is not there: BEZGLAMI_LIB names the folder that has libbezglami.a",
        library.display()
    );
    println!("cargo:rerun-if-changed={}", library.display());
    println!("cargo:rustc-link-search=native={}", folder.display());
    println!("cargo:rustc-link-lib=static=bezglami");
}
