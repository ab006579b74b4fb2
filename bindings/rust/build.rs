//! Links the archive that `bindings/build` makes, or the one in the folder that `CALIPERDOCK_LIB` names.

use std::env;
use std::path::PathBuf;

fn main() {
    let folder = match env::var_os("CALIPERDOCK_LIB") {
        Some(folder) => PathBuf::from(folder),
        None => PathBuf::from(env::var_os("CARGO_MANIFEST_DIR").unwrap()).join("../out"),
    };
    println!("cargo:rerun-if-env-changed=CALIPERDOCK_LIB");
    println!("cargo:rerun-if-changed={}", folder.join("libcaliperdock.a").display());
    println!("cargo:rustc-link-search=native={}", folder.display());
    println!("cargo:rustc-link-lib=static=caliperdock");
    println!("cargo:rustc-link-lib=c");
}
