//! Links libcqlp.a: that of the folder that CQLP_LIB_DIR names, else that of bindings/out, which `bindings/build` makes.

use std::env;
use std::path::PathBuf;

fn main() {
    println!("cargo:rerun-if-env-changed=CQLP_LIB_DIR");
    let folder = match env::var_os("CQLP_LIB_DIR") {
        Some(named) => PathBuf::from(named),
        None => PathBuf::from(env!("CARGO_MANIFEST_DIR")).join("../../out"),
    };
    let library = folder.join("libcqlp.a");
    println!("cargo:rerun-if-changed={}", library.display());
    if !library.exists() {
        println!("cargo:warning={} is not there: run bindings/build", library.display());
    }
    println!("cargo:rustc-link-search=native={}", folder.display());
    println!("cargo:rustc-link-lib=static=cqlp");
}
