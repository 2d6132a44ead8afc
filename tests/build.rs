//! Tells rustc where the static library is: in the folder that PANEL_LIB_DIR names, or else where
//! tools/build-library puts it.

use std::env;
use std::path::PathBuf;

fn main() {
    let folder = match env::var_os("PANEL_LIB_DIR") {
        Some(folder) => PathBuf::from(folder),
        None => PathBuf::from(env::var_os("CARGO_MANIFEST_DIR").expect("cargo sets it"))
            .join("../target/staticlib"),
    };
    let library = folder.join("libc_panel.a");
    if !library.is_file() {
        println!("cargo:warning=no libc_panel.a: run tools/build-library or set PANEL_LIB_DIR");
    }
    println!("cargo:rerun-if-env-changed=PANEL_LIB_DIR");
    println!("cargo:rerun-if-changed={}", library.display());
    println!("cargo:rustc-link-search=native={}", folder.display());
    println!("cargo:rustc-link-lib=static=c_panel");
}
