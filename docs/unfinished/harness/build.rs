//! Links the static library of crate `link`, and the C code of the kit that it allocates by.
use std::env;
use std::path::PathBuf;

fn folder(variable: &str, otherwise: PathBuf) -> PathBuf {
    println!("cargo:rerun-if-env-changed={variable}");
    env::var_os(variable).map_or(otherwise, PathBuf::from)
}

fn main() {
    let here = PathBuf::from(env::var_os("CARGO_MANIFEST_DIR").expect("cargo sets it"));
    let library = folder("VELVETPALM_LIB", here.join("../target/staticlib"));
    let kit = folder("RATTLE_LIB", PathBuf::from("/opt/rattle/lib"));
    println!("cargo:rustc-link-search=native={}", library.display());
    println!("cargo:rustc-link-search=native={}", kit.display());
    println!("cargo:rustc-link-lib=static=link");
    println!("cargo:rustc-link-lib=static=rattle_c");
    println!("cargo:rerun-if-changed={}", library.join("liblink.a").display());
}
