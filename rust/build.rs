//! Where the linker finds libcarderwheel.a. The crate has the archive inside it, so a new archive means that the crate is compiled anew.
use std::env;

fn main() {
    println!("cargo:rerun-if-env-changed=CARDERWHEEL_LIB");
    let root = env::var("CARGO_MANIFEST_DIR").expect("cargo sets CARGO_MANIFEST_DIR");
    let folder = env::var("CARDERWHEEL_LIB").unwrap_or_else(|_| format!("{root}/../target/staticlib"));
    // the folder, since an archive that is moved there may be older than the last build
    println!("cargo:rerun-if-changed={folder}");
    println!("cargo:rustc-link-search=native={folder}");
}
