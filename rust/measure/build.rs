//! Finds the static library where `tools/archive` leaves it.

use std::env;
use std::path::Path;

fn main() {
    let here = env::var("CARGO_MANIFEST_DIR").expect("cargo sets the folder of the package");
    let folder = Path::new(&here).join("../../target/staticlib");
    println!("cargo:rustc-link-search=native={}", folder.display());
    println!("cargo:rustc-link-lib=static=siengulot");
    println!(
        "cargo:rerun-if-changed={}",
        folder.join("libsiengulot.a").display()
    );
}
