// Links the proved closing: run `rt lib` in crates/closure_c first.
use std::path::Path;

fn main() {
    let here = std::env::var("CARGO_MANIFEST_DIR").expect("cargo sets it");
    let library = Path::new(&here).join("../../crates/closure_c/out");
    println!("cargo::rustc-link-search=native={}", library.display());
    println!("cargo::rustc-link-lib=static=closure_c");
    println!("cargo::rerun-if-changed={}", library.join("libclosure_c.a").display());
}
