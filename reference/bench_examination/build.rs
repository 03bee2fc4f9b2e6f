// Links the proved examination: run `rt lib` in crates/examination_c first. RATTLE_LIB names the kit's folder c, beside the page that `rt doc` prints.
use std::env;

fn main() {
    let here = env::var("CARGO_MANIFEST_DIR").unwrap();
    println!("cargo:rustc-link-search=native={here}/../../crates/examination_c/out");
    println!("cargo:rustc-link-search=native={}", env::var("RATTLE_LIB").expect("RATTLE_LIB is the kit's folder c"));
    println!("cargo:rustc-link-lib=static=examination_c");
    println!("cargo:rustc-link-lib=static=libc_c");
    println!("cargo:rustc-link-lib=static=os_c");
    println!("cargo:rerun-if-env-changed=RATTLE_LIB");
    println!("cargo:rerun-if-changed={here}/../../crates/examination_c/out/libexamination_c.a");
}
