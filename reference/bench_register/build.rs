// Links the proved registers: run `rt lib` in crates/register_c first. RATTLE_LIB names the kit's folder c, beside the page that `rt doc` prints.
use std::env;

fn main() {
    let here = env::var("CARGO_MANIFEST_DIR").unwrap();
    println!("cargo:rustc-link-search=native={here}/../../crates/register_c/out");
    println!("cargo:rustc-link-search=native={}", env::var("RATTLE_LIB").expect("RATTLE_LIB is the kit's folder c"));
    println!("cargo:rustc-link-lib=static=register_c");
    println!("cargo:rustc-link-lib=static=libc_c");
    println!("cargo:rustc-link-lib=static=os_c");
    println!("cargo:rerun-if-env-changed=RATTLE_LIB");
    println!("cargo:rerun-if-changed={here}/../../crates/register_c/out/libregister_c.a");
}
