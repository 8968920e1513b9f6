// Links libcounter.a from the folder COUNTER_LIB; without it from where `rt lib` writes it.

use std::env;
use std::path::PathBuf;

fn main() {
    println!("cargo:rerun-if-env-changed=COUNTER_LIB");
    let here = PathBuf::from(env::var("CARGO_MANIFEST_DIR").unwrap());
    let folder = match env::var_os("COUNTER_LIB") {
        Some(folder) => here.join(folder),
        None => here.join("../../crates/counter/out"),
    };
    println!("cargo:rerun-if-changed={}", folder.join("libcounter.a").display());
    println!("cargo:rustc-link-search=native={}", folder.display());
    println!("cargo:rustc-link-lib=static=counter");
}
