// The sum of the library that is linked in, for `counter --version`.

#[path = "src/sha256.rs"]
#[allow(dead_code)]
mod sha256;

use std::env;
use std::fs;
use std::path::PathBuf;

fn main() {
    println!("cargo:rerun-if-env-changed=COUNTER_LIB");
    let sys = PathBuf::from(env::var("CARGO_MANIFEST_DIR").unwrap()).join("../sys");
    let folder = match env::var_os("COUNTER_LIB") {
        Some(folder) => sys.join(folder),
        None => sys.join("../../crates/counter/out"),
    };
    let library = folder.join("libcounter.a");
    println!("cargo:rerun-if-changed={}", library.display());
    let sum = match fs::read(&library) {
        Ok(bytes) => {
            let mut sha = sha256::Sha256::new();
            sha.update(&bytes);
            sha256::hex(&sha.finish())
        }
        Err(_) => "unknown".into(),
    };
    println!("cargo:rustc-env=COUNTER_LIB_SUM={sum}");
}
