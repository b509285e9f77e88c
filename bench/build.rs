//! Links the static libraries that `tools/staticlib` builds.

use std::env;
use std::path::Path;

const LIBRARIES: [&str; 2] = ["block_cipher", "network_c"];

fn main() {
    println!("cargo::rerun-if-changed=build.rs");
    let here = env::var("CARGO_MANIFEST_DIR").expect("cargo says where the project stands");
    let folder = Path::new(&here).join("../target/staticlib");
    println!("cargo::rustc-link-search=native={}", folder.display());
    for name in LIBRARIES {
        let library = folder.join(format!("lib{name}.a"));
        println!("cargo::rerun-if-changed={}", library.display());
        if !library.exists() {
            println!("cargo::error=run `tools/staticlib` first");
            return;
        }
        println!("cargo::rustc-link-lib=static={name}");
    }
}
