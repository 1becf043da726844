// Links the static library that tools/build writes.
use std::{env, path::Path};

fn main() {
    let tests = env::var("CARGO_MANIFEST_DIR").expect("cargo says where the package is");
    let folder = Path::new(&tests).join("../target/staticlib");
    println!("cargo:rerun-if-changed={}", folder.join("libabi.a").display());
    println!("cargo:rustc-link-search=native={}", folder.display());
    println!("cargo:rustc-link-lib=static=abi");
}
