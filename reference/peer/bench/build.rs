//! Links the proved judges where the feature `proved` asks for them: LAB names
//! the folder of `liblab.a` (`rt staticlib lab`).

use std::env;

fn main() {
    println!("cargo:rerun-if-env-changed=LAB");
    if env::var_os("CARGO_FEATURE_PROVED").is_some() {
        let folder = env::var("LAB").expect("LAB names the folder of liblab.a");
        println!("cargo:rerun-if-changed={folder}/liblab.a");
        println!("cargo:rustc-link-search=native={folder}");
        println!("cargo:rustc-link-lib=static=lab");
    }
}
