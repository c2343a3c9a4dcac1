//! Links the archive with the exported calls, if the feature `engine` asks for it.

use std::env;

fn main() {
    println!("cargo:rerun-if-env-changed=WINGPOLLEN_LIB");
    println!("cargo:rerun-if-changed=build.rs");
    if env::var_os("CARGO_FEATURE_ENGINE").is_none() {
        return;
    }
    let directory = env::var("WINGPOLLEN_LIB")
        .expect("the feature `engine` needs WINGPOLLEN_LIB: the directory that holds libengine.a");
    println!("cargo:rerun-if-changed={directory}/libengine.a");
    println!("cargo:rustc-link-search=native={directory}");
    println!("cargo:rustc-link-lib=static=engine");
}
