//! Tells the linker where the first implementation's two static libraries are, when they are asked
//! for.

use std::env;

fn main() {
    println!("cargo:rerun-if-changed=build.rs");
    println!("cargo:rerun-if-env-changed=POMROZEK_STATICLIB_DIR");
    if env::var_os("CARGO_FEATURE_STATIC_LIBRARY").is_none() {
        return;
    }
    let folder = env::var("POMROZEK_STATICLIB_DIR")
        .expect("POMROZEK_STATICLIB_DIR names the folder that holds the two archives");
    println!("cargo:rustc-link-search=native={folder}");
    for library in ["pomrozek", "pomrozek_replay"] {
        println!("cargo:rerun-if-changed={folder}/lib{library}.a");
        println!("cargo:rustc-link-lib=static={library}");
    }
}
