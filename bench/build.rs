//! Where an earlier library lies, if one is to be linked: in the folder that MAKHNODRI_EARLIER names. The library itself is linked by bindings/rust.

use std::path::PathBuf;

fn main() {
    println!("cargo:rerun-if-changed=build.rs");
    println!("cargo:rerun-if-env-changed=MAKHNODRI_EARLIER");
    if let (Some(_), Some(earlier)) = (std::env::var_os("CARGO_FEATURE_EARLIER"), std::env::var_os("MAKHNODRI_EARLIER")) {
        let earlier = PathBuf::from(earlier);
        println!("cargo:rerun-if-changed={}", earlier.join("libmakhnodri_earlier.a").display());
        println!("cargo:rustc-link-search=native={}", earlier.display());
        println!("cargo:rustc-link-lib=static=makhnodri_earlier");
    }
}
