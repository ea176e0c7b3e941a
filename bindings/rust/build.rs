//! Links the proved library: with the feature `static` libmakhnodri.a, without it libmakhnodri.so. It is the one in the folder that MAKHNODRI_LIBRARY
//! names, else the one that `./makhnodri library` writes for this processor beside this wrapper in the repository. Where there is none, or it is for
//! another processor, it says so. A package that depends on this one is told the folder: DEP_MAKHNODRI_FOLDER, for its own build script.

use std::env;
use std::path::{Path, PathBuf};

fn main() {
    println!("cargo:rerun-if-env-changed=MAKHNODRI_LIBRARY");
    let built_for = env::var("CARGO_CFG_TARGET_ARCH").unwrap();
    let beside = || PathBuf::from(env::var_os("CARGO_MANIFEST_DIR").unwrap()).join("../../target/library").join(&built_for);
    let folder = env::var_os("MAKHNODRI_LIBRARY").map_or_else(beside, PathBuf::from);
    let (file, how) = if cfg!(feature = "static") { ("libmakhnodri.a", "static") } else { ("libmakhnodri.so", "dylib") };
    let library = folder.join(file);
    println!("cargo:rerun-if-changed={}", library.display());
    let bytes = std::fs::read(&library).unwrap_or_else(|error| give_up(&not_there(&library, &error)));
    let made_for = processor_of(&bytes);
    if made_for != built_for {
        give_up(&another_processor(&library, &made_for, &built_for));
    }
    println!("cargo:rustc-link-search=native={}", folder.display());
    println!("cargo:rustc-link-lib={how}=makhnodri");
    println!("cargo:folder={}", folder.display());
}

/// The processor of a shared library, or of an archive's first object, in Rust's name for it.
fn processor_of(library: &[u8]) -> String {
    let object = library.windows(4).position(|four| four == b"\x7fELF").unwrap_or(library.len());
    match library.get(object + 18..object + 20) {
        Some([62, 0]) => "x86_64".into(),
        Some([183, 0]) => "aarch64".into(),
        Some(other) => format!("processor {}", u16::from_le_bytes([other[0], other[1]])),
        None => "no processor".into(),
    }
}

fn not_there(library: &Path, error: &std::io::Error) -> String {
    format!(
        "{} cannot be read ({error}). Run `./makhnodri library` in the repository, which proves it and writes target/library, or \
         `./makhnodri install PREFIX`, which puts it into PREFIX/lib; then name its folder by MAKHNODRI_LIBRARY.",
        library.display()
    )
}

fn another_processor(library: &Path, made_for: &str, built_for: &str) -> String {
    format!(
        "{} is for {made_for}, and this is built for {built_for}. In the repository \
         `./makhnodri library {built_for}` makes the one for that; or build for {made_for}, with `cargo build --target {made_for}-unknown-linux-gnu`.",
        library.display()
    )
}

fn give_up(why: &str) -> ! {
    eprintln!("makhnodri: {why}");
    std::process::exit(1)
}
