//! Links libbook.a: from the folder that BOOK_DIR names, or from the one where `tools/lib` writes it for this processor.

use std::path::PathBuf;

fn main() {
    println!("cargo:rerun-if-env-changed=BOOK_DIR");
    let here = PathBuf::from(std::env::var("CARGO_MANIFEST_DIR").unwrap());
    let folder = match std::env::var("BOOK_DIR") {
        Ok(folder) => PathBuf::from(folder),
        Err(_) => here.join(format!("../../target/lib/{}-unknown-linux-gnu", std::env::consts::ARCH)),
    };
    let library = folder.join("libbook.a");
    println!("cargo:rerun-if-changed={}", library.display());
    println!("cargo:rustc-link-search=native={}", folder.display());
    println!("cargo:rustc-link-lib=static=book");
}
