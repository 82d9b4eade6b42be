//! Says what each program is linked with, so that one can be built without what the others need: `soundness` and `calls` with
//! libbook.a and `inner` with libinner.a from BOOK_DIR, `sqlite` with libbook.a and with SQLite. If the folder is not named, it
//! is the one where `tools/lib` writes for this processor.

use std::path::PathBuf;

fn archive(name: &str) -> String {
    println!("cargo:rerun-if-env-changed=BOOK_DIR");
    let here = PathBuf::from(std::env::var("CARGO_MANIFEST_DIR").unwrap());
    let folder = match std::env::var("BOOK_DIR") {
        Ok(folder) => PathBuf::from(folder),
        Err(_) => here.join(format!(
            "../../target/lib/{}-unknown-linux-gnu",
            std::env::consts::ARCH
        )),
    };
    let library = folder.join(name);
    println!("cargo:rerun-if-changed={}", library.display());
    library.display().to_string()
}

fn main() {
    let book = archive("libbook.a");
    let inner = archive("libinner.a");
    println!("cargo:rerun-if-changed=build.rs");
    println!("cargo:rustc-link-arg-bin=soundness={book}");
    println!("cargo:rustc-link-arg-bin=calls={book}");
    println!("cargo:rustc-link-arg-bin=inner={inner}");
    println!("cargo:rustc-link-arg-bin=sqlite={book}");
    println!("cargo:rustc-link-arg-bin=sqlite=-lsqlite3");
}
