//! Links `libexport.a`, the proved code, and fails where it was not built.

include!("staticlib.rs");

fn main() {
    if let Some(library) = link("export") {
        // For the test that links a C program with the same library.
        println!("cargo::rustc-env=HEDJOSUR_LIBRARY={}", library.display());
    }
}
