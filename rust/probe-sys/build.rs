//! Links `libprobe.a`, inner functions of the proved code, and fails where it was
//! not built.

include!("../hedjosur/staticlib.rs");

fn main() {
    link("probe");
}
