/// Links a static library of the proved code and answers where it is; fails with
/// what to do where it was not built. It is in `out` of its crate's folder in the
/// repository, or in the folder that the environment variable `HEDJOSUR_STATICLIB`
/// names.
fn link(name: &str) -> Option<std::path::PathBuf> {
    println!("cargo::rerun-if-env-changed=HEDJOSUR_STATICLIB");
    let named = std::env::var_os("HEDJOSUR_STATICLIB").map(std::path::PathBuf::from);
    let folder = named.unwrap_or_else(|| {
        let here = std::env::var_os("CARGO_MANIFEST_DIR").expect("cargo sets it");
        std::path::Path::new(&here).join(format!("../../crates/{name}/out"))
    });
    let library = folder.join(format!("lib{name}.a"));
    println!("cargo::rerun-if-changed={}", library.display());
    if !library.is_file() {
        println!(
            "cargo::error=there is no {}: build it with `rt lib` in crates/{name} of the repository, \
             or name the folder that has lib{name}.a in the environment variable HEDJOSUR_STATICLIB",
            library.display()
        );
        return None;
    }
    println!("cargo::rustc-link-search=native={}", folder.display());
    println!("cargo::rustc-link-lib=static={name}");
    Some(library)
}
