//! What the tests share: the guide's files.

use std::fs;
use std::path::{Path, PathBuf};

/// The repository's folder.
pub fn root() -> PathBuf {
    Path::new(env!("CARGO_MANIFEST_DIR")).join("../..")
}

/// A file's text.
pub fn text(path: &Path) -> String {
    fs::read_to_string(path).unwrap_or_else(|error| panic!("{}: {error}", path.display()))
}

/// The guide's files with this extension, at least one, in order.
pub fn guide_files(extension: &str) -> Vec<PathBuf> {
    let folder = root().join("docs/guide");
    let mut files: Vec<PathBuf> = fs::read_dir(&folder)
        .expect("docs/guide is there")
        .map(|entry| entry.expect("it can be read").path())
        .filter(|path| path.extension().is_some_and(|found| found == extension))
        .collect();
    files.sort();
    assert!(!files.is_empty(), "no .{extension} in docs/guide");
    files
}
