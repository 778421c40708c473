//! The frames kept in frames/: an encoder's, and those for measuring speed.

use std::path::Path;

/// Each file's name, without its ending, and its bytes, in the order of the names.
pub fn kept() -> Vec<(String, Vec<u8>)> {
    let directory = Path::new(env!("CARGO_MANIFEST_DIR")).join("frames");
    let mut files: Vec<_> = std::fs::read_dir(directory)
        .expect("the directory of frames")
        .map(|file| file.expect("a file").path())
        .filter(|path| path.extension().is_some_and(|e| e == "ac3"))
        .collect();
    files.sort();
    let name = |path: &Path| {
        path.file_stem()
            .expect("a name")
            .to_string_lossy()
            .into_owned()
    };
    files
        .iter()
        .map(|path| (name(path), std::fs::read(path).expect("a file")))
        .collect()
}
