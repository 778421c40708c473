//! What tests share: files of the repository, and numbers at random.

#![allow(dead_code)] // not every test needs all of them

use std::fs;
use std::path::PathBuf;

pub fn path(below_top: &str) -> PathBuf {
    PathBuf::from(concat!(env!("CARGO_MANIFEST_DIR"), "/..")).join(below_top)
}

pub fn text(below_top: &str) -> String {
    fs::read_to_string(path(below_top)).unwrap()
}

/// The encoder's frames, by file, in the order of their names.
pub fn frames() -> Vec<(String, Vec<u8>)> {
    let mut files: Vec<_> = fs::read_dir(path("judge/frames"))
        .unwrap()
        .map(|entry| entry.unwrap().path())
        .filter(|path| path.extension().is_some_and(|e| e == "ac3"))
        .collect();
    files.sort();
    assert!(files.len() > 80, "{} files", files.len());
    files
        .iter()
        .map(|path| {
            (
                path.file_name().unwrap().to_string_lossy().into_owned(),
                fs::read(path).unwrap(),
            )
        })
        .collect()
}

/// One of them.
pub fn frame(name: &str) -> Vec<u8> {
    fs::read(path("judge/frames").join(name)).unwrap()
}

/// Numbers below a bound, at random, always the same ones.
pub fn random() -> impl FnMut(usize) -> usize {
    let mut state = 1u64;
    move |below| {
        state = state
            .wrapping_mul(6364136223846793005)
            .wrapping_add(1442695040888963407);
        (state >> 33) as usize % below
    }
}
