//! Stored examples of a program: what it is given, and what it prints.

use std::fs;
use std::path::{Path, PathBuf};

/// What a program is given, and what it is to print.
pub struct Stored {
    pub path: PathBuf,
    pub input: Vec<u8>,
    pub output: String,
}

/// The files of a folder that end in this, which may not be none; `NAME.out` has the output of each.
pub fn examples(folder: &str, ending: &str) -> Vec<Stored> {
    let mut paths: Vec<PathBuf> = fs::read_dir(folder)
        .unwrap_or_else(|error| panic!("{folder}: {error}"))
        .map(|entry| entry.expect("an entry can be read").path())
        .filter(|path| path.extension().is_some_and(|extension| extension == ending))
        .collect();
    paths.sort();
    assert!(!paths.is_empty(), "{folder} has no file that ends in {ending}");
    paths.into_iter().map(example).collect()
}

fn example(path: PathBuf) -> Stored {
    let read =
        |path: &Path| fs::read(path).unwrap_or_else(|error| panic!("{}: {error}", path.display()));
    let input = read(&path);
    let output = String::from_utf8(read(&path.with_extension("out"))).expect("it is text");
    Stored { path, input, output }
}
