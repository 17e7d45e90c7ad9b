//! The repository's files.

use std::ffi::OsStr;
use std::fs;
use std::path::{Path, PathBuf};

/// A file or folder of the repository.
pub fn path(inside: &str) -> PathBuf {
    Path::new(env!("CARGO_MANIFEST_DIR")).join("../..").join(inside)
}

/// The text of one of its files.
pub fn text(inside: &str) -> String {
    fs::read_to_string(path(inside)).unwrap_or_else(|error| panic!("{inside}: {error}"))
}

/// All its documents.
pub fn documents() -> Vec<String> {
    let mut found = vec![];
    for folder in ["", "docs/", "docs/changes/"] {
        for entry in fs::read_dir(path(folder)).expect("the folder is there") {
            let file = entry.expect("an entry can be read").path();
            if file.extension().is_some_and(|extension| extension == "md") {
                let name = file.file_name().and_then(OsStr::to_str).expect("a name in ASCII");
                found.push(format!("{folder}{name}"));
            }
        }
    }
    found.sort();
    found
}

/// The blocks of a document that are fenced as this language.
pub fn blocks(document: &str, language: &str) -> Vec<String> {
    let fence = format!("\n```{language}\n");
    let text = text(document);
    let block = |start: &str| start.split("```").next().expect("a part").to_owned();
    text.split(&fence).skip(1).map(block).collect()
}
