//! The texts of a folder.

use std::fs;
use std::path::{Path, PathBuf};

use crate::schedule::TEXT_LIMIT;

/// All `.txt` files of the folder, in the order of their names.
pub fn texts_in(dir: &str) -> Result<Vec<PathBuf>, String> {
    let entries = fs::read_dir(dir).map_err(|error| format!("{dir}: {error}"))?;
    let mut paths = Vec::new();
    for entry in entries {
        let path = entry.map_err(|error| format!("{dir}: {error}"))?.path();
        if path.extension().is_some_and(|ending| ending == "txt") {
            paths.push(path);
        }
    }
    if paths.is_empty() {
        return Err(format!("{dir}: no texts"));
    }
    paths.sort();
    Ok(paths)
}

/// As much of a text as the program `schedule` takes.
pub fn read_text(path: &Path) -> Result<Vec<u8>, String> {
    let mut text = fs::read(path).map_err(|error| format!("{}: {error}", path.display()))?;
    text.truncate(TEXT_LIMIT + 1);
    Ok(text)
}
