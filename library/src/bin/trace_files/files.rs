//! Files read whole, and written whole or not at all.

use std::ffi::OsString;
use std::fs::{self, File};
use std::io::{self, Read, Write};
use std::path::{Path, PathBuf};

/// The bytes of a file; of one that is longer than `most`, one more.
pub fn read(path: &Path, most: usize) -> Result<Vec<u8>, String> {
    let mut bytes = Vec::new();
    File::open(path)
        .and_then(|file| file.take(most as u64 + 1).read_to_end(&mut bytes))
        .map_err(|error| format!("'{}' can't be read: {error}", path.display()))?;
    Ok(bytes)
}

/// A new file beside `path` takes its place once all is written. What is no
/// file, as a pipe or a device, is written where it stands.
pub fn write(path: &Path, bytes: &[u8]) -> Result<(), String> {
    let whole = match fs::metadata(path) {
        Ok(there) if !there.is_file() => fs::write(path, bytes),
        _ => replace(path, bytes),
    };
    whole.map_err(|error| format!("'{}' can't be written: {error}", path.display()))
}

fn replace(path: &Path, bytes: &[u8]) -> io::Result<()> {
    let target = fs::canonicalize(path).unwrap_or_else(|_| path.to_path_buf());
    let beside = beside(&target);
    let mut file = File::create_new(&beside)?;
    let done = keep_mode(&target, &file)
        .and_then(|()| file.write_all(bytes))
        .and_then(|()| file.sync_all())
        .and_then(|()| fs::rename(&beside, &target));
    if done.is_err() {
        let _ = fs::remove_file(&beside);
    }
    done
}

/// A file that is there keeps its permissions; one that may not be written
/// stays.
fn keep_mode(target: &Path, file: &File) -> io::Result<()> {
    match fs::metadata(target) {
        Ok(there) => {
            File::options().append(true).open(target)?;
            file.set_permissions(there.permissions())
        }
        Err(_) => Ok(()),
    }
}

fn beside(path: &Path) -> PathBuf {
    let mut name = OsString::from(path);
    name.push(format!(".{}.new", std::process::id()));
    PathBuf::from(name)
}
