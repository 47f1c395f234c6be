//! `witness generate SEED COUNT DIR`.

use std::fs;
use std::path::Path;

use super::run::print;
use crate::texts;

pub fn generate(seed: u64, count: u64, dir: &str) -> Result<u8, String> {
    fs::create_dir_all(dir).map_err(|error| format!("{dir}: {error}"))?;
    let limits = texts::limit_texts();
    for index in 0..count {
        let path = Path::new(dir).join(format!("{index:05}.txt"));
        let text = texts::text(seed, index, &limits);
        fs::write(&path, text).map_err(|error| format!("{}: {error}", path.display()))?;
    }
    print(format!("{count} texts in {dir}\n").as_bytes())
}
