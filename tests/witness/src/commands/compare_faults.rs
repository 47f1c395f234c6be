//! `witness compare-faults PROGRAM DIR`: where another program says, on
//! standard error, that a text breaks, against the simulator's own reader.

use std::fs::File;
use std::path::Path;
use std::process::{Command, Stdio};

use super::files::{read_text, texts_in};
use super::run::print;
use crate::schedule::{parse, told_place, TEXT_LIMIT};

pub fn compare_faults(program: &str, dir: &str) -> Result<u8, String> {
    let mut faults = 0;
    for path in texts_in(dir)? {
        let text = read_text(&path)?;
        if text.len() > TEXT_LIMIT {
            continue;
        }
        let Err(fault) = parse(&text) else { continue };
        let (expected, told) = (told_place(&text, fault), said_by(program, &path)?);
        if !told.starts_with(&expected) {
            let report = format!(
                "{}\nsimulator: {expected}\nprogram:   {told}",
                path.display()
            );
            print(report.as_bytes())?;
            return Ok(1);
        }
        faults += 1;
    }
    print(format!("compared the places of {faults} faults, 0 differ\n").as_bytes())
}

fn said_by(program: &str, path: &Path) -> Result<String, String> {
    let text = File::open(path).map_err(|error| format!("{}: {error}", path.display()))?;
    let output = Command::new(program)
        .stdin(text)
        .stdout(Stdio::null())
        .output();
    let said = output.map_err(|error| format!("{program}: {error}"))?;
    Ok(String::from_utf8_lossy(&said.stderr).into_owned())
}
