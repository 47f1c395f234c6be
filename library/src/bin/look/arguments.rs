//! What a call asks for. The script gives five arguments: the text's name, the
//! process, the entry, and the first and the last state of a run; an empty
//! one is not given.

use std::ffi::OsString;

pub struct Asked {
    /// The name for messages; none for standard input.
    pub name: Option<String>,
    pub process: Option<usize>,
    entry: Option<usize>,
    from: Option<usize>,
    to: Option<usize>,
}

impl Asked {
    pub fn read(given: &[OsString]) -> Result<Asked, String> {
        let given: Vec<String> = given
            .iter()
            .map(|word| word.to_string_lossy().into_owned())
            .collect();
        let [name, process, entry, from, to] = &given[..] else {
            return Err("these arguments make no call".to_string());
        };
        Ok(Asked {
            name: (name != "-").then(|| name.clone()),
            process: number(process, "a process")?,
            entry: number(entry, "an entry")?,
            from: number(from, "an entry")?,
            to: number(to, "an entry")?,
        })
    }

    /// The first and the last state, of a run with so many entries: the
    /// state at its end where nothing is asked.
    pub fn states(&self, entries: usize) -> Result<(usize, usize), String> {
        let (from, to) = match (self.entry, self.from, self.to) {
            (Some(entry), ..) => (entry, entry),
            (None, None, None) => (entries, entries),
            (None, from, to) => (from.unwrap_or(0), to.unwrap_or(entries)),
        };
        if to > entries || from > entries {
            let asked = to.max(from);
            return Err(format!(
                "the last entry is {entries}, so there is no state after entry {asked}"
            ));
        }
        match from <= to {
            true => Ok((from, to)),
            false => Err(format!("--from {from} is behind --to {to}")),
        }
    }

    pub fn process_below(&self, n: usize) -> Result<(), String> {
        match self.process {
            Some(p) if p >= n => Err(format!("N is {n}, so there is no process {p}")),
            _ => Ok(()),
        }
    }
}

fn number(word: &str, what: &str) -> Result<Option<usize>, String> {
    if word.is_empty() {
        return Ok(None);
    }
    let digits = word.bytes().all(|byte| byte.is_ascii_digit());
    let number = word.parse().ok().filter(|_| digits);
    match number {
        Some(number) => Ok(Some(number)),
        None => Err(format!("'{word}' is not the number of {what}")),
    }
}
