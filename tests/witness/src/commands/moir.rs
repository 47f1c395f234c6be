//! The subcommands about Moir's bench.

use std::collections::BTreeMap;
use std::fs;
use std::path::Path;

use super::files::{read_text, texts_in};
use super::run::{print, text_given};
use crate::moir::{self, listing_of, record, served, trace_of, within_bound, TAGS};
use crate::rng::Rng;
use crate::texts;

/// `witness moir-run`.
pub fn run() -> Result<u8, String> {
    print(&listing_of(&text_given()?).0)
}

/// `witness moir-trace`.
pub fn trace() -> Result<u8, String> {
    print(&trace_of(&text_given()?))
}

/// `witness moir-generate SEED COUNT DIR`: in turn a text of the first bench
/// and one of Moir's.
pub fn generate(seed: u64, count: u64, dir: &str) -> Result<u8, String> {
    fs::create_dir_all(dir).map_err(|error| format!("{dir}: {error}"))?;
    let (first, own) = (texts::limit_texts(), moir::limit_texts());
    for index in 0..count {
        let path = Path::new(dir).join(format!("{index:05}.txt"));
        let text = match index % 2 {
            0 => texts::text(seed, index / 2, &first),
            _ => moir::text(seed, index / 2, &own),
        };
        fs::write(&path, text).map_err(|error| format!("{}: {error}", path.display()))?;
    }
    print(format!("{count} texts in {dir}\n").as_bytes())
}

/// All that a text can reach on Moir's bench.
const ALL: [&str; 24] = [
    "VL true",
    "VL false",
    "SC false at line 15",
    "SC false at line 19",
    "a WLL copies a word",
    "a WLL's CAS on a segment fails",
    "an SC copies a word",
    "an SC's CAS on a segment fails",
    "the second read finds another word than A's",
    "a WLL names a process",
    "a WLL answers words",
    "an SC's Copy ends early",
    "an SC's Copy ends with its last word",
    "end",
    "refused 1",
    "refused 2",
    "refused 4",
    "refused 5",
    "refused 6",
    "refused 7",
    "refused 10",
    "refused 11",
    "refused 12",
    "refused 14",
];

/// `witness moir-cover DIR`.
pub fn cover(dir: &str) -> Result<u8, String> {
    let mut all: BTreeMap<&str, u64> = ALL.iter().map(|what| (*what, 0)).collect();
    for path in &texts_in(dir)? {
        for (what, times) in listing_of(&read_text(path)?).1 {
            *all.get_mut(what).expect("it is in the list") += times;
        }
    }
    for (what, times) in &all {
        print(format!("{times:>9} {what}\n").as_bytes())?;
    }
    Ok(u8::from(all.values().any(|times| *times == 0)))
}

/// `witness moir-history SEED COUNT`: with the tags of CR 8, and with tags
/// of four and of three values under the bounds that go with them.
pub fn history(seed: u64, count: u64) -> Result<u8, String> {
    let (mut within, mut over) = (0, 0);
    for index in 0..count {
        let rng = &mut Rng::stream(seed, index);
        let tags = rng.pick(&[TAGS, 4, 3]);
        let history = record(rng, tags, None);
        let bounded = within_bound(&history, u64::from(tags) - 1);
        match (bounded, served(&history)) {
            (true, true) => within += 1,
            (false, false) => over += 1,
            (false, true) => {}
            (true, false) => {
                let report = format!("history {index} has no order that is served\n");
                print(format!("{report}{} tags, {}\n", tags, history.script).as_bytes())?;
                return Ok(1);
            }
        }
    }
    let line = format!("{within} histories within the bound, all served; {over} over it are not\n");
    print(line.as_bytes())
}
