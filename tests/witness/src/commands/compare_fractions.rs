//! `witness compare-fractions PROGRAM SEED COUNT DIR`: the program
//! `fractions` against the reader and the table here, on generated seasons
//! and on the ones at the limits, which are the same for every seed.

use std::fs;
use std::path::Path;
use std::process::Command;

use super::fractions::{report, Report};
use super::run::print;
use crate::rng::Rng;
use crate::schedule::listing_of;
use crate::season::{damaged, right, with_length, LISTING_LIMIT};
use crate::texts;

/// A season: N, W, and its listings in turn, as places in `listings`.
struct Case {
    n: u64,
    w: u64,
    listings: Vec<Vec<u8>>,
    turns: Vec<usize>,
}

impl Case {
    fn new(n: u64, w: u64, listings: Vec<Vec<u8>>) -> Case {
        let turns = (0..listings.len()).collect();
        Case {
            n,
            w,
            listings,
            turns,
        }
    }
}

pub fn compare_fractions(program: &str, seed: u64, count: u64, dir: &str) -> Result<u8, String> {
    let mut cases = limits();
    let limit_cases = cases.len();
    cases.extend((0..count).map(|index| case(seed, index)));
    let (mut taken, mut wrong, mut full) = (0, 0, 0);
    for (index, case) in cases.iter().enumerate() {
        let names = written(case, dir)?;
        let names: Vec<&str> = names.iter().map(String::as_str).collect();
        let expected = report(case.n, case.w, &names);
        let said = output_of(program, case, &names)?;
        if said.table != expected.table || said.notes != expected.notes {
            let here = format!(
                "season {index} differs, N = {}, W = {}, files {names:?}\n",
                case.n, case.w
            );
            let both = format!(
                "expected:\n{}{}program:\n{}{}",
                expected.table, expected.notes, said.table, said.notes
            );
            print((here + &both).as_bytes())?;
            return Ok(1);
        }
        let counted = |sign: &str| expected.notes.matches(sign).count();
        taken += names.len() - expected.notes.matches(": ").count();
        wrong += counted(": refused 18");
        full += counted(": refused 19");
    }
    if taken == 0 || wrong == 0 || full == 0 {
        return Err("the seasons do not reach every refusal".to_string());
    }
    print(
        format!(
            "compared {count} seasons and {limit_cases} at the limits, 0 differ; \
             listings taken {taken}, refused by 18 {wrong}, by 19 {full}\n"
        )
        .as_bytes(),
    )
}

fn case(seed: u64, index: u64) -> Case {
    let rng = &mut Rng::stream(seed, index);
    if rng.once_in(3) {
        if let Some(case) = simulated(rng, seed) {
            return case;
        }
    }
    let n = rng.between(1, 16) as u64;
    let w = rng.pick(&[1, 1, 2, 3, 8, 64]);
    let files = rng.between(1, 6);
    let listing = |rng: &mut Rng| {
        let answers = rng.below(20);
        if rng.once_in(3) {
            damaged(rng, n, w, answers)
        } else {
            right(rng, n, w, answers)
        }
    };
    Case::new(n, w, (0..files).map(|_| listing(rng)).collect())
}

/// The listing of a generated text, for the N and W that it names.
fn simulated(rng: &mut Rng, seed: u64) -> Option<Case> {
    let text = texts::text(seed, 1 + 4 * rng.below(100_000) as u64, &[]);
    let line = text.split(|byte| *byte == b'\n').next()?;
    let words: Vec<u64> = String::from_utf8(line.to_vec())
        .ok()?
        .split(' ')
        .map_while(|word| word.parse().ok())
        .collect();
    let (n, w) = (*words.first()?, *words.get(1)?);
    if n.max(w) > u64::from(u32::MAX) {
        return None;
    }
    let listing = listing_of(&text, None).0;
    Some(Case::new(n, w, vec![listing.clone(), listing]))
}

fn limits() -> Vec<Case> {
    let text = |line: &str| line.as_bytes().to_vec();
    let one = || vec![text("0 L 10 5\nend 31\n")];
    let mut cases: Vec<Case> = [
        (0, 1),
        (17, 1),
        (1, 0),
        (1, 65),
        (0, 0),
        (16, 64),
        (4_294_967_295, 1),
    ]
    .iter()
    .map(|(n, w)| Case::new(*n, *w, one()))
    .collect();
    cases.push(Case::new(
        1,
        1,
        vec![
            with_length(LISTING_LIMIT),
            with_length(LISTING_LIMIT + 1),
            with_length(6),
        ],
    ));
    cases.push(Case::new(
        1,
        1,
        vec![
            vec![],
            text("\n"),
            text("end 1\n\n"),
            text("end 1"),
            text("end 01\n"),
        ],
    ));
    let largest = "0 L 4294967295 4294967295\n0 S 4294967295 1\n".repeat(1400)
        + "refused 4294967295 4294967295\n";
    for files in [4_095, 4_096, 4_097, 4_100] {
        let mut case = Case::new(1, 1, vec![largest.clone().into_bytes(), text("end x\n")]);
        case.turns = vec![0; files];
        case.turns.push(1);
        cases.push(case);
    }
    cases
}

/// The files of a season, and the name of each of its turns.
fn written(case: &Case, dir: &str) -> Result<Vec<String>, String> {
    fs::create_dir_all(dir).map_err(|error| format!("{dir}: {error}"))?;
    let name = |index: usize| Path::new(dir).join(format!("{index}.listing"));
    for (index, listing) in case.listings.iter().enumerate() {
        let path = name(index);
        fs::write(&path, listing).map_err(|error| format!("{}: {error}", path.display()))?;
    }
    let mut names: Vec<String> = case
        .turns
        .iter()
        .map(|index| name(*index).display().to_string())
        .collect();
    names.push(Path::new(dir).join("missing").display().to_string());
    names.push(dir.to_string());
    Ok(names)
}

fn output_of(program: &str, case: &Case, names: &[&str]) -> Result<Report, String> {
    let output = Command::new(program)
        .arg(case.n.to_string())
        .arg(case.w.to_string())
        .args(names)
        .output()
        .map_err(|error| format!("{program}: {error}"))?;
    let text = |bytes: Vec<u8>| String::from_utf8_lossy(&bytes).into_owned();
    Ok(Report {
        table: text(output.stdout),
        notes: text(output.stderr),
    })
}
