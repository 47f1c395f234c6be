//! `witness cover DIR`: what the texts of a folder reach.

use super::files::{read_text, texts_in};
use super::run::print;
use super::tally_rows::{counts, lines as tally_lines};
use super::zeros::{leading_zero, NUMBERS};
use crate::machine::Tally;
use crate::schedule::{listing_of, Outcome, TEXT_LIMIT};

/// The refusals that a text can meet, but for 12, which is counted by its two
/// causes. Every other number is out of its reach or, as 13, no longer in use.
const REFUSALS: [u8; 9] = [1, 2, 4, 5, 6, 7, 10, 11, 14];

pub fn cover(dir: &str) -> Result<u8, String> {
    let mut sums = Sums::default();
    for path in texts_in(dir)? {
        let text = read_text(&path)?;
        let (_, outcome, tally) = listing_of(&text, None);
        sums.add(&text, outcome, &tally);
    }
    let (report, all_reached) = sums.report();
    print(report.as_bytes())?;
    Ok(u8::from(!all_reached))
}

#[derive(Default)]
struct Sums {
    texts: u64,
    entries: u64,
    ends: u64,
    refused: [u64; 16],
    too_long: u64,
    leading_zeros: [u64; 6],
    tally: Tally,
}

impl Sums {
    fn add(&mut self, text: &[u8], outcome: Outcome, tally: &Tally) {
        self.texts += 1;
        self.entries += outcome.entries;
        self.tally.add(tally);
        if outcome.number == 0 {
            self.ends += 1;
        } else if text.len() > TEXT_LIMIT {
            self.too_long += 1;
        } else {
            self.refused[usize::from(outcome.number)] += 1;
            if let Some(number) = leading_zero(text) {
                self.leading_zeros[number] += 1;
            }
        }
    }

    /// All figures, and whether all that can occur did and nothing else.
    fn report(&self) -> (String, bool) {
        let mut lines = format!("{} texts, {} entries\n", self.texts, self.entries);
        let mut missing = false;
        let mut rows = counts(&self.tally);
        rows.extend(self.outcomes());
        rows.extend(tally_lines(&self.tally));
        for (name, times) in rows {
            let note = if times == 0 { "  never reached" } else { "" };
            lines += &format!("{name:<30} {times:>9}{note}\n");
            missing |= times == 0;
        }
        let strange = self.tally.strange + self.impossible();
        lines += &format!("{:<30} {strange:>9}\n", "what cannot occur");
        (lines, !missing && strange == 0)
    }

    fn impossible(&self) -> u64 {
        (0..)
            .zip(self.refused)
            .filter(|(number, _)| *number != 12 && !REFUSALS.contains(number))
            .map(|(_, times)| times)
            .sum()
    }

    fn outcomes(&self) -> Vec<(String, u64)> {
        let mut rows = vec![("end".to_string(), self.ends)];
        for number in REFUSALS {
            rows.push((
                format!("refused {number}"),
                self.refused[usize::from(number)],
            ));
        }
        for (number, times) in NUMBERS.iter().zip(self.leading_zeros) {
            rows.push((format!("leading zero, {number}"), times));
        }
        rows.push(("refused 12, text too long".to_string(), self.too_long));
        rows.push(("refused 12, 60,000 entries".to_string(), self.refused[12]));
        rows
    }
}
