//! How often a run came to the places that are hard to reach.

use super::command::Reply;
use super::process::Line;

/// Pairs count false first, true second.
#[derive(Clone, Default, PartialEq, Eq, Debug)]
pub struct Tally {
    pub line7: [u64; 2],
    pub line9: [u64; 2],
    pub line12_validate: [u64; 2],
    pub line13: [u64; 2],
    pub line14_validate: [u64; 2],
    pub line15: [u64; 2],
    /// LL answered in 4W+5, 4W+6, 6W+7 and 8W+7 own steps.
    pub ll: [u64; 4],
    /// SC answered in 2W+4 to 2W+8 own steps.
    pub sc: [u64; 5],
    pub sc_answers: [u64; 2],
    /// VL answered in one step.
    pub vl: u64,
    pub vl_answers: [u64; 2],
    /// Halts between the two halves of a word while another process moved,
    /// in lines 3, 6, 7, 11 and 17.
    pub halts: [u64; 5],
    /// Answers with any other count; there must be none.
    pub strange: u64,
}

/// Notes the outcome of a check in a pair, and gives it back.
pub fn note(pair: &mut [u64; 2], outcome: bool) -> bool {
    pair[usize::from(outcome)] += 1;
    outcome
}

impl Tally {
    pub fn answered(&mut self, reply: &Reply, count: u64, words: usize) {
        let w = words as u64;
        let slot = match reply {
            Reply::Loaded(_) => {
                let counts = [4 * w + 5, 4 * w + 6, 6 * w + 7, 8 * w + 7];
                counts
                    .iter()
                    .position(|c| *c == count)
                    .map(|k| &mut self.ll[k])
            }
            Reply::Stored(success) => {
                note(&mut self.sc_answers, *success);
                (2 * w + 4..=2 * w + 8)
                    .position(|c| c == count)
                    .map(|k| &mut self.sc[k])
            }
            Reply::Validated(valid) => {
                note(&mut self.vl_answers, *valid);
                (count == 1).then_some(&mut self.vl)
            }
        };
        *slot.unwrap_or(&mut self.strange) += 1;
    }

    /// A move in this line finds its word half moved, and another process
    /// has moved since.
    pub fn halted(&mut self, line: Line) {
        let slot = match line {
            Line::L3 => 0,
            Line::L6 => 1,
            Line::L7Copy => 2,
            Line::L11 => 3,
            _ => 4,
        };
        self.halts[slot] += 1;
    }

    pub fn add(&mut self, other: &Tally) {
        add_all(&mut self.line7, &other.line7);
        add_all(&mut self.line9, &other.line9);
        add_all(&mut self.line12_validate, &other.line12_validate);
        add_all(&mut self.line13, &other.line13);
        add_all(&mut self.line14_validate, &other.line14_validate);
        add_all(&mut self.line15, &other.line15);
        add_all(&mut self.ll, &other.ll);
        add_all(&mut self.sc, &other.sc);
        add_all(&mut self.sc_answers, &other.sc_answers);
        add_all(&mut self.vl_answers, &other.vl_answers);
        add_all(&mut self.halts, &other.halts);
        self.vl += other.vl;
        self.strange += other.strange;
    }
}

fn add_all(into: &mut [u64], from: &[u64]) {
    for (sum, part) in into.iter_mut().zip(from) {
        *sum += part;
    }
}
