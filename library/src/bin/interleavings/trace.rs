//! What a trace (docs/TRACE.md) tells of a run: which commands answered, the
//! listing, and the log of the answered calls for the judge. The moment of a
//! call is the place of the command at which it takes effect in the proof
//! (docs/JUDGE.md).

/// The place of command k in a log is so many times k.
const PLACES: u64 = 1024;

/// The most processes of a bench.
const MOST_PROCESSES: usize = 16;

/// What a trace tells.
#[derive(Default)]
pub struct Told {
    /// For each command carried out whether it answered a call.
    pub answered: Vec<bool>,
    /// The lines of the listing but its last.
    pub answers: String,
    /// The rows of the log, one after the other.
    pub log: Vec<u64>,
}

/// What is known of the open calls, by process; commands by their numbers.
#[derive(Default)]
struct Calls {
    start: [u64; MOST_PROCESSES],
    offered: [u64; MOST_PROCESSES],
    effect: [u64; MOST_PROCESSES],
    /// The VL(X) of line 14 by which a helper checked what it hands over.
    checked: [u64; MOST_PROCESSES],
    /// That of the helper that handed over last.
    handed: [u64; MOST_PROCESSES],
}

/// A trace without its last line, of a bench of w words.
pub fn told(trace: &str, w: usize) -> Told {
    let mut told = Told::default();
    let mut calls = Calls::default();
    for line in trace.lines() {
        let (access, answer) = match line.split_once(" answers ") {
            Some((access, answer)) => (access, Some(answer)),
            None => (line, None),
        };
        let (command, p) = calls.note(access);
        told.answered.push(answer.is_some());
        if let Some(answer) = answer {
            told.answers.push_str(answer);
            told.answers.push('\n');
            told.log.extend(calls.row(command, p, answer, w));
        }
    }
    told
}

impl Calls {
    /// The number of the command and its process; what it means for the
    /// moments is kept.
    fn note(&mut self, access: &str) -> (u64, usize) {
        let fields: Vec<&str> = access.split(' ').collect();
        let command = number(fields[0]);
        let p = number(fields[1]) as usize;
        match fields[2..] {
            ["start", _, value] => (self.start[p], self.offered[p]) = (command, number(value)),
            ["start", _] => self.start[p] = command,
            ["2" | "5", ..] => self.effect[p] = command,
            ["7", _, "VL", "false"] => self.effect[p] = self.handed[p],
            ["14", "X", "VL", "true"] => self.checked[p] = command,
            ["15", place, "SC", _, _, "true", ..] => self.handed[index(place)] = self.checked[p],
            _ => {}
        }
        (command, p)
    }

    /// The row of the log for a call that this command answered.
    fn row(&self, command: u64, p: usize, answer: &str, w: usize) -> Vec<u64> {
        let fields: Vec<&str> = answer.split(' ').collect();
        let said: Vec<u64> = fields[3..].iter().map(|word| number(word)).collect();
        let (kind, truth, moment, words) = match fields[1] {
            "L" => (1, 0, self.effect[p], said),
            "S" => (2, said[0], command, vec![self.offered[p]; w]),
            _ => (3, said[0], command, vec![0; w]),
        };
        let places = [self.start[p], command, moment].map(|command| command * PLACES);
        let [start, answered, moment] = places;
        let mut row = vec![p as u64, kind, start, answered, truth, moment];
        row.extend(words);
        row
    }
}

/// The i of `Help[i]`.
fn index(place: &str) -> usize {
    let digits = place.trim_matches(|c: char| !c.is_ascii_digit());
    number(digits) as usize
}

fn number(word: &str) -> u64 {
    word.parse().expect("a trace has numbers here")
}
