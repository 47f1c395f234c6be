//! The states of a schedule text, for a program that goes to and fro between
//! them: a copy of the list is kept every thousand entries, and a state is a
//! copy and the steps behind it.

use crate::held::{self, after_text, Order};
use crate::texts::{trace_text_with_report, Sizes, Stop};

/// So many entries after one copy comes the next.
const STRIDE: usize = 1_000;

/// A text has one record.
const RECORD: usize = 0;

/// The most entries of a run, and room for the line of each and the last one.
const MOST_ENTRIES: usize = 60_000;
const LINE_ROOM: usize = 872;

/// The states after the entries of a text. Its commands are those that its
/// trace names; each copy is the one before it and a thousand steps more.
pub struct States {
    w: usize,
    commands: Vec<Command>,
    kept: Vec<Vec<u64>>,
}

#[derive(Clone, Copy)]
struct Command {
    process: usize,
    start: Option<Start>,
}

#[derive(Clone, Copy)]
enum Start {
    Ll,
    Sc(u64),
    Vl,
}

impl States {
    /// Of a text that was set up; none of one that is refused before that.
    pub fn of(text: &[u8]) -> Option<States> {
        let mut trace = vec![0; (MOST_ENTRIES + 1) * LINE_ROOM];
        let (run, stop) = trace_text_with_report(text, &mut trace);
        let Sizes { n, w } = match stop {
            Stop::AtItem(sizes, _) => sizes,
            Stop::AtNoItem(sizes) if run.outcome.is_ok() => sizes,
            _ => return None,
        };
        let (n, w) = (n as usize, w as usize);
        let lines = trace[..run.written].split(|byte| *byte == b'\n');
        let commands = lines
            .take(run.entries)
            .map(Command::read)
            .collect::<Option<_>>()?;
        let mut list = vec![0; held::length(n, w, 1)];
        after_text(&mut list, text, 0);
        let kept = Vec::new();
        let mut states = States { w, commands, kept };
        for from in (0..=run.entries).step_by(STRIDE) {
            states.kept.push(list.clone());
            states.go_on(&mut list, from, (from + STRIDE).min(run.entries));
        }
        Some(states)
    }

    /// The number of entries; state 0 is the set-up.
    pub fn entries(&self) -> usize {
        self.commands.len()
    }

    /// The list after this entry, where the text has it: the one that
    /// `held::after_text` leaves in a list of zeros.
    pub fn after(&self, entry: usize) -> Option<Vec<u64>> {
        if entry > self.entries() {
            return None;
        }
        let copy = entry / STRIDE;
        let mut list = self.kept[copy].clone();
        self.go_on(&mut list, copy * STRIDE, entry);
        Some(list)
    }

    fn go_on(&self, list: &mut [u64], from: usize, to: usize) {
        for command in &self.commands[from..to] {
            let words;
            let order = match command.start {
                None => Order::Step,
                Some(Start::Ll) => Order::Ll(RECORD),
                Some(Start::Vl) => Order::Vl(RECORD),
                Some(Start::Sc(number)) => {
                    words = [number; 64];
                    Order::Sc(RECORD, &words[..self.w])
                }
            };
            let reply = held::step(list, command.process, order);
            debug_assert!(reply.is_ok(), "the text run has accepted it");
        }
    }
}

impl Command {
    /// Of a line of a trace (docs/TRACE.md); none of another.
    fn read(line: &[u8]) -> Option<Command> {
        let line = std::str::from_utf8(line).ok()?;
        let mut fields = line.split(' ').skip(1);
        let process = fields.next()?.parse().ok()?;
        let start = match fields.next()? {
            "start" => Some(match fields.next()? {
                "L" => Start::Ll,
                "V" => Start::Vl,
                "S" => Start::Sc(fields.next()?.parse().ok()?),
                _ => return None,
            }),
            _ => None,
        };
        Some(Command { process, start })
    }
}
