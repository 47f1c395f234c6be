//! What is stepped through: the entries of a text, or of those the ones that
//! are left where processes were halted.

use besklaun::held::Reply;
use besklaun::{trace_text, Sizes};

use super::commands::{Command, Order};
use super::keys::Way;
use super::run::{Run, LINE_ROOM, MOST_ENTRIES};
use super::station::Station;

/// So many entries lie between two states that are kept.
const APART: usize = 1_000;

/// A text is no longer.
const MOST_TEXT: usize = 16_384;

/// An entry: its place among those of the text, from 1 on.
#[derive(Clone, Copy)]
struct Entry {
    place: usize,
    command: Command,
}

pub struct Play {
    /// The text's first line, as it stands.
    first_line: String,
    /// The text's own commands.
    all: Vec<Command>,
    entries: Vec<Entry>,
    /// The trace's line of each entry; none where their text is too long.
    lines: Vec<String>,
    /// Of each entry, whether it answered a call, and the links on X that were
    /// lost by it, as bits.
    answered: Vec<bool>,
    lost: Vec<u64>,
    /// The states after 0, `APART`, twice `APART` and so on entries.
    kept: Vec<Station>,
    /// How many entries no longer fitted.
    pub passed: usize,
    pub halted: Vec<bool>,
}

impl Play {
    pub fn of(run: &Run, sizes: Sizes, text: &[u8]) -> Result<Play, String> {
        let first = text.split(|byte| *byte == b'\n').next().unwrap_or(&[]);
        let commands: Result<Vec<_>, _> = (1..=run.entries).map(|e| run.command(e)).collect();
        let mut play = Play {
            first_line: String::from_utf8_lossy(first).into_owned(),
            all: commands?,
            entries: Vec::new(),
            lines: Vec::new(),
            answered: Vec::new(),
            lost: Vec::new(),
            kept: vec![run.state(sizes, 0)],
            passed: 0,
            halted: vec![false; sizes.n as usize],
        };
        play.go_on();
        play.lines = play.traced();
        Ok(play)
    }

    pub fn len(&self) -> usize {
        self.entries.len()
    }

    /// How many entries the text has.
    pub fn whole(&self) -> usize {
        self.all.len()
    }

    pub fn line(&self, entry: usize) -> Option<&str> {
        self.lines.get(entry.checked_sub(1)?).map(String::as_str)
    }

    pub fn command(&self, entry: usize) -> Option<Command> {
        self.entries.get(entry.checked_sub(1)?).map(|it| it.command)
    }

    /// The state after so many entries.
    pub fn state(&self, at: usize) -> Station {
        let mut station = self.kept[at / APART].clone();
        for entry in &self.entries[at / APART * APART..at] {
            let _ = station.carry_out(entry.command);
        }
        station
    }

    /// The nearest entry that answers a call.
    pub fn answer(&self, at: usize, way: Way) -> Option<usize> {
        self.nearest(at, way, |entry| self.answered[entry - 1])
    }

    /// That in which process p touches something.
    pub fn access(&self, at: usize, way: Way, p: usize) -> Option<usize> {
        self.nearest(at, way, |entry| {
            let command = self.entries[entry - 1].command;
            command.process == p && command.order == Order::Step
        })
    }

    /// That by which process p loses its link on X.
    pub fn loss(&self, at: usize, way: Way, p: usize) -> Option<usize> {
        self.nearest(at, way, |entry| self.lost[entry - 1] >> p & 1 == 1)
    }

    fn nearest(&self, at: usize, way: Way, is_one: impl Fn(usize) -> bool) -> Option<usize> {
        match way {
            Way::On => (at + 1..=self.len()).find(|entry| is_one(*entry)),
            Way::Back => (1..at).rev().find(|entry| is_one(*entry)),
        }
    }

    /// Halts process p after so many entries, or lets it go on: those before
    /// stay, and of the text's entries behind them the ones that are left
    /// follow.
    pub fn halt(&mut self, at: usize, p: usize) {
        self.halted[p] = !self.halted[p];
        self.entries.truncate(at);
        self.answered.truncate(at);
        self.lost.truncate(at);
        self.kept.truncate(at / APART + 1);
        self.go_on();
        self.lines = self.traced();
    }

    /// The text's entries behind the last one, those of halted processes
    /// left out; and those that no longer fit: where a process does not help,
    /// or does not write, another's call may take fewer steps or more.
    fn go_on(&mut self) {
        let mut station = self.state(self.len());
        let from = self.entries.last().map_or(0, |entry| entry.place);
        self.passed = 0;
        for (place, &command) in self.all.iter().enumerate().skip(from) {
            if self.halted[command.process] {
                continue;
            }
            let linked = station.x().links;
            let Ok(reply) = station.carry_out(command) else {
                self.passed += 1;
                continue;
            };
            self.answered.push(reply != Reply::Accepted);
            self.lost.push(linked & !station.x().links);
            self.entries.push(Entry {
                place: place + 1,
                command,
            });
            if self.len() % APART == 0 {
                self.kept.push(station.clone());
            }
        }
    }

    /// The trace of the entries, by a text run of a text that says them.
    fn traced(&self) -> Vec<String> {
        let text = self.text();
        if text.len() > MOST_TEXT {
            return Vec::new();
        }
        let mut trace = vec![0; (MOST_ENTRIES + 1) * LINE_ROOM];
        let run = trace_text(text.as_bytes(), &mut trace);
        trace.truncate(run.written);
        let trace = String::from_utf8_lossy(&trace);
        trace.lines().take(run.entries).map(String::from).collect()
    }

    /// A schedule text of the entries; the same item again and again is a
    /// group.
    fn text(&self) -> String {
        let mut text = format!("{}\n", self.first_line);
        let same = |a: &Entry, b: &Entry| a.command == b.command;
        for run in self.entries.chunk_by(same) {
            for part in run.chunks(255) {
                let item = item(part[0].command);
                match part.len() {
                    1 => text += &format!("{item} "),
                    count => text += &format!("{count}({item}) "),
                }
            }
        }
        text
    }
}

fn item(command: Command) -> String {
    let p = command.process;
    match command.order {
        Order::Step => format!("{p}."),
        Order::Ll => format!("{p}l"),
        Order::Sc(number) => format!("{p}s{number}"),
        Order::Vl => format!("{p}v"),
    }
}
