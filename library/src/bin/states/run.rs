//! A text run, by its trace; its states, and what is to be said of it.

use besklaun::held::{self, FirstEntries};
use besklaun::{explain_trace, Sizes, Stop};

use super::commands::Command;
use super::station::Station;

/// The most entries of a run, and room for the line of each and the last one.
pub const MOST_ENTRIES: usize = 60_000;
pub const LINE_ROOM: usize = 872;

pub struct Run {
    pub entries: usize,
    pub is_refused: bool,
    text: Vec<u8>,
    stop: Stop,
    /// What `./schedule` says of it.
    message: String,
    /// The trace's lines, the last one apart.
    lines: Vec<String>,
}

impl Run {
    pub fn of(text: &[u8]) -> Run {
        let mut trace = vec![0; (MOST_ENTRIES + 1) * LINE_ROOM];
        let explained = explain_trace(text, &mut trace);
        let run = explained.run;
        trace.truncate(run.written);
        let trace = String::from_utf8_lossy(&trace);
        Run {
            entries: run.entries,
            is_refused: run.outcome.is_err(),
            text: text.to_vec(),
            stop: explained.stop,
            message: explained.message.to_string(),
            lines: trace.lines().take(run.entries).map(String::from).collect(),
        }
    }

    /// N and W; none where the text was refused before its set-up, as it is
    /// judged whole before anything is carried out.
    pub fn sizes(&self) -> Option<Sizes> {
        match self.stop {
            Stop::AtItem(sizes, _) => Some(sizes),
            Stop::AtNoItem(sizes) if !self.is_refused => Some(sizes),
            Stop::AtNoItem(_) | Stop::AtFault(_) | Stop::NotRead => None,
        }
    }

    /// The state after this entry, of a run that has it.
    pub fn state(&self, sizes: Sizes, entry: usize) -> Station {
        let (n, w) = (sizes.n as usize, sizes.w as usize);
        let mut list = vec![0; held::length(n, w, 1)];
        let FirstEntries { entries, .. } = held::after_text(&mut list, &self.text, entry);
        assert_eq!(entries, entry, "the text run has these entries");
        Station::of(list, n, w)
    }

    /// The trace's line of an entry.
    pub fn line(&self, entry: usize) -> Option<&str> {
        self.lines.get(entry.checked_sub(1)?).map(String::as_str)
    }

    /// The command of this entry, which the run accepted.
    pub fn command(&self, entry: usize) -> Result<Command, String> {
        let line = self.line(entry).unwrap_or("");
        Command::read(line).ok_or_else(|| format!("line '{line}' of the trace is none"))
    }

    /// That command, given to a station in the state before it.
    pub fn carry_out(&self, entry: usize, station: &mut Station) -> Result<(), String> {
        let line = self.line(entry).unwrap_or("");
        match station.carry_out(self.command(entry)?) {
            Ok(_) => Ok(()),
            Err(cause) => Err(format!(
                "the text run accepts '{line}', a step does not: {cause}"
            )),
        }
    }

    /// Where and why it was refused. The calls that are open at its end are
    /// left out: the state shows them.
    pub fn refused(&self) -> Option<&str> {
        let line = self.message.lines().next();
        line.filter(|_| self.is_refused)
    }
}
