//! A text run: the checks in 01's order, the set-up, then the entries.

use super::form::{last_line, Entry, Form};
use super::lines::Lines;
use super::parse::parse;
use super::tree::{Item, Schedule};
use crate::machine::{Bench, Order, Tally, Wrong};

pub const TEXT_LIMIT: usize = 16_384;
pub const ENTRY_LIMIT: u64 = 60_000;

/// What every text run returns; the number is 0 at `end`.
#[derive(Clone, Copy, PartialEq, Eq, Debug)]
pub struct Outcome {
    pub number: u8,
    pub entries: u64,
    pub written: usize,
}

pub fn run_text(
    text: &[u8],
    form: &Form,
    lent: &mut [u8],
    wrong: Option<Wrong>,
) -> (Outcome, Tally) {
    if lent.len() < form.room {
        let nothing = Outcome {
            number: 14,
            entries: 0,
            written: 0,
        };
        return (nothing, Tally::default());
    }
    let mut lines = Lines::over(lent);
    let (number, entries, tally) = match prepare(text, wrong) {
        Err(number) => (number, 0, Tally::default()),
        Ok((bench, schedule)) => carry_out(bench, &schedule, form, &mut lines),
    };
    lines.line(&last_line(number, entries));
    (
        Outcome {
            number,
            entries,
            written: lines.written(),
        },
        tally,
    )
}

/// All that is checked before the first entry, and the set-up.
fn prepare(text: &[u8], wrong: Option<Wrong>) -> Result<(Bench, Schedule), u8> {
    if text.len() > TEXT_LIMIT {
        return Err(12);
    }
    let schedule = parse(text).map_err(|fault| fault.number)?;
    // W is not yet checked here, and may be huge: a value of 64 words at
    // most, since set-up refuses any other W before it looks at the value.
    let value = vec![schedule.initial; schedule.w.min(64) as usize];
    let bench = Bench::set_up(schedule.n, schedule.w, &value, wrong)?;
    Ok((bench, schedule))
}

fn carry_out(
    bench: Bench,
    schedule: &Schedule,
    form: &Form,
    lines: &mut Lines,
) -> (u8, u64, Tally) {
    let mut run = Run {
        bench,
        form,
        lines,
        entries: 0,
        words: schedule.w as usize,
    };
    let number = run.items(&schedule.items).err().unwrap_or(0);
    (number, run.entries, run.bench.tally().clone())
}

struct Run<'a, 'b> {
    bench: Bench,
    form: &'a Form,
    lines: &'a mut Lines<'b>,
    entries: u64,
    words: usize,
}

impl Run<'_, '_> {
    /// The first refusal ends the walk at every depth at once.
    fn items(&mut self, items: &[Item]) -> Result<(), u8> {
        for item in items {
            self.item(item)?;
        }
        Ok(())
    }

    fn item(&mut self, item: &Item) -> Result<(), u8> {
        match item {
            Item::Load(p) => self.entry(*p, Order::Load)?,
            Item::Validate(p) => self.entry(*p, Order::Validate)?,
            Item::Step(p) => self.entry(*p, Order::Step)?,
            Item::Store(p, value) => self.entry(*p, Order::Store(vec![*value; self.words]))?,
            Item::Finish(p) => return self.finish(*p),
            Item::Group(count, items) => {
                for _ in 0..*count {
                    self.items(items)?;
                }
                return Ok(());
            }
        };
        Ok(())
    }

    /// One command; tells whether it answered.
    fn entry(&mut self, p: u64, order: Order) -> Result<bool, u8> {
        if self.entries == ENTRY_LIMIT {
            return Err(12);
        }
        if self.lines.left() < self.form.room {
            return Err(14);
        }
        let answer = self.bench.command(p, &order)?;
        self.entries += 1;
        let entry = Entry {
            number: self.entries,
            process: p,
            order: &order,
            seen: self.bench.seen(),
            answer: answer.as_ref(),
        };
        if let Some(line) = (self.form.line)(&entry) {
            self.lines.line(&line);
        }
        Ok(answer.is_some())
    }

    /// `!`: steps until the call answers, each of them an entry. (The entry
    /// limit ends it at the latest.)
    fn finish(&mut self, p: u64) -> Result<(), u8> {
        while !self.entry(p, Order::Step)? {}
        Ok(())
    }
}
