//! A schedule text on Moir's bench, with 01's notation, limits and listing,
//! or with a trace in the style of the first bench's.
//! A WLL that names a process has the letter N and that process's number.
//! `!` makes steps until the call answers; there is no row 13 here.

use std::collections::BTreeMap;

use super::bench::{Bench, TAGS};
use super::command::{Answer, Reply};
use crate::machine::Order;
use crate::schedule::{parse, Form, Item, Schedule, ENTRY_LIMIT, LISTING, TEXT_LIMIT, TRACE};

/// The listing, and what the run reached.
pub fn listing_of(text: &[u8]) -> (Vec<u8>, BTreeMap<&'static str, u64>) {
    written(text, &LISTING, false)
}

pub fn trace_of(text: &[u8]) -> Vec<u8> {
    written(text, &TRACE, true).0
}

/// Of the form only its room is asked.
fn written(text: &[u8], form: &Form, traced: bool) -> (Vec<u8>, BTreeMap<&'static str, u64>) {
    let mut lines = String::new();
    let (number, entries, mut reached) = match prepare(text) {
        Err(number) => (number, 0, BTreeMap::new()),
        Ok((bench, schedule)) => {
            let mut run = Run {
                bench,
                form,
                traced,
                lines: &mut lines,
                entries: 0,
            };
            let number = run.items(&schedule.items).err().unwrap_or(0);
            (number, run.entries, run.bench.reached().clone())
        }
    };
    lines += &match number {
        0 => format!("end {entries}\n"),
        _ => format!("refused {number} {entries}\n"),
    };
    reached.insert(refusal(number), 1);
    (lines.into_bytes(), reached)
}

fn refusal(number: u8) -> &'static str {
    match number {
        0 => "end",
        1 => "refused 1",
        2 => "refused 2",
        4 => "refused 4",
        5 => "refused 5",
        6 => "refused 6",
        7 => "refused 7",
        10 => "refused 10",
        11 => "refused 11",
        12 => "refused 12",
        14 => "refused 14",
        _ => unreachable!("a text reaches no such row"),
    }
}

fn prepare(text: &[u8]) -> Result<(Bench, Schedule), u8> {
    if text.len() > TEXT_LIMIT {
        return Err(12);
    }
    let schedule = parse(text).map_err(|fault| fault.number)?;
    let value = vec![schedule.initial; schedule.w.min(64) as usize];
    let bench = Bench::set_up(schedule.n, schedule.w, &value, TAGS)?;
    Ok((bench, schedule))
}

struct Run<'a> {
    bench: Bench,
    form: &'a Form,
    traced: bool,
    lines: &'a mut String,
    entries: u64,
}

impl Run<'_> {
    fn items(&mut self, items: &[Item]) -> Result<(), u8> {
        for item in items {
            match item {
                Item::Load(p) => drop(self.entry(*p, &Order::Load)?),
                Item::Validate(p) => drop(self.entry(*p, &Order::Validate)?),
                Item::Step(p) => drop(self.entry(*p, &Order::Step)?),
                Item::Store(p, k) => {
                    let words = vec![*k; self.bench.w];
                    drop(self.entry(*p, &Order::Store(words))?);
                }
                Item::Finish(p) => while self.entry(*p, &Order::Step)?.is_none() {},
                Item::Group(count, items) => {
                    for _ in 0..*count {
                        self.items(items)?;
                    }
                }
            }
        }
        Ok(())
    }

    fn entry(&mut self, p: u64, order: &Order) -> Result<Option<Answer>, u8> {
        if self.entries == ENTRY_LIMIT {
            return Err(12);
        }
        if self.form.lent - self.lines.len() < self.form.room {
            return Err(14);
        }
        let answer = self.bench.command(p, order)?;
        self.entries += 1;
        if self.traced {
            self.trace(p, order, answer.is_some());
        }
        if let Some(answer) = &answer {
            self.lines.push_str(&line(answer));
        }
        Ok(answer)
    }

    fn trace(&mut self, p: u64, order: &Order, answered: bool) {
        let done = match order {
            Order::Load => "start L".to_string(),
            Order::Store(words) => format!("start S {}", words[0]),
            Order::Validate => "start V".to_string(),
            Order::Step => self.bench.seen().to_string(),
        };
        let end = if answered { " answers " } else { "\n" };
        let line = format!("{} {p} {done}{end}", self.entries);
        self.lines.push_str(&line);
    }
}

fn line(answer: &Answer) -> String {
    let (letter, numbers) = match &answer.reply {
        Reply::Loaded(words) => ('L', words.clone()),
        Reply::Named(q) => ('N', vec![*q as u64]),
        Reply::Stored(success) => ('S', vec![u64::from(*success)]),
        Reply::Validated(valid) => ('V', vec![u64::from(*valid)]),
    };
    let mut line = format!("{} {letter} {}", answer.process, answer.count);
    numbers.iter().for_each(|k| line += &format!(" {k}"));
    line + "\n"
}
