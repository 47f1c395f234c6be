//! The log of a run of the bench, with the moments of the paper's proof: an
//! LL takes effect at line 2, or at line 5 if it was helped and its VL of
//! line 7 was true, or else where its helper's VL of line 14 was; an SC at
//! line 19, a VL at line 23.

use super::Log;
use crate::history::Kind;
use crate::machine::{Act, Answer, Bench, Line, Order, Place, Reply};
use crate::schedule::{parse, Item, ENTRY_LIMIT, TEXT_LIMIT};

/// "places being 1,024 times the command's number"
pub const PLACES: u64 = 1024;

pub struct Logger {
    bench: Bench,
    log: Log,
    command: u64,
    calls: usize,
    open: Vec<Option<(Kind, u64)>>,
    /// Where the open LL takes effect, as far as it is known.
    effect: Vec<u64>,
    /// Where the VL of line 14 was, of an SC that is open.
    checked: Vec<u64>,
    /// Where the VL of line 14 of the last helper was.
    handed: Vec<u64>,
}

impl Logger {
    pub fn new(n: usize, value: &[u64]) -> Logger {
        let (n64, w) = (n as u64, value.len() as u64);
        Logger {
            bench: Bench::set_up(n64, w, value, None).expect("N and W are in range"),
            log: Log {
                n: n64,
                w,
                value: value.to_vec(),
                numbers: Vec::new(),
            },
            command: 0,
            calls: 0,
            open: vec![None; n],
            effect: vec![0; n],
            checked: vec![0; n],
            handed: vec![0; n],
        }
    }

    pub fn calls(&self) -> usize {
        self.calls
    }

    pub fn commands(&self) -> u64 {
        self.command
    }

    pub fn is_idle(&self, p: usize) -> bool {
        self.bench.is_idle(p)
    }

    pub fn has_linked(&self, p: usize) -> bool {
        self.bench.has_linked(p)
    }

    pub fn into_log(self) -> Log {
        self.log
    }

    /// One command, refused ones counted; tells whether it answered.
    pub fn command(&mut self, p: u64, order: &Order) -> Result<bool, u8> {
        self.command += 1;
        let answer = self.bench.command(p, order)?;
        let p = p as usize;
        match order {
            Order::Load => self.open[p] = Some((Kind::Load, self.command)),
            Order::Store(words) => self.open[p] = Some((Kind::Store(words.clone()), self.command)),
            Order::Validate => self.open[p] = Some((Kind::Validate, self.command)),
            Order::Step => self.watch(p),
        }
        let answered = answer.is_some();
        if let Some(answer) = answer {
            self.note(answer);
        }
        Ok(answered)
    }

    fn watch(&mut self, p: usize) {
        let seen = self.bench.seen();
        let access = seen.access.expect("a step makes an access");
        match (seen.line, access.act, access.place) {
            (Line::L2 | Line::L5, _, _) => self.effect[p] = self.command,
            (Line::L7Validate, Act::Vl(false), _) => self.effect[p] = self.handed[p],
            (Line::L14Validate, Act::Vl(true), _) => self.checked[p] = self.command,
            (Line::L15, Act::Sc(_, true), Place::Help(q)) => self.handed[q] = self.checked[p],
            _ => {}
        }
    }

    fn note(&mut self, answer: Answer) {
        let p = answer.process;
        let (kind, start) = self.open[p].take().expect("the call was open");
        let (number, effect, truth, words) = match (kind, answer.reply) {
            (Kind::Load, Reply::Loaded(words)) => (1, self.effect[p], false, words),
            (Kind::Store(words), Reply::Stored(truth)) => (2, self.command, truth, words),
            (Kind::Validate, Reply::Validated(truth)) => {
                let none = vec![0; self.log.w as usize];
                (3, self.command, truth, none)
            }
            _ => unreachable!("a reply is of its call's kind"),
        };
        let places = [start * PLACES, self.command * PLACES];
        self.log.numbers.extend([p as u64, number]);
        self.log.numbers.extend(places);
        self.log.numbers.extend([u64::from(truth), effect * PLACES]);
        self.log.numbers.extend(words);
        self.calls += 1;
    }
}

/// The log of a schedule text, up to its first refusal. A text that is not
/// carried out at all has none.
pub fn log_of_schedule(text: &[u8]) -> Result<Log, u8> {
    if text.len() > TEXT_LIMIT {
        return Err(12);
    }
    let schedule = parse(text).map_err(|fault| fault.number)?;
    if !(1..=16).contains(&schedule.n) {
        return Err(1);
    }
    if !(1..=64).contains(&schedule.w) {
        return Err(2);
    }
    let value = vec![schedule.initial; schedule.w as usize];
    let mut logger = Logger::new(schedule.n as usize, &value);
    // a refusal ends the run, and the calls answered before it stay
    let _ = items(&mut logger, &schedule.items);
    Ok(logger.into_log())
}

fn items(logger: &mut Logger, list: &[Item]) -> Result<(), u8> {
    for item in list {
        match item {
            Item::Load(p) => entry(logger, *p, Order::Load)?,
            Item::Validate(p) => entry(logger, *p, Order::Validate)?,
            Item::Step(p) => entry(logger, *p, Order::Step)?,
            Item::Store(p, k) => {
                let words = vec![*k; logger.log.w as usize];
                entry(logger, *p, Order::Store(words))?
            }
            Item::Finish(p) => {
                while !entry(logger, *p, Order::Step)? {}
                true
            }
            Item::Group(count, inner) => {
                for _ in 0..*count {
                    items(logger, inner)?;
                }
                true
            }
        };
    }
    Ok(())
}

fn entry(logger: &mut Logger, p: u64, order: Order) -> Result<bool, u8> {
    if logger.command == ENTRY_LIMIT {
        return Err(12);
    }
    logger.command(p, &order)
}
