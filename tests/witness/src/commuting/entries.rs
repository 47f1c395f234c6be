//! The commands of a schedule text, `!` and groups written out, up to its
//! first refusal.

use crate::machine::{Bench, Order};
use crate::schedule::{parse, Item, Schedule, ENTRY_LIMIT, TEXT_LIMIT};
use crate::station::Command;

/// The bench that the text sets up, and the commands that it accepts; none
/// for a text that sets up no bench.
pub fn entries_of(text: &[u8]) -> Option<(Bench, Vec<Command>)> {
    if text.len() > TEXT_LIMIT {
        return None;
    }
    let schedule = parse(text).ok()?;
    let bench = set_up(&schedule)?;
    let mut walk = Walk {
        bench: bench.clone(),
        commands: Vec::new(),
    };
    // a refusal ends the text, and the commands before it stay
    let _ = walk.items(&schedule.items);
    Some((bench, walk.commands))
}

fn set_up(schedule: &Schedule) -> Option<Bench> {
    let value = vec![schedule.initial; schedule.w.min(64) as usize];
    Bench::set_up(schedule.n, schedule.w, &value, None).ok()
}

struct Walk {
    bench: Bench,
    commands: Vec<Command>,
}

impl Walk {
    fn items(&mut self, items: &[Item]) -> Result<(), u8> {
        items.iter().try_for_each(|item| self.item(item))
    }

    fn item(&mut self, item: &Item) -> Result<(), u8> {
        match item {
            Item::Load(p) => self.entry(*p, Order::Load)?,
            Item::Validate(p) => self.entry(*p, Order::Validate)?,
            Item::Step(p) => self.entry(*p, Order::Step)?,
            Item::Store(p, k) => {
                let words = vec![*k; self.bench.words()];
                self.entry(*p, Order::Store(words))?
            }
            Item::Finish(p) => {
                while !self.entry(*p, Order::Step)? {}
                true
            }
            Item::Group(count, inner) => {
                for _ in 0..*count {
                    self.items(inner)?;
                }
                true
            }
        };
        Ok(())
    }

    /// One command; tells whether it answered.
    fn entry(&mut self, process: u64, order: Order) -> Result<bool, u8> {
        if self.commands.len() as u64 == ENTRY_LIMIT {
            return Err(12);
        }
        let answer = self.bench.command(process, &order)?;
        self.commands.push(Command {
            process,
            record: 0,
            order,
        });
        Ok(answer.is_some())
    }
}
