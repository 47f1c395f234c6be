//! Commands: a process, a record and an order, and the refusals 4, 24, 8, 5,
//! 6 and 7, in this order (02, CR 7 and CR 10).

use super::access::Seen;
use super::bench::Bench;
use super::process::Line;

/// What a command asks of a process.
#[derive(Clone, PartialEq, Eq, Debug)]
pub enum Order {
    Load,
    Store(Vec<u64>),
    Validate,
    Step,
}

#[derive(Clone, PartialEq, Eq, Debug)]
pub enum Reply {
    Loaded(Vec<u64>),
    Stored(bool),
    Validated(bool),
}

#[derive(Clone, PartialEq, Eq, Debug)]
pub struct Answer {
    pub process: usize,
    pub count: u64,
    pub reply: Reply,
}

impl Bench {
    /// One command on record 0.
    pub fn command(&mut self, process: u64, order: &Order) -> Result<Option<Answer>, u8> {
        self.command_on(process, 0, order)
    }

    /// One command: refused with a number, or carried out, perhaps with an
    /// answer. Only a start looks at the record; a step goes on where the
    /// open call is.
    pub fn command_on(
        &mut self,
        process: u64,
        record: u64,
        order: &Order,
    ) -> Result<Option<Answer>, u8> {
        if process >= self.n as u64 {
            return Err(4);
        }
        let p = process as usize;
        match order {
            Order::Step if self.is_idle(p) => Err(6),
            Order::Step => Ok(self.step(p)),
            _ if record >= self.records.len() as u64 => Err(24),
            Order::Store(words) if words.len() != self.w => Err(8),
            start => self.start(p, record as usize, start).map(|()| None),
        }
    }

    fn start(&mut self, p: usize, record: usize, order: &Order) -> Result<(), u8> {
        if !self.is_idle(p) {
            return Err(5);
        }
        if *order != Order::Load && !self.has_linked_to(p, record) {
            return Err(7);
        }
        let me = &mut self.processes[p];
        me.line = match order {
            Order::Store(words) => {
                me.offer_area.copy_from_slice(words);
                Line::L12
            }
            Order::Validate => Line::L23,
            _ => Line::L1,
        };
        me.record = record;
        me.count = 0;
        self.seen = Seen::nothing_yet(Line::Idle, record);
        self.latest = p;
        Ok(())
    }
}
