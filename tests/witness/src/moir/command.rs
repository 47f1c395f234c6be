//! Commands, and the refusals 4, 8, 5, 6 and 7, in this order.

use super::bench::{Bench, Line};
use crate::machine::Order;

#[derive(Clone, PartialEq, Eq, Debug)]
pub enum Reply {
    Loaded(Vec<u64>),
    Named(usize),
    Stored(bool),
    Validated(bool),
}

#[derive(Clone, PartialEq, Eq, Debug)]
pub struct Answer {
    pub process: usize,
    pub count: u64,
    pub reply: Reply,
}

impl Bench {
    pub fn command(&mut self, process: u64, order: &Order) -> Result<Option<Answer>, u8> {
        if process >= self.n as u64 {
            return Err(4);
        }
        let p = process as usize;
        let me = &self.processes[p];
        let busy = me.line != Line::Idle;
        match order {
            Order::Store(words) if words.len() != self.w => return Err(8),
            Order::Step if !busy => return Err(6),
            Order::Step => return Ok(self.step(p)),
            _ if busy => return Err(5),
            Order::Load => {}
            _ if !me.linked => return Err(7),
            _ => {}
        }
        let me = &mut self.processes[p];
        me.count = 0;
        me.storing = matches!(order, Order::Store(_));
        me.line = match order {
            Order::Store(words) => {
                me.newval = words.clone();
                Line::L14
            }
            Order::Validate => Line::L13,
            _ => Line::L10,
        };
        Ok(None)
    }
}
