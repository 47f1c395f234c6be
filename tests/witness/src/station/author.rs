//! Writes a list command by command and carries it out alongside, so that it
//! knows which process is idle.

use super::list::{Command, List, SetUp};
use crate::machine::{Bench, Lent, Order, Sizes};
use crate::rng::Rng;

pub struct Author<'a> {
    pub rng: &'a mut Rng,
    pub n: usize,
    pub w: usize,
    pub r: usize,
    bench: Bench,
    list: List,
}

impl<'a> Author<'a> {
    /// After a set-up that is accepted.
    pub fn new(rng: &'a mut Rng, n: usize, w: usize, r: usize) -> Author<'a> {
        let set_up = right_set_up(rng, n, w, r);
        Author {
            rng,
            n,
            w,
            r,
            bench: set_up.carried_out().expect("a right set-up"),
            list: List {
                set_up,
                commands: Vec::new(),
            },
        }
    }

    pub fn len(&self) -> usize {
        self.list.commands.len()
    }

    pub fn is_idle(&self, p: usize) -> bool {
        self.bench.is_idle(p)
    }

    pub fn has_linked(&self, p: usize, record: usize) -> bool {
        self.bench.has_linked_to(p, record)
    }

    /// Whether a command for one of the N processes would be refused.
    pub fn is_wrong(&self, p: usize, record: u64, order: &Order) -> bool {
        match order {
            Order::Step => self.is_idle(p),
            _ if !self.is_idle(p) || record >= self.r as u64 => true,
            Order::Load => false,
            Order::Validate => !self.has_linked(p, record as usize),
            Order::Store(words) => words.len() != self.w || !self.has_linked(p, record as usize),
        }
    }

    /// Any command, right or wrong.
    pub fn command(&mut self, process: u64, record: u64, order: Order) {
        // a refused command stands in the list like any other
        let _ = self.bench.command_on(process, record, &order);
        self.list.commands.push(Command {
            process,
            record,
            order,
        });
    }

    pub fn start(&mut self, p: usize, record: usize, order: Order) {
        self.command(p as u64, record as u64, order);
    }

    /// Any call that an idle process may start on this record.
    pub fn start_some(&mut self, p: usize, record: usize) {
        let order = match self.rng.below(20) {
            _ if !self.has_linked(p, record) => Order::Load,
            0..=8 => Order::Load,
            9..=17 => Order::Store(words(self.rng, self.w)),
            _ => Order::Validate,
        };
        self.start(p, record, order);
    }

    /// A step names no record: what its line has there is any number.
    pub fn step(&mut self, p: usize) {
        let record = match self.rng.once_in(3) {
            true => self.rng.pick(&[0, 1, 7, 8, u64::MAX]),
            false => 0,
        };
        self.command(p as u64, record, Order::Step);
    }

    /// Up to `most` steps of an open call, fewer if it answers.
    pub fn steps(&mut self, p: usize, most: usize) {
        for _ in 0..most {
            if self.is_idle(p) {
                return;
            }
            self.step(p);
        }
    }

    pub fn finish(&mut self, p: usize) {
        while !self.is_idle(p) {
            self.step(p);
        }
    }

    /// A whole LL and a whole SC; a call that stood halfway is finished first.
    pub fn write(&mut self, p: usize, record: usize) {
        self.finish(p);
        self.start(p, record, Order::Load);
        self.finish(p);
        let value = words(self.rng, self.w);
        self.start(p, record, Order::Store(value));
        self.finish(p);
    }

    pub fn into_list(self) -> List {
        self.list
    }
}

/// A set-up that is accepted, often with more lent than needed.
pub fn right_set_up(rng: &mut Rng, n: usize, w: usize, r: usize) -> SetUp {
    let [n, width, r] = [n, w, r].map(|size| size as u64);
    let sizes = Sizes { n, w: width, r };
    let lent = Lent {
        processes: n + rng.pick(&[0, 0, 1, 3]),
        words: sizes.words_needed() + rng.pick(&[0, 0, 1, 100]),
    };
    let value = words(rng, w);
    SetUp { sizes, lent, value }
}

/// W words: small ones, equal ones, and some of all 64 bits.
pub fn words(rng: &mut Rng, w: usize) -> Vec<u64> {
    match rng.below(4) {
        0 => vec![rng.below(100) as u64; w],
        1 => vec![u64::MAX - rng.below(2) as u64; w],
        2 => (0..w).map(|_| rng.bits() >> 32).collect(),
        _ => (0..w).map(|_| rng.bits()).collect(),
    }
}
