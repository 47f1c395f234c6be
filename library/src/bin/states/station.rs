//! The station of a text: the library's list, and what stands in it by name.

use besklaun::held::{self, Reply};
use besklaun::Refusal;

use super::commands::{Command, Order};

/// A text has one record.
const RECORD: usize = 0;

#[derive(Clone, PartialEq, Eq)]
pub struct Station {
    held: Vec<u64>,
    pub n: usize,
    pub w: usize,
}

/// A process's open call, or none where its line is 0.
pub struct Call {
    /// The number of its next point, as `besklaun.h` has it.
    pub point: u64,
    /// Half words that line has done.
    pub halves: u64,
    pub steps: u64,
    pub b: u64,
    pub c: u64,
    pub d: u64,
    pub e: u64,
}

pub struct Holding {
    pub mybuf: u64,
    pub x_buffer: u64,
    pub x_number: u64,
    pub marked: bool,
}

pub struct X {
    pub buffer: u64,
    pub number: u64,
    pub links: u64,
}

pub struct Bank {
    pub buffer: u64,
    pub links: u64,
}

pub struct Help {
    pub asks: bool,
    pub buffer: u64,
    pub links: u64,
}

/// Where a buffer is.
#[derive(Clone, Copy, PartialEq, Eq, Debug)]
pub enum Place {
    X,
    Bank(usize),
    Owned(usize),
}

impl Station {
    /// The list that a text's first entries left.
    pub fn of(held: Vec<u64>, n: usize, w: usize) -> Station {
        Station { held, n, w }
    }

    pub fn carry_out(&mut self, command: Command) -> Result<Reply, Refusal> {
        let words;
        let order = match command.order {
            Order::Step => held::Order::Step,
            Order::Ll => held::Order::Ll(RECORD),
            Order::Vl => held::Order::Vl(RECORD),
            Order::Sc(number) => {
                words = vec![number; self.w];
                held::Order::Sc(RECORD, &words)
            }
        };
        held::step(&mut self.held, command.process, order)
    }

    pub fn call(&self, p: usize) -> Call {
        let [point, halves, steps, _, b, c, d, e] = self.numbers(held::call_place(p));
        Call {
            point,
            halves,
            steps,
            b,
            c,
            d,
            e,
        }
    }

    pub fn holding(&self, p: usize) -> Holding {
        let [mybuf, x_buffer, x_number, mark] = self.numbers(held::holding_place(RECORD, p));
        let marked = mark != 0;
        Holding {
            mybuf,
            x_buffer,
            x_number,
            marked,
        }
    }

    pub fn x(&self) -> X {
        let [buffer, number, links] = self.numbers(held::record_place(RECORD));
        X {
            buffer,
            number,
            links,
        }
    }

    pub fn bank(&self, i: usize) -> Bank {
        let [buffer, links] = self.numbers(held::bank_place(RECORD, i));
        Bank { buffer, links }
    }

    pub fn help(&self, p: usize) -> Help {
        let [flag, buffer, links] = self.numbers(held::help_place(RECORD, p));
        let asks = flag == 1;
        Help {
            asks,
            buffer,
            links,
        }
    }

    pub fn buffer(&self, b: usize) -> &[u64] {
        self.row(b)
    }

    /// What p's last LL returned.
    pub fn returned(&self, p: usize) -> &[u64] {
        self.row(3 * self.n + p)
    }

    /// What p's last SC offers.
    pub fn offered(&self, p: usize) -> &[u64] {
        self.row(4 * self.n + p)
    }

    /// The place of each of the 3N buffers.
    pub fn places(&self) -> Vec<Place> {
        let mut places = vec![0; 3 * self.n];
        held::places(&self.held, RECORD, &mut places).expect("a list that a set-up left");
        let present = self.x().number;
        let named = places.into_iter().map(|place| match place as usize {
            kept if kept as u64 == present => Place::X,
            kept if kept < 2 * self.n => Place::Bank(kept),
            owned => Place::Owned(owned - 2 * self.n),
        });
        named.collect()
    }

    fn numbers<const COUNT: usize>(&self, from: usize) -> [u64; COUNT] {
        std::array::from_fn(|k| self.held[from + k])
    }

    fn row(&self, row: usize) -> &[u64] {
        &self.held[held::words_place(1) + row * self.w..][..self.w]
    }
}
