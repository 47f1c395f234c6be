//! Writes a schedule item by item and carries it out alongside, so that it
//! knows which process is idle and never writes an entry that is refused.

use crate::machine::{Bench, Order};
use crate::rng::Rng;

pub struct Author<'a> {
    pub rng: &'a mut Rng,
    pub n: usize,
    pub w: usize,
    bench: Bench,
    text: String,
}

impl<'a> Author<'a> {
    pub fn new(rng: &'a mut Rng, n: usize, w: usize) -> Author<'a> {
        let initial = number(rng);
        let value = vec![initial; w];
        let bench = Bench::set_up(n as u64, w as u64, &value, None);
        let text = format!("{n} {w} {initial}\n");
        Author {
            rng,
            n,
            w,
            bench: bench.expect("N and W are in range"),
            text,
        }
    }

    pub fn is_idle(&self, p: usize) -> bool {
        self.bench.is_idle(p)
    }

    pub fn has_linked(&self, p: usize) -> bool {
        self.bench.has_linked(p)
    }

    pub fn load(&mut self, p: usize) {
        self.start(p, Order::Load, format!("{p}l"));
    }

    pub fn store(&mut self, p: usize) {
        let value = number(self.rng);
        self.start(p, Order::Store(vec![value; self.w]), format!("{p}s{value}"));
    }

    pub fn validate(&mut self, p: usize) {
        self.start(p, Order::Validate, format!("{p}v"));
    }

    /// Any call that an idle process may start.
    pub fn start_some(&mut self, p: usize) {
        match self.rng.below(20) {
            _ if !self.has_linked(p) => self.load(p),
            0..=8 => self.load(p),
            9..=17 => self.store(p),
            _ => self.validate(p),
        }
    }

    fn start(&mut self, p: usize, order: Order, item: String) {
        self.bench
            .command(p as u64, &order)
            .expect("the process is idle");
        self.item(&item);
    }

    /// Up to `most` steps of an open call, fewer if it answers.
    pub fn steps(&mut self, p: usize, most: usize) {
        let mut made = 0;
        while made < most && !self.is_idle(p) {
            self.step(p);
            made += 1;
        }
        if made > 1 && made < 256 && self.rng.once_in(2) {
            let space = self.rng.pick(&["", "", " ", "\n"]);
            self.item(&format!("{made}({space}{p}.{space})"));
        } else {
            (0..made).for_each(|_| self.item(&format!("{p}.")));
        }
    }

    /// Steps until the open call answers.
    pub fn finish(&mut self, p: usize) {
        while !self.is_idle(p) {
            self.step(p);
        }
        self.item(&format!("{p}!"));
    }

    fn step(&mut self, p: usize) {
        self.bench
            .command(p as u64, &Order::Step)
            .expect("the process is busy");
    }

    fn item(&mut self, item: &str) {
        let part = self
            .rng
            .pick(&[" ", " ", " ", " ", "\n", "  ", "\n\n", " \n "]);
        if !self.text.ends_with('\n') || self.rng.once_in(8) {
            self.text.push_str(part);
        }
        self.text.push_str(item);
    }

    pub fn into_text(mut self) -> Vec<u8> {
        let after = self.rng.pick(&["\n", "\n", "\n", "", " ", "\n\n "]);
        self.text.push_str(after);
        self.text.into_bytes()
    }
}

/// A value: mostly small, now and then as large as the notation allows.
pub fn number(rng: &mut Rng) -> u64 {
    match rng.below(12) {
        0 => u64::from(u32::MAX) - rng.below(2) as u64,
        1 => rng.bits() >> 32,
        _ => rng.below(100) as u64,
    }
}
