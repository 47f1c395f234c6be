//! One record: X, Bank, Help, each with its links, and the buffers.

use super::access::{Place, Values};
use super::buffers::Buffers;
use super::linked::Linked;
use super::process::{Request, Tag};

#[derive(Clone, PartialEq, Eq, Debug)]
pub struct Record {
    pub(super) x: Linked<Tag>,
    pub(super) bank: Vec<Linked<usize>>,
    pub(super) help: Vec<Linked<Request>>,
    pub(super) buf: Buffers,
}

impl Record {
    /// As the set-up leaves it, for N processes.
    pub fn new(n: usize, value: &[u64]) -> Record {
        let nobody_asks = Request {
            helpme: false,
            buffer: 0,
        };
        Record {
            x: Linked::new(Place::X, Tag::FIRST, n),
            bank: (0..2 * n)
                .map(|k| Linked::new(Place::Bank(k), k, n))
                .collect(),
            help: (0..n)
                .map(|p| Linked::new(Place::Help(p), nobody_asks, n))
                .collect(),
            buf: Buffers::new(3 * n, value),
        }
    }

    pub fn x(&self) -> &Linked<Tag> {
        &self.x
    }

    pub fn bank(&self) -> &[Linked<usize>] {
        &self.bank
    }

    pub fn help(&self) -> &[Linked<Request>] {
        &self.help
    }

    /// The words of each buffer.
    pub fn buffers(&self) -> impl Iterator<Item = &Vec<u64>> {
        self.buf.each()
    }

    /// What an item holds, and its links.
    pub fn item(&self, place: Place) -> (Values, u64) {
        match place {
            Place::X => self.x.item(),
            Place::Bank(k) => self.bank[k].item(),
            Place::Help(p) => self.help[p].item(),
            Place::HalfWord(buffer, word, half) => {
                let bits = half.of(*self.buf.word(buffer, word));
                (Values::Half(bits), 0)
            }
        }
    }

    /// Puts an item of another record, links and all, in place of its own.
    pub fn copy_item(&mut self, from: &Record, place: Place) {
        match place {
            Place::X => self.x = from.x.clone(),
            Place::Bank(k) => self.bank[k] = from.bank[k].clone(),
            Place::Help(p) => self.help[p] = from.help[p].clone(),
            Place::HalfWord(buffer, word, half) => {
                let bits = half.of(*from.buf.word(buffer, word));
                half.put(self.buf.word_mut(buffer, word), bits);
            }
        }
    }
}
