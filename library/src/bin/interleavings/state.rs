//! Turns of processes 0 and 1, each with its list of calls (02, CR 5).

use crate::case::Case;
use crate::text::Item;

/// How far each list has gone: the calls taken from it, whether the last of
/// them is open, and the own steps of that one.
#[derive(Clone, Copy, Default)]
pub struct State {
    taken: [usize; 2],
    pub steps: [usize; 2],
    busy: [bool; 2],
}

impl State {
    /// A turn of p, and whether it answers: "a turn of an idle process starts
    /// the next call on its list, which leaves the list even if refused; a
    /// busy one steps; an idle one with an empty list passes". A refused call
    /// and a pass have no item.
    pub fn turn(&mut self, case: &Case, p: usize, answers: bool) -> Option<Item> {
        if self.busy[p] {
            self.steps[p] += 1;
            self.busy[p] = !answers;
            return Some(Item::Step(p));
        }
        let next = case.lists[p].get(self.taken[p])?;
        self.taken[p] += 1;
        self.steps[p] = 0;
        self.busy[p] = next.refusal.is_none();
        self.busy[p].then_some(Item::Start(p, next.call))
    }

    /// The place in its list of the call that p has open.
    pub fn open_call(&self, p: usize) -> Option<usize> {
        self.busy[p].then(|| self.taken[p] - 1)
    }

    /// How many calls were taken from each list, refused ones counted.
    pub fn taken(&self) -> [usize; 2] {
        self.taken
    }

    /// Whether a turn of p would pass.
    pub fn is_done(&self, case: &Case, p: usize) -> bool {
        !self.busy[p] && self.taken[p] == case.lists[p].len()
    }

    /// The items with which p comes to the end of its list.
    pub fn rest(&self, case: &Case, p: usize) -> Vec<Item> {
        let open = self.busy[p].then_some(Item::Finish(p));
        let left = case.lists[p][self.taken[p]..].iter();
        let taken = left.filter(|next| next.refusal.is_none());
        let started = taken.flat_map(|next| [Item::Start(p, next.call), Item::Finish(p)]);
        open.into_iter().chain(started).collect()
    }
}
