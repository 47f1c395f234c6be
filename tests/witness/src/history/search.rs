//! The search: depth first over all orders in which no call comes after one
//! that started only when it was already answered.

use std::collections::HashSet;

use super::object::Object;
use super::record::{Call, History};

/// What a search came to.
#[derive(Clone, PartialEq, Eq, Debug)]
pub enum Found {
    /// An order that is served, as indices into the calls.
    Order(Vec<usize>),
    /// No order is.
    NoOrder,
    /// So many positions were looked at that it was given up.
    GivenUp,
}

/// An order (as indices into the calls) that Figure 1's object serves with
/// the answers given, if there is one.
pub fn served_order(history: &History) -> Option<Vec<usize>> {
    match search(history, usize::MAX) {
        Found::Order(order) => Some(order),
        _ => None,
    }
}

/// The same, over so many positions at most.
pub fn search(history: &History, most: usize) -> Found {
    let mut lists = vec![Vec::new(); history.n];
    for (k, call) in history.calls.iter().enumerate() {
        lists[call.process].push(k);
    }
    let search = Search {
        calls: &history.calls,
        lists,
        hopeless: HashSet::new(),
    };
    let begin = Position {
        placed: vec![0; history.n],
        object: Object::new(&history.initial, history.n),
    };
    search.from(begin, most)
}

/// How many calls of each process are placed, which tells which these are,
/// and the object that they leave.
#[derive(Clone, PartialEq, Eq, Hash)]
struct Position {
    placed: Vec<usize>,
    object: Object,
}

struct Search<'a> {
    calls: &'a [Call],
    /// The calls of each process, one after the other.
    lists: Vec<Vec<usize>>,
    /// Positions from which no order goes on to the end.
    hopeless: HashSet<Position>,
}

impl Search<'_> {
    fn from(mut self, begin: Position, most: usize) -> Found {
        // each position with the first process that was not yet tried there
        let mut path = vec![(begin, 0)];
        let mut order = Vec::new();
        let mut looked_at = 0;
        while let Some((position, tried)) = path.last_mut() {
            if order.len() == self.calls.len() {
                return Found::Order(order);
            }
            let next = (*tried..self.lists.len()).find_map(|p| self.after(position, p));
            if let Some((p, after)) = next {
                *tried = p + 1;
                order.push(self.lists[p][after.placed[p] - 1]);
                path.push((after, 0));
                looked_at += 1;
                if looked_at > most {
                    return Found::GivenUp;
                }
            } else if let Some((position, _)) = path.pop() {
                self.hopeless.insert(position);
                order.pop();
            }
        }
        Found::NoOrder
    }

    /// The position after the next call of p, if that call may come next, is
    /// answered alike and leads somewhere.
    fn after(&self, position: &Position, p: usize) -> Option<(usize, Position)> {
        let call = self.waiting(position, p)?;
        // nobody waits whose call was answered before this one started
        let waits = |q| self.waiting(position, q);
        if (0..self.lists.len()).any(|q| waits(q).is_some_and(|one| one.answer < call.start)) {
            return None;
        }
        let mut after = position.clone();
        after.placed[p] += 1;
        let alike = after.object.serve(p, &call.kind) == call.reply;
        (alike && !self.hopeless.contains(&after)).then_some((p, after))
    }

    fn waiting(&self, position: &Position, p: usize) -> Option<&Call> {
        let k = self.lists[p].get(position.placed[p])?;
        Some(&self.calls[*k])
    }
}

/// Moments for the calls in the given order: whole numbers, growing, each
/// after its call's start and not after its answer, command k being at
/// place k times `m`. None if they do not fit.
pub fn moments(calls: &[Call], order: &[usize], m: u64) -> Option<Vec<u64>> {
    let mut last = 0;
    let mut found = Vec::new();
    for &k in order {
        last = (last + 1).max(calls[k].start * m + 1);
        if last > calls[k].answer * m {
            return None;
        }
        found.push(last);
    }
    Some(found)
}
