//! What a command touches.

use crate::machine::{Act, Bench, Place};
use crate::schedule::place_text;

/// A command's process, and for a step its item and whether it only looks.
/// "A start touches none."
#[derive(Clone, Copy, PartialEq, Eq, Debug)]
pub struct Touch {
    pub process: u64,
    pub item: Option<Item>,
}

#[derive(Clone, Copy, PartialEq, Eq, Debug)]
pub struct Item {
    pub record: usize,
    pub place: Place,
    pub only_looks: bool,
}

/// Why two neighbours may not change places.
#[derive(Clone, Copy, PartialEq, Eq, Debug)]
pub enum Obstacle {
    SameProcess,
    InCommon(Place),
}

impl Touch {
    /// Of the last command of this bench, by this process.
    pub fn of_last(bench: &Bench, process: u64) -> Touch {
        let seen = bench.seen();
        let item = seen.access.map(|access| Item {
            record: seen.record,
            place: access.place,
            only_looks: only_looks(access.act),
        });
        Touch { process, item }
    }
}

/// "LL (its own link apart), VL and plain reads only look; the write of line
/// 1, word writes and every SC, successful or not, alter."
fn only_looks(act: Act) -> bool {
    match act {
        Act::Ll(_) | Act::Vl(_) | Act::Read(_) => true,
        Act::Write(_) | Act::Sc(..) => false,
    }
}

/// "of different processes, with no item in common or both only looking"
pub fn may_change_places(one: &Touch, other: &Touch) -> Result<(), Obstacle> {
    if one.process == other.process {
        return Err(Obstacle::SameProcess);
    }
    let (Some(a), Some(b)) = (one.item, other.item) else {
        return Ok(());
    };
    let apart = (a.record, a.place) != (b.record, b.place);
    match apart || a.only_looks && b.only_looks {
        true => Ok(()),
        false => Err(Obstacle::InCommon(a.place)),
    }
}

/// `yes`, or `no` and why: `same process` or the item.
pub fn verdict_text(verdict: Result<(), Obstacle>) -> String {
    match verdict {
        Ok(()) => "yes".to_string(),
        Err(Obstacle::SameProcess) => "no same process".to_string(),
        Err(Obstacle::InCommon(place)) => format!("no {}", place_text(place)),
    }
}
