//! A short schedule text on which a wrong reading of Figure 2 gives answers
//! that no order of Figure 1's object gives.

mod author;
mod notation;
mod play;
mod shrink;

pub use notation::text_of;
pub use play::{play, Played, Sizes, Turn};

use crate::history::served_order;
use crate::machine::Wrong;
use crate::rng::Rng;
use author::turns;
use shrink::shortest;

/// The first of so many random runs that goes wrong, made as short as taking
/// commands away makes it.
pub fn counterexample(seed: u64, tries: u64, wrong: Wrong) -> Option<String> {
    (0..tries).find_map(|index| {
        let (sizes, turns) = turns(&mut Rng::stream(seed, index), wrong);
        let torn = |some: &[Turn]| goes_wrong(sizes, some, wrong);
        torn(&turns).then(|| {
            let least = shortest(&turns, torn);
            text_of(sizes, &play(sizes, &least, Some(wrong)))
        })
    })
}

/// Whether no order serves the answers of these commands.
pub fn goes_wrong(sizes: Sizes, turns: &[Turn], wrong: Wrong) -> bool {
    served_order(&play(sizes, turns, Some(wrong)).history).is_none()
}
