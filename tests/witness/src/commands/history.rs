//! `witness history SEED COUNT`: the second witness of promise 3.

use super::run::print;
use crate::history::{moments, record, served_order, History};
use crate::machine::Wrong;
use crate::rng::Rng;

pub fn history(seed: u64, count: u64, wrong: Option<Wrong>) -> Result<u8, String> {
    for index in 0..count {
        let history = record(&mut Rng::stream(seed, index), wrong);
        if !is_served(&history) {
            print(report(index, &history).as_bytes())?;
            return Ok(1);
        }
    }
    print(format!("{count} histories, all served\n").as_bytes())
}

/// 01 asks for moments for every M from the number of calls on; the least
/// such M leaves the least room.
fn is_served(history: &History) -> bool {
    let Some(order) = served_order(history) else {
        return false;
    };
    let least = history.calls.len() as u64;
    moments(&history.calls, &order, least).is_some()
}

fn report(index: u64, history: &History) -> String {
    let mut lines = format!("history {index} has no order that is served\n");
    lines += &format!(
        "the k-th value has the half words 10k+10, 10k+11, and so on\n{}\n",
        history.script
    );
    for call in &history.calls {
        let (places, reply) = ((call.start, call.answer), &call.reply);
        lines += &format!("{} {:?} {places:?} {reply:?}\n", call.process, call.kind);
    }
    lines
}
