//! Pairs of files for comparisons: the commands of one run on a station,
//! parted by process, right or with something wrong.

use super::file::{written, BoardRecord};
use super::spoil::spoilt;
use crate::machine::{Bench, Order};
use crate::rng::Rng;
use crate::station::{short_list, List};

/// Two files, the room for their merge, and the list of commands that
/// prepares a station for a run.
pub struct Pair {
    pub first: Vec<u8>,
    pub second: Vec<u8>,
    pub room: u64,
    pub list: List,
    /// What was done to the pair, if anything.
    pub spoilt: Option<&'static str>,
}

pub fn pair(seed: u64, index: u64) -> Pair {
    let rng = &mut Rng::stream(seed, index);
    let list = short_list(rng);
    let records = records_of_a_run(rng, &list);
    let in_first = processes_of_first(rng);
    let part = |first: bool| -> Vec<BoardRecord> {
        let belongs = |record: &&BoardRecord| in_first[usize::from(record.process)] == first;
        records.iter().filter(belongs).copied().collect()
    };
    let (first, second) = (part(true), part(false));
    let room = room(rng, records.len());
    let mut pair = Pair {
        first: written(&free_bytes(rng), &first),
        second: written(&free_bytes(rng), &second),
        room,
        list,
        spoilt: None,
    };
    if rng.once_in(2) {
        spoilt(rng, &mut pair, [first, second]);
    }
    pair
}

/// Any parting of the process bytes in which 0 and 1 part.
fn processes_of_first(rng: &mut Rng) -> Vec<bool> {
    let mut in_first: Vec<bool> = (0..256).map(|_| rng.once_in(2)).collect();
    in_first[1] = !in_first[0];
    in_first
}

fn room(rng: &mut Rng, records: usize) -> u64 {
    let needed = 12 * records as u64 + 12;
    match rng.below(12) {
        0 => needed - 1,
        1 => rng.bits() % needed,
        2 => 0,
        3..=6 => needed,
        _ => needed + rng.bits() % 100,
    }
}

pub(super) fn free_bytes(rng: &mut Rng) -> Vec<u8> {
    let number = match rng.below(4) {
        0 => rng.between(1, 40),
        1 => rng.pick(&[1, 11, 12, 13, 24]),
        _ => 0,
    };
    (0..number).map(|_| rng.bits() as u8).collect()
}

/// Commands that the bench of the list mostly accepts, with their ticks.
fn records_of_a_run(rng: &mut Rng, list: &List) -> Vec<BoardRecord> {
    let mut bench = list.set_up.carried_out().expect("a right set-up");
    for command in &list.commands {
        let _ = bench.command_on(command.process, command.record, &command.order);
    }
    let mut tick = rng.pick(&[0, 1, 1000, u32::MAX - 50]);
    let patience = rng.between(1, 30);
    let mut process = rng.below(bench.processes().len());
    let mut records = Vec::new();
    for _ in 0..rng.pick(&[0, 1, 2, 20, 60, 120, 300]) {
        if rng.once_in(patience) {
            process = rng.below(bench.processes().len());
        }
        records.push(command(rng, &mut bench, process, tick));
        tick = tick.saturating_add(rng.pick(&[0, 1, 1, 1, 2, 300]));
    }
    records
}

/// A command of this process, now and then one that is refused.
pub(super) fn command(rng: &mut Rng, bench: &mut Bench, p: usize, tick: u32) -> BoardRecord {
    let (stray, blind) = (rng.once_in(600), rng.once_in(200));
    let process = if stray { rng.bits() as u8 } else { p as u8 };
    let order = match rng.below(10) {
        kind if blind => kind as u8 % 4,
        _ if !bench.is_idle(p) => 0,
        kind if !bench.has_linked(p) => match rng.once_in(20) {
            true => 2 + kind as u8 % 2,
            false => 1,
        },
        0..=3 => 1,
        4..=8 => 2,
        _ => 3,
    };
    let value = match order {
        2 => rng.pick(&[0, 1, 7, 300, u32::MAX]),
        _ => 0,
    };
    let asked = match order {
        0 => Order::Step,
        1 => Order::Load,
        2 => Order::Store(vec![u64::from(value); bench.words()]),
        _ => Order::Validate,
    };
    let _ = bench.command_on(u64::from(process), 0, &asked);
    BoardRecord {
        tick,
        value,
        process,
        order,
        zeros: [0, 0],
    }
}
