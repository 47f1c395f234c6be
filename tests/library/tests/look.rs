//! The states that `./look` shows, by its own modules, against the trace's
//! lines on thousands of texts: what a line says was read, linked or written
//! stands in the states around it, every other shared item stays, and the
//! state before it names the line and the item as the access to come.

#[path = "../../../library/src/bin/states/buffers.rs"]
#[allow(dead_code)]
mod buffers;
#[path = "../../../library/src/bin/states/commands.rs"]
mod commands;
#[path = "../../../library/src/bin/states/next.rs"]
#[allow(dead_code)]
mod next;
#[path = "../../../library/src/bin/states/run.rs"]
#[allow(dead_code)]
mod run;
#[path = "../../../library/src/bin/states/station.rs"]
#[allow(dead_code)]
mod station;

use commands::{Command, Order};
use next::{kind, next, Item};
use run::Run;
use station::{Place, Station};
use witness::texts::{limit_texts, text};

/// Entries of a text that are looked at one by one.
const MOST: usize = 1_000;

#[test]
fn every_line_stands_in_the_states() {
    let limits = limit_texts();
    let (mut states, mut accesses) = (0, [0; 7]);
    for index in 0..4_000 {
        let run = Run::of(&text(34, index, &limits));
        let Some(sizes) = run.sizes() else {
            assert_eq!(run.entries, 0, "text {index}");
            continue;
        };
        let mut station = run.state(sizes, 0);
        for entry in 1..=run.entries.min(MOST) {
            let before = Shared::of(&station);
            let line = run.line(entry).unwrap().to_string();
            let told = format!("text {index}: {line}");
            let command = Command::read(&line).expect("a line of a command");
            let p = command.process;
            let named = next(&station, p);
            run.carry_out(entry, &mut station).unwrap();
            let after = Shared::of(&station);
            match command.order {
                Order::Step => {
                    let named = named.expect(&told);
                    let shown = shown(&line);
                    assert_eq!(shown.line, named.line, "{told}");
                    assert_eq!(shown.item, named.item.to_string(), "{told}");
                    accesses[stands(&shown, &before, &after, named.item, p, &told)] += 1;
                    answered(&line, &station, p, &told);
                }
                _ => {
                    assert!(named.is_none() && before == after, "{told}");
                    begun(&station, &command, &told);
                }
            }
            states += 1;
            if entry % 61 == 0 {
                let alone = run.state(sizes, entry);
                assert!(Shared::of(&alone) == after, "{told}");
            }
            if entry % 7 == 0 {
                each_once(&station, &told);
            }
        }
    }
    assert!(states > 100_000, "{states}");
    assert!(accesses.iter().all(|count| *count > 50), "{accesses:?}");
}

/// All shared items, for comparisons.
#[derive(Clone, PartialEq, Eq, Debug)]
struct Shared {
    x: (Vec<u64>, u64),
    bank: Vec<(Vec<u64>, u64)>,
    help: Vec<(Vec<u64>, u64)>,
    halves: Vec<Vec<[u64; 2]>>,
}

impl Shared {
    fn of(station: &Station) -> Shared {
        let n = station.n;
        let x = station.x();
        let bank = (0..2 * n).map(|i| station.bank(i));
        let help = (0..n).map(|p| station.help(p));
        let buffer = |b| {
            station
                .buffer(b)
                .iter()
                .map(|word| [word & 0xffff_ffff, word >> 32])
        };
        Shared {
            x: (vec![x.buffer, x.number], x.links),
            bank: bank.map(|bank| (vec![bank.buffer], bank.links)).collect(),
            help: help
                .map(|help| (vec![u64::from(help.asks), help.buffer], help.links))
                .collect(),
            halves: (0..3 * n).map(|b| buffer(b).collect()).collect(),
        }
    }

    /// The values of an item and its links; a half word has none.
    fn item(&mut self, item: Item) -> Held<'_> {
        match item {
            Item::X => Held::Linked(&mut self.x),
            Item::Bank(i) => Held::Linked(&mut self.bank[i as usize]),
            Item::Help(p) => Held::Linked(&mut self.help[p as usize]),
            Item::Half { buffer, word, high } => {
                Held::Half(&mut self.halves[buffer as usize][word as usize][usize::from(high)])
            }
        }
    }
}

enum Held<'a> {
    Linked(&'a mut (Vec<u64>, u64)),
    Half(&'a mut u64),
}

impl Held<'_> {
    fn parts(&self) -> (Vec<u64>, u64) {
        match self {
            Held::Linked(place) => (*place).clone(),
            Held::Half(half) => (vec![**half], 0),
        }
    }
}

/// A line of a trace that is a step's.
struct Shown<'a> {
    line: u64,
    item: String,
    act: Vec<&'a str>,
}

fn shown(line: &str) -> Shown<'_> {
    let access = line.split(" answers ").next().unwrap();
    let fields: Vec<&str> = access.split(' ').collect();
    let long = if fields[3].starts_with("BUF") { 2 } else { 1 };
    Shown {
        line: fields[2].parse().unwrap(),
        item: fields[3..3 + long].join(" "),
        act: fields[3 + long..].to_vec(),
    }
}

/// What docs/TRACE.md says of each access; which of the seven it was.
fn stands(
    shown: &Shown,
    before: &Shared,
    after: &Shared,
    item: Item,
    p: usize,
    told: &str,
) -> usize {
    let (mut was, mut is) = (before.clone(), after.clone());
    let (held, links) = was.item(item).parts();
    let (holds, linked) = is.item(item).parts();
    let own = 1 << p;
    let values: Vec<u64> = shown
        .act
        .iter()
        .filter_map(|word| word.parse().ok())
        .collect();
    let words: Vec<&str> = shown
        .act
        .iter()
        .copied()
        .filter(|word| word.parse::<u64>().is_err())
        .collect();
    let stays = held == holds && links == linked;
    let (which, right) = match words[..] {
        ["LL", "link", "set"] => (
            0,
            held == values && holds == values && linked == links | own,
        ),
        ["VL", "true"] => (1, stays && links & own != 0),
        ["VL", "false"] => (2, stays && links & own == 0),
        ["SC", "true", "links", "cleared"] => {
            (3, links & own != 0 && holds == values && linked == 0)
        }
        ["SC", "false"] => (4, stays && links & own == 0),
        ["read"] => (5, stays && held == values),
        ["write", "links", "cleared"] | ["write"] => (6, holds == values && linked == 0),
        _ => panic!("{told}"),
    };
    assert!(right, "{told}");
    // every other item stays
    match (was.item(item), is.item(item)) {
        (Held::Linked(was), Held::Linked(is)) => was.clone_from(is),
        (Held::Half(was), Held::Half(is)) => *was = *is,
        _ => unreachable!(),
    }
    assert!(was == is, "{told}");
    which
}

/// After an answer the process is idle, and what its LL showed is returned;
/// before it its call is open.
fn answered(line: &str, station: &Station, p: usize, told: &str) {
    let Some((_, answer)) = line.split_once(" answers ") else {
        assert!(kind(station.call(p).point).is_some(), "{told}");
        return;
    };
    assert!(next(station, p).is_none(), "{told}");
    let fields: Vec<&str> = answer.split(' ').collect();
    if fields[1] == "L" {
        let words: Vec<String> = station.returned(p).iter().map(u64::to_string).collect();
        assert_eq!(fields[3..], words, "{told}");
        assert!(station.holding(p).marked, "{told}");
    }
}

fn begun(station: &Station, command: &Command, told: &str) {
    let call = station.call(command.process);
    let started = match command.order {
        Order::Ll => "LL",
        Order::Vl => "VL",
        Order::Sc(number) => {
            let offered = station.offered(command.process);
            assert!(offered.iter().all(|word| *word == number), "{told}");
            "SC"
        }
        Order::Step => unreachable!(),
    };
    assert_eq!(kind(call.point), Some(started), "{told}");
    assert_eq!(call.steps, 0, "{told}");
}

/// Each buffer has one place, and the place has it.
fn each_once(station: &Station, told: &str) {
    let places = station.places();
    let n = station.n;
    assert_eq!(places.len(), 3 * n, "{told}");
    for (b, place) in places.iter().enumerate() {
        assert_eq!(
            places.iter().filter(|other| *other == place).count(),
            1,
            "{told}"
        );
        let there = match *place {
            Place::X => station.x().buffer,
            Place::Bank(i) => station.bank(i).buffer,
            Place::Owned(p) => match station.help(p) {
                help if handed_over(station, p) => help.buffer,
                _ => station.holding(p).mybuf,
            },
        };
        assert_eq!(there, b as u64, "{told}");
    }
}

/// Whether p asked for help and got it: its buffer is in Help[p] until it
/// takes it in line 10.
fn handed_over(station: &Station, p: usize) -> bool {
    let line = next(station, p).map_or(0, |next| next.line);
    (2..=10).contains(&line) && !station.help(p).asks
}

#[test]
fn words_are_told_by_their_runs() {
    assert_eq!(buffers::words(&[7]), "7");
    assert_eq!(buffers::words(&[7, 7]), "7, 2 times");
    assert_eq!(buffers::words(&[7, 7, 5]), "7 7 5");
    let torn = [7, 5, 5, 5, 5, 5, 5, 5, 7];
    assert_eq!(buffers::words(&torn), "[0] 7  [1 to 7] 5  [8] 7");
}
