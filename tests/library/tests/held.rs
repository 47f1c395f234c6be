//! Stations that the caller holds: commands on several records, by the step
//! that looks at what it reads alone and by the one that looks at the whole
//! list; each reply and all memory as the separately written program has it.
//! Then lists of any numbers.

mod held_list;

use besklaun::held::{self, Order, Reply};
use besklaun::Refusal;
use held_list::{line_of_figure_2, seen};
use witness::boards::{pair, run_file};
use witness::machine::{Answer, Bench, Lent, Order as Ordered, Reply as Answered, Sizes};
use witness::rng::Rng;
use witness::station::{limit_lists, list, memory, Command, List};

/// What stands in a list before its set-up.
const BEFORE: u64 = 0x0123_4567_89ab_cdef;

#[test]
fn lists_of_commands() {
    let limits = limit_lists();
    for index in 0..1_000 {
        let list = list(34, index, &limits);
        held_as(&list, index);
    }
}

/// The list, every second command by the step.
fn held_as(list: &List, index: u64) {
    let Sizes { n, w, r } = list.set_up.sizes;
    let mut held = vec![BEFORE; room(&list.set_up.lent, list.set_up.sizes)];
    let untouched = held.clone();
    let value = &list.set_up.value;
    let number = held::set_up(&mut held, n as usize, w as usize, r as usize, value);
    // a list has numbers for sixteen processes, whatever the caller would lend
    let lent = Lent {
        processes: 16,
        ..list.set_up.lent
    };
    let mut bench = match Bench::station(list.set_up.sizes, lent, value) {
        Err(refusal) => {
            assert_eq!(
                number.map_err(Refusal::number),
                Err(refusal),
                "list {index}"
            );
            assert_eq!(held, untouched, "list {index}");
            return;
        }
        Ok(bench) => bench,
    };
    assert_eq!(number, Ok(()), "list {index}");
    for (k, command) in list.commands.iter().enumerate() {
        let before = held.clone();
        let said = bench.command_on(command.process, command.record, &command.order);
        let reply = given(&mut held, command, k % 2 == 0);
        same_reply(&said, &reply, &held, index, k);
        if said.is_err() {
            assert_eq!(held, before, "list {index}, command {k}");
        }
        if k % 61 == 0 || k + 1 == list.commands.len() {
            assert_eq!(seen(&held), memory(&bench), "list {index}, command {k}");
            each_buffer_once(&held, &bench);
        }
    }
    stays(&held, &untouched);
}

/// A board's files on a station as a list of commands left it: number,
/// commands done and all memory.
#[test]
fn board_files() {
    let mut seen_numbers = [0; 29];
    for index in 0..600 {
        let pair = pair(42, index);
        let Ok(mut bench) = pair.list.set_up.carried_out() else {
            continue;
        };
        let Sizes { n, w, r } = pair.list.set_up.sizes;
        let [n, w, r] = [n, w, r].map(|size| size as usize);
        let mut held = vec![BEFORE; held::length(n, w, r) + 2];
        held::set_up(&mut held, n, w, r, &pair.list.set_up.value).unwrap();
        for (k, command) in pair.list.commands.iter().enumerate() {
            let _ = bench.command_on(command.process, command.record, &command.order);
            let _ = given(&mut held, command, k % 2 == 0);
        }
        for file in [&pair.first, &pair.second] {
            let before = held.clone();
            let said = run_file(&mut bench, file);
            let ran = held::run_board(&mut held, file);
            let number = ran.outcome.err().map_or(0, Refusal::number);
            assert_eq!(
                (number, ran.done as u64),
                (said.number, said.done),
                "pair {index}"
            );
            assert_eq!(seen(&held), memory(&bench), "pair {index}");
            if ran.done == 0 {
                assert_eq!(held, before, "pair {index}");
            }
            seen_numbers[number as usize] += 1;
        }
    }
    for number in [0, 4, 5, 6, 7, 25, 26] {
        assert!(seen_numbers[number] > 0, "{seen_numbers:?}");
    }
}

/// On a list of any numbers: 25 and 26 first, then what its first command is
/// refused with.
#[test]
fn board_files_on_any_numbers() {
    let file = |order: u8| {
        let record = [0, 0, 0, 0, 7, 0, 0, 0, 0, order, 0, 0];
        let trailer = [0, 0, 0, 0, 1, 0, 0, 0, 0x54, 0x52, 0x41, 0x4c];
        [record, trailer].concat()
    };
    let any: Vec<u64> = (0..400).map(|k| BEFORE ^ k).collect();
    for held in [vec![], any] {
        let mut list = held.clone();
        for (file, refusal) in [
            (vec![], Refusal::BadTrailer),
            (file(4), Refusal::BadRecord),
            (file(2), Refusal::NOutOfRange),
        ] {
            let ran = held::run_board(&mut list, &file);
            assert_eq!((ran.outcome, ran.done), (Err(refusal), 0));
            assert_eq!(list, held);
        }
    }
}

/// The numbers of a list with so many words.
fn room(lent: &Lent, sizes: Sizes) -> usize {
    let r = sizes.r.min(9) as usize;
    held::words_place(r) + lent.words.min(60_000) as usize
}

fn given(held: &mut [u64], command: &Command, near: bool) -> Result<Reply, Refusal> {
    let process = command.process as usize;
    let record = command.record as usize;
    let order = match &command.order {
        Ordered::Step => Order::Step,
        Ordered::Load => Order::Ll(record),
        Ordered::Store(words) => Order::Sc(record, words),
        Ordered::Validate => Order::Vl(record),
    };
    match near {
        true => held::step(held, process, order),
        false => held::command(held, process, order),
    }
}

fn same_reply(
    said: &Result<Option<Answer>, u8>,
    reply: &Result<Reply, Refusal>,
    held: &[u64],
    index: u64,
    k: usize,
) {
    let same = match (said, reply) {
        (Err(number), Err(refusal)) => *number == refusal.number(),
        (Ok(None), Ok(Reply::Accepted)) => true,
        (Ok(Some(answer)), Ok(reply)) => answers(answer, reply, held),
        _ => false,
    };
    assert!(same, "list {index}, command {k}: {said:?} and {reply:?}");
}

fn answers(answer: &Answer, reply: &Reply, held: &[u64]) -> bool {
    let steps = answer.count as usize;
    match (&answer.reply, reply) {
        (Answered::Loaded(shown), Reply::Ll { count, words }) => {
            *count == steps && held[words.clone()] == shown[..]
        }
        (Answered::Stored(said), Reply::Sc { count, truth }) => *count == steps && truth == said,
        (Answered::Validated(said), Reply::Vl { count, truth }) => *count == steps && truth == said,
        _ => false,
    }
}

/// Each of a record's buffers is at one place, and the place is right.
fn each_buffer_once(held: &[u64], bench: &Bench) {
    let n = bench.processes().len();
    for j in 0..bench.records().len() {
        let mut places = vec![BEFORE; 3 * n + 1];
        assert_eq!(held::places(held, j, &mut places), Ok(()));
        assert_eq!(places.pop(), Some(BEFORE));
        for (buffer, place) in places.iter().enumerate() {
            assert_eq!(holder(held, j, n, *place as usize), buffer as u64);
        }
        places.sort_unstable();
        assert!(places.iter().copied().eq(0..3 * n as u64));
    }
}

/// The buffer that is kept at a place, or owned, by the sentences of CR 9.
fn holder(held: &[u64], j: usize, n: usize, place: usize) -> u64 {
    if place < 2 * n {
        let x = held::record_place(j);
        return match held[x + 1] == place as u64 {
            true => held[x],
            false => held[held::bank_place(j, place)],
        };
    }
    let p = place - 2 * n;
    let call = held::call_place(p);
    let help = held::help_place(j, p);
    let here = held[call] != 0 && held[call + 3] == j as u64;
    let asks = here && (2..=10).contains(&line_of_figure_2(held[call]));
    match asks && held[help] == 0 {
        true => held[help + 1],
        false => held[held::holding_place(j, p)],
    }
}

/// What N and R do not need, and the numbers behind the words.
fn stays(held: &[u64], untouched: &[u64]) {
    let [n, w, r] = [held::N, held::W, held::R].map(|place| held[place] as usize);
    let mut needed = vec![false; held.len()];
    let mut need = |from: usize, count: usize| needed[from..from + count].fill(true);
    need(0, 3);
    need(held::call_place(0), 8 * n);
    for j in 0..r {
        need(held::record_place(j), 3);
        need(held::bank_place(j, 0), 4 * n);
        need(held::help_place(j, 0), 3 * n);
        need(held::holding_place(j, 0), 4 * n);
    }
    need(held::words_place(r), (3 * r + 2) * n * w);
    for (k, needed) in needed.iter().enumerate() {
        assert!(*needed || held[k] == untouched[k], "number {k}");
    }
}

/// A list that a set-up and commands left, some of its numbers written over:
/// row 9 as the table has it, and a refusal leaves every number.
#[test]
fn lists_of_any_numbers() {
    let rng = &mut Rng::stream(34, 9);
    for _ in 0..20_000 {
        let (n, w, r) = (rng.between(1, 4), rng.between(1, 2), rng.between(1, 3));
        let mut held = vec![0; held::length(n, w, r)];
        held::set_up(&mut held, n, w, r, &vec![rng.bits(); w]).unwrap();
        for _ in 0..rng.below(40) {
            let _ = held::command(&mut held, rng.below(n), some_order(rng, r));
        }
        for _ in 0..rng.below(3) {
            let place = rng.below(held::words_place(r));
            held[place] = rng.pick(&[
                0,
                1,
                2,
                3,
                7,
                15,
                16,
                24,
                26,
                27,
                255,
                256,
                1 << 16,
                1 << 40,
                u64::MAX,
            ]);
        }
        held.truncate(held.len() - rng.pick(&[0, 0, 0, 1, 9]).min(held.len()));
        let before = held.clone();
        let process = rng.below(n + 1);
        let order = some_order(rng, r + 1);
        let said = held::command(&mut held, process, order);
        if let Err(cause) = said {
            assert_eq!(held, before);
            assert_eq!(
                cause == Refusal::NumberOutOfRange,
                lent_rows(&before) == 0 && !in_range(&before)
            );
        }
        let mut stepped = before.clone();
        let near = held::step(&mut stepped, process, order);
        if lent_rows(&before) == 0 && in_range(&before) {
            assert_eq!((&near, &stepped), (&said, &held));
        } else if near.is_err() {
            assert_eq!(stepped, before);
        }
    }
}

fn some_order(rng: &mut Rng, r: usize) -> Order<'static> {
    match rng.below(8) {
        0 => Order::Ll(rng.below(r)),
        1 => Order::Sc(rng.below(r), &[3, 4][..rng.between(1, 2)]),
        2 => Order::Vl(rng.below(r)),
        _ => Order::Step,
    }
}

fn number_at(held: &[u64], k: usize) -> u64 {
    held.get(k).copied().unwrap_or(0)
}

/// The first of rows 1, 2, 23 and 3, 0 for none.
fn lent_rows(held: &[u64]) -> u8 {
    let [n, w, r] = [held::N, held::W, held::R].map(|place| number_at(held, place));
    match (n, w, r) {
        _ if !(1..=16).contains(&n) => 1,
        _ if !(1..=64).contains(&w) => 2,
        _ if !(1..=8).contains(&r) => 23,
        _ if held.len() < held::length(n as usize, w as usize, r as usize) => 3,
        _ => 0,
    }
}

/// Row 9, from its sentence: "a buffer number not below 3N, a sequence number
/// not below 2N, a flag above 1, a link of a process not below N, a line that
/// is neither idle nor a step, a word place not below 2W, a busy count above
/// 8W+6, an idle count above 0", "a record number not below the count, or
/// above 0 when idle".
fn in_range(held: &[u64]) -> bool {
    let [n, w, r] = [held::N, held::W, held::R].map(|place| held[place]);
    let buffer = |k: usize| held[k] < 3 * n;
    let sequence = |k: usize| held[k] < 2 * n;
    let links = |k: usize| held[k] >> n == 0;
    let record = |j: usize| {
        let x = held::record_place(j);
        let banks = (0..2 * n as usize).map(|i| held::bank_place(j, i));
        let helps = (0..n as usize).map(|p| held::help_place(j, p));
        let own = (0..n as usize).map(|p| held::holding_place(j, p));
        buffer(x)
            && sequence(x + 1)
            && links(x + 2)
            && banks.clone().all(|k| buffer(k) && links(k + 1))
            && helps
                .clone()
                .all(|k| held[k] <= 1 && buffer(k + 1) && links(k + 2))
            && own
                .clone()
                .all(|k| buffer(k) && buffer(k + 1) && sequence(k + 2))
    };
    let call = |p: usize| {
        let k = held::call_place(p);
        let line = held[k];
        let most = if line == 0 { 0 } else { 8 * w + 6 };
        matches!(line, 0..=15 | 17..=19 | 23..=26)
            && held[k + 1] < 2 * w
            && held[k + 2] <= most
            && held[k + 3] < r
            && (line != 0 || held[k + 3] == 0)
            && (4..8).all(|e| buffer(k + e))
    };
    (0..r as usize).all(record) && (0..n as usize).all(call)
}
