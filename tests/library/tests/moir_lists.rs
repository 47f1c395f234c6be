//! Moir's bench that the caller holds: commands by the step that looks at
//! what it reads alone and by the one that looks at the whole list; each
//! reply as the separately written program has it. Then lists of any numbers.

use besklaun::moir::{self, Order, Reply};
use besklaun::Refusal;
use witness::machine::Order as Ordered;
use witness::moir::{Answer, Bench, Reply as Answered, TAGS};
use witness::rng::Rng;

/// What stands in a list before its set-up.
const BEFORE: u64 = 0x0123_4567_89ab_cdef;

/// The commands go to few processes, so that they meet.
#[test]
fn lists_of_commands() {
    let mut named = 0;
    for index in 0..2_000 {
        let rng = &mut Rng::stream(37, index);
        let n = rng.between(1, 16);
        let w = rng.between(1, 5);
        let value: Vec<u64> = (0..w).map(|_| rng.bits()).collect();
        let mut held = vec![BEFORE; moir::length(n, w) + 3];
        let untouched = held.clone();
        assert_eq!(moir::set_up(&mut held, n, w, &value), Ok(()));
        let mut bench = Bench::set_up(n as u64, w as u64, &value, TAGS).unwrap();
        for k in 0..400 {
            let others = usize::from(rng.once_in(20));
            let process = rng.below(n.min(3) + others);
            let order = order(rng, w);
            let before = held.clone();
            let said = bench.command(process as u64, &order);
            let reply = given(&mut held, process, &order, k % 2 == 0);
            same_reply(&said, &reply, &held, index, k);
            named += u32::from(matches!(reply, Ok(Reply::Named { .. })));
            if said.is_err() {
                assert_eq!(held, before, "list {index}, command {k}");
            }
        }
        stays(&held, &untouched, n, w);
    }
    assert!(named > 100);
}

/// Mostly a step.
fn order(rng: &mut Rng, w: usize) -> Ordered {
    match rng.below(12) {
        0 => Ordered::Load,
        1 => Ordered::Validate,
        2 => {
            let words = w + usize::from(rng.once_in(10));
            Ordered::Store((0..words).map(|_| rng.bits()).collect())
        }
        _ => Ordered::Step,
    }
}

fn given(held: &mut [u64], process: usize, order: &Ordered, near: bool) -> Result<Reply, Refusal> {
    let order = match order {
        Ordered::Step => Order::Step,
        Ordered::Load => Order::Wll,
        Ordered::Store(words) => Order::Sc(words),
        Ordered::Validate => Order::Vl,
    };
    match near {
        true => moir::step(held, process, order),
        false => moir::command(held, process, order),
    }
}

fn same_reply(
    said: &Result<Option<Answer>, u8>,
    reply: &Result<Reply, Refusal>,
    held: &[u64],
    index: u64,
    k: usize,
) {
    let same = match (said, reply) {
        (Err(number), Err(refusal)) => *number == refusal.number(),
        (Ok(None), Ok(Reply::Accepted)) => true,
        (Ok(Some(answer)), Ok(reply)) => answers(answer, reply, held),
        _ => false,
    };
    assert!(same, "list {index}, command {k}: {said:?} and {reply:?}");
}

fn answers(answer: &Answer, reply: &Reply, held: &[u64]) -> bool {
    let steps = answer.count as usize;
    match (&answer.reply, reply) {
        (Answered::Loaded(shown), Reply::Wll { count, words }) => {
            *count == steps && held[words.clone()] == shown[..]
        }
        (Answered::Named(q), Reply::Named { count, process }) => *count == steps && process == q,
        (Answered::Stored(said), Reply::Sc { count, truth }) => *count == steps && truth == said,
        (Answered::Validated(said), Reply::Vl { count, truth }) => *count == steps && truth == said,
        _ => false,
    }
}

/// "Memory beyond what N and W need is never touched."
fn stays(held: &[u64], untouched: &[u64], n: usize, w: usize) {
    let needed = |place: usize| {
        place < moir::tag_place(w)
            || (moir::process_place(0)..moir::process_place(n)).contains(&place)
            || (moir::WORDS..moir::length(n, w)).contains(&place)
    };
    for (place, (now, before)) in held.iter().zip(untouched).enumerate() {
        assert!(needed(place) || now == before, "place {place}");
    }
}

/// Whether one number out of its range is found: by a command wherever it is
/// needed, by a step where it is read.
#[test]
fn numbers_out_of_range() {
    let (n, w) = (3, 2);
    let mut held = vec![BEFORE; moir::length(n, w)];
    moir::set_up(&mut held, n, w, &[5, 6]).unwrap();
    moir::step(&mut held, 1, Order::Wll).unwrap();
    let own = moir::process_place(1);
    let other = moir::process_place(2);
    let tags = [4, 5, 7, 9, 11, 13, 15];
    let processes = [6, 8, 10, 12];
    let mut wrong = vec![
        (moir::HEADER, 1 << 16, true),
        (moir::HEADER + 1, n as u64, true),
        (moir::tag_place(0), 1 << 16, true),
        (moir::tag_place(1), 1 << 16, false),
        (own, 3, true),
        (own, 28, true),
        (own, 256 + 10, true),
        (own + 1, w as u64, true),
        (own + 2, 6 * w as u64 + 2, true),
        (other + 2, 1, false),
        (other, 1, false),
    ];
    wrong.extend(tags.map(|place| (own + place, u64::MAX, true)));
    wrong.extend(tags.map(|place| (other + place, 1 << 16, false)));
    wrong.extend(processes.map(|place| (own + place, n as u64, true)));
    wrong.extend(processes.map(|place| (other + place, 256, false)));
    for (place, number, read) in wrong {
        let mut list = held.clone();
        list[place] = number;
        let before = list.clone();
        let refused = Err(Refusal::NumberOutOfRange);
        assert_eq!(moir::command(&mut list, 1, Order::Step), refused, "{place}");
        assert_eq!(list, before, "{place}");
        let stepped = moir::step(&mut list, 1, Order::Step);
        assert_eq!(stepped == refused, read, "{place}");
    }
    for place in [
        moir::tag_place(2),
        moir::process_place(3),
        own + 3,
        own + 14,
    ] {
        let mut list = held.clone();
        list[place] = u64::MAX;
        let accepted = Ok(Reply::Accepted);
        assert_eq!(
            moir::command(&mut list, 1, Order::Step),
            accepted,
            "{place}"
        );
    }
}

/// Rows 1, 2 and 3, in this order, for a set-up and for a command to a list of
/// any numbers; nothing panics, and a refusal leaves every number.
#[test]
fn lists_of_any_numbers() {
    let rng = &mut Rng::stream(38, 0);
    for _ in 0..20_000 {
        let mut held: Vec<u64> = (0..rng.below(700)).map(|_| rng.bits()).collect();
        for place in [moir::N, moir::W] {
            if let Some(number) = held.get_mut(place) {
                *number = rng.below(20) as u64;
            }
        }
        let before = held.clone();
        let at = |place: usize| before.get(place).copied().unwrap_or(0) as usize;
        let row = row(at(moir::N), at(moir::W), before.len());
        let process = rng.below(18);
        for function in [moir::command, moir::step] {
            let said = function(&mut held, process, Order::Wll);
            match row {
                Some(refusal) => assert_eq!(said, Err(refusal)),
                None => assert!(said.is_err()),
            }
            assert_eq!(held, before);
        }
        let (n, w) = (rng.below(19), rng.below(70));
        let value = vec![7; w];
        let said = moir::set_up(&mut held, n, w, &value);
        assert_eq!(said.err(), self::row(n, w, before.len()));
        if said.is_err() {
            assert_eq!(held, before);
        }
    }
}

fn row(n: usize, w: usize, length: usize) -> Option<Refusal> {
    if !(1..=16).contains(&n) {
        Some(Refusal::NOutOfRange)
    } else if !(1..=64).contains(&w) {
        Some(Refusal::WOutOfRange)
    } else if length < moir::length(n, w) {
        Some(Refusal::TooLittleLent)
    } else {
        None
    }
}
