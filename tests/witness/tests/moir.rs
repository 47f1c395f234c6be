//! Moir's bench: runs with their answers, what wrong readings of Figure 6
//! do, and where the bound bites.

use witness::machine::Order;
use witness::moir::{listing_of, record, served, within_bound, Bench, Reply, Wrong, TAGS};
use witness::rng::Rng;

fn listing(text: &str) -> String {
    let listing = String::from_utf8(listing_of(text.as_bytes()).0).expect("plain text");
    let lines = listing.strip_suffix('\n').expect("the last line ends too");
    lines.replace('\n', " / ")
}

#[test]
fn runs_with_their_answers() {
    for (items, answers) in [
        (
            "0l 0! 0s6 5(0.) 1l 2(1.) 0! 0l 0! 0s7 2(0.) 1! 1s8 1! 0!",
            "0 L 3 5 / 0 S 8 1 / 0 L 3 6 / 1 L 6 6 / 1 S 8 1 / 0 S 3 0 / end 37",
        ),
        (
            "1l 1. 0l 0! 0s7 0! 1! 1v 1! 1s9 1!",
            "0 L 3 5 / 0 S 8 1 / 1 N 3 0 / 1 V 1 0 / 1 S 1 0 / end 21",
        ),
        (
            "0l 0! 0s7 3(0.) 1l 1! 1v 1! 0! 1v 1!",
            "0 L 3 5 / 1 L 6 7 / 1 V 1 1 / 0 S 5 1 / 1 V 1 1 / end 21",
        ),
        (
            "0l 0! 1l 1! 1s7 1. 0s6 0! 1!",
            "0 L 3 5 / 1 L 3 5 / 0 S 8 1 / 1 S 3 0 / end 21",
        ),
        (
            "0l 0! 0s6 0! 0s7 0!",
            "0 L 3 5 / 0 S 8 1 / 0 S 1 0 / end 15",
        ),
    ] {
        assert_eq!(listing(&format!("2 1 5\n{items}")), answers);
    }
}

/// Each wrong reading has a history that no order serves, within the bound.
#[test]
fn wrong_readings_are_found() {
    for (name, wrong) in Wrong::ALL {
        let found = (0..200_000).any(|index| {
            let history = record(&mut Rng::stream(1, index), TAGS, Some(wrong));
            !served(&history)
        });
        assert!(found, "{name}");
    }
}

/// With tags of four values fewer than three successes are harmless, and
/// three are not.
#[test]
fn the_bound_is_needed() {
    let mut over = 0;
    for index in 0..200_000 {
        let history = record(&mut Rng::stream(2, index), 4, None);
        let fits = served(&history);
        assert!(fits || !within_bound(&history, 3), "{}", history.script);
        over += u64::from(!fits && within_bound(&history, 4));
    }
    assert!(over > 0);
}

struct Two {
    bench: Bench,
}

impl Two {
    fn start(&mut self, p: u64, order: Order) {
        assert_eq!(self.bench.command(p, &order), Ok(None));
    }

    fn finish(&mut self, p: u64) -> Reply {
        loop {
            let done = self.bench.command(p, &Order::Step).expect("busy");
            if let Some(answer) = done {
                return answer.reply;
            }
        }
    }

    fn whole(&mut self, p: u64, order: Order) -> Reply {
        self.start(p, order);
        self.finish(p)
    }

    /// Process 1 succeeds so often; its last value is 9.
    fn successes(&mut self, times: u32) {
        for k in 1..=times {
            self.whole(1, Order::Load);
            let value = if k == times { 9 } else { 7 };
            let done = self.whole(1, Order::Store(vec![value]));
            assert_eq!(done, Reply::Stored(true));
        }
    }
}

fn two() -> Two {
    Two {
        bench: Bench::set_up(2, 1, &[5], TAGS).expect("N and W are in range"),
    }
}

/// 65,535 successes during a WLL spoil the record: the next WLL answers a
/// word long overwritten. 65,534 do not.
#[test]
fn the_bound_of_a_wll() {
    for (times, word) in [(65_534, 9), (65_535, 5)] {
        let mut two = two();
        two.start(0, Order::Load);
        assert_eq!(two.bench.command(0, &Order::Step), Ok(None));
        two.successes(times);
        assert_eq!(two.finish(0), Reply::Named(1));
        assert_eq!(two.whole(0, Order::Load), Reply::Loaded(vec![word]));
    }
}

/// 65,536 successes after a WLL, and VL and SC take its tag for their own.
#[test]
fn the_bound_of_vl_and_sc() {
    for (times, truth) in [(65_535, false), (65_536, true)] {
        let mut two = two();
        assert_eq!(two.whole(0, Order::Load), Reply::Loaded(vec![5]));
        two.successes(times);
        assert_eq!(two.whole(0, Order::Validate), Reply::Validated(truth));
        let stored = two.whole(0, Order::Store(vec![3]));
        assert_eq!(stored, Reply::Stored(truth));
    }
}

/// 65,535 more successes while an SC copies: its CAS on the segment brings
/// its own word back.
#[test]
fn the_bound_of_a_copy_in_sc() {
    for (times, word) in [(65_534, 9), (65_535, 6)] {
        let mut two = two();
        assert_eq!(two.whole(0, Order::Load), Reply::Loaded(vec![5]));
        two.start(0, Order::Store(vec![6]));
        for _ in 0..3 {
            assert_eq!(two.bench.command(0, &Order::Step), Ok(None));
        }
        two.successes(times);
        assert_eq!(two.finish(0), Reply::Stored(true));
        assert_eq!(two.whole(0, Order::Load), Reply::Loaded(vec![word]));
    }
}

/// Commands are refused with 4, 8, 5, 6 and 7, in this order, and a refused
/// one changes nothing.
#[test]
fn refusals_in_their_order() {
    let mut two = two();
    let wide = || Order::Store(vec![1, 2]);
    let one = || Order::Store(vec![1]);
    assert_eq!(two.bench.command(2, &wide()), Err(4));
    assert_eq!(two.bench.command(1, &wide()), Err(8));
    assert_eq!(two.bench.command(1, &one()), Err(7));
    assert_eq!(two.bench.command(1, &Order::Validate), Err(7));
    assert_eq!(two.bench.command(1, &Order::Step), Err(6));
    two.start(1, Order::Load);
    assert_eq!(two.bench.command(1, &wide()), Err(8));
    assert_eq!(two.bench.command(1, &one()), Err(5));
    assert_eq!(two.finish(1), Reply::Loaded(vec![5]));
    assert_eq!(two.bench.command(1, &one()), Ok(None));
}
