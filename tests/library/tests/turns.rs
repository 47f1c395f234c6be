//! Turns of processes 0 and 1 on a station that the caller holds: each reply,
//! the calls left and all words as the separately written program has them.

use besklaun::held::{self, Call, Reply, Turn};
use besklaun::Refusal;
use witness::interleaving::{turn_list, Turned};
use witness::machine::{Order, Reply as Answered};

/// What stands in a list before its set-up.
const BEFORE: u64 = 0x0123_4567_89ab_cdef;

#[test]
fn lists_of_turns() {
    let mut passes = 0;
    for index in 0..2_000 {
        passes += turned_as(index);
    }
    assert!(passes > 1_000);
}

/// The list of this number; how many of its turns passed.
fn turned_as(index: u64) -> usize {
    let list = turn_list(39, index);
    let Ok(mut table) = list.table() else {
        return 0;
    };
    let sizes = list.set_up.sizes;
    let [n, w, r] = [sizes.n, sizes.w, sizes.r].map(|size| size as usize);
    let mut held = vec![BEFORE; held::length(n, w, r)];
    held::set_up(&mut held, n, w, r, &list.set_up.value).unwrap();
    let mut left = list.calls.clone();
    let mut passes = 0;
    for (k, process) in list.turns.iter().enumerate() {
        let p = *process as usize;
        let of_none = Vec::new();
        let of_p = left.get(p).unwrap_or(&of_none);
        let calls: Vec<Call> = of_p.iter().map(call).collect();
        let before = held.clone();
        let said = table.turn(*process);
        let turn = held::turn(&mut held, p, &calls);
        assert!(same(&said, &turn, &held), "list {index}, turn {k}");
        if matches!(said, Turned::Pass | Turned::Reply(Err(_))) {
            assert_eq!(held, before, "list {index}, turn {k}");
        }
        passes += usize::from(said == Turned::Pass);
        let expected = table.left.get(p).map_or(0, Vec::len);
        assert_eq!(turn.left, expected, "list {index}, turn {k}");
        if p < 2 {
            left[p] = table.left[p].clone();
        }
    }
    passes
}

fn call((order, record): &(Order, u64)) -> Call<'_> {
    let record = *record as usize;
    match order {
        Order::Load => Call::Ll(record),
        Order::Store(words) => Call::Sc(record, words),
        Order::Validate => Call::Vl(record),
        Order::Step => panic!("a step is no call"),
    }
}

fn same(said: &Turned, turn: &Turn, held: &[u64]) -> bool {
    match (said, &turn.outcome) {
        (Turned::Pass, Ok(None)) => true,
        (Turned::Reply(Err(number)), Err(refusal)) => *number == refusal.number(),
        (Turned::Reply(Ok(None)), Ok(Some(Reply::Accepted))) => true,
        (Turned::Reply(Ok(Some(answer))), Ok(Some(reply))) => {
            let steps = answer.count as usize;
            match (&answer.reply, reply) {
                (Answered::Loaded(shown), Reply::Ll { count, words }) => {
                    *count == steps && held[words.clone()] == shown[..]
                }
                (Answered::Stored(said), Reply::Sc { count, truth })
                | (Answered::Validated(said), Reply::Vl { count, truth }) => {
                    *count == steps && truth == said
                }
                _ => false,
            }
        }
        _ => false,
    }
}

/// "row 9 or one before it, checked for a pass too", and 22 first of all.
#[test]
fn refused_before_a_pass() {
    let mut held = vec![BEFORE; held::length(2, 1, 1)];
    held::set_up(&mut held, 2, 1, 1, &[5]).unwrap();
    let passed = Turn {
        outcome: Ok(None),
        left: 0,
    };
    assert_eq!(held::turn(&mut held, 0, &[]), passed);
    held[held::bank_place(0, 3)] = 6;
    let refused = |refusal, left| Turn {
        outcome: Err(refusal),
        left,
    };
    let calls = [Call::Ll(0), Call::Vl(0)];
    let before = held.clone();
    let turn = held::turn(&mut held, 1, &[]);
    assert_eq!(turn, refused(Refusal::NumberOutOfRange, 0));
    let turn = held::turn(&mut held, 1, &calls);
    assert_eq!(turn, refused(Refusal::NumberOutOfRange, 2));
    let turn = held::turn(&mut held, 2, &calls);
    assert_eq!(turn, refused(Refusal::NotASchedule, 2));
    let turn = held::turn(&mut [], 0, &calls);
    assert_eq!(turn, refused(Refusal::NOutOfRange, 2));
    assert_eq!(held, before);
}
