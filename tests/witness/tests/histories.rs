//! The search over hand-made histories, and over recorded ones.

use witness::history::{moments, record, served_order, Call, History, Kind};
use witness::machine::Reply;
use witness::rng::Rng;

fn call(process: usize, kind: Kind, start: u64, answer: u64, reply: Reply) -> Call {
    Call {
        process,
        kind,
        start,
        answer,
        reply,
    }
}

fn load(process: usize, start: u64, answer: u64, word: u64) -> Call {
    call(
        process,
        Kind::Load,
        start,
        answer,
        Reply::Loaded(vec![word]),
    )
}

fn store(process: usize, start: u64, answer: u64, word: u64, success: bool) -> Call {
    call(
        process,
        Kind::Store(vec![word]),
        start,
        answer,
        Reply::Stored(success),
    )
}

fn history(calls: Vec<Call>) -> History {
    History {
        n: 2,
        initial: vec![5],
        calls,
        script: String::new(),
    }
}

fn served(calls: Vec<Call>) -> bool {
    served_order(&history(calls)).is_some()
}

#[test]
fn nothing_is_served() {
    assert!(served(vec![]));
}

#[test]
fn an_old_value_after_the_answer_is_not_served() {
    let begin = [load(0, 1, 2, 5), store(0, 3, 4, 7, true)];
    assert!(served([&begin[..], &[load(1, 5, 6, 7)]].concat()));
    assert!(!served([&begin[..], &[load(1, 5, 6, 5)]].concat()));
    // A call that is open meanwhile may still see the old value.
    assert!(served([&begin[..], &[load(1, 1, 6, 5)]].concat()));
}

#[test]
fn one_link_serves_one_success() {
    let both = [load(0, 1, 4, 5), load(1, 2, 3, 5)];
    assert!(served(
        [
            &both[..],
            &[store(0, 5, 8, 7, true), store(1, 6, 7, 8, false)]
        ]
        .concat()
    ));
    assert!(!served(
        [
            &both[..],
            &[store(0, 5, 8, 7, true), store(1, 6, 7, 8, true)]
        ]
        .concat()
    ));
    assert!(!served(
        [
            &both[..],
            &[store(0, 5, 8, 7, false), store(1, 6, 7, 8, false)]
        ]
        .concat()
    ));
}

/// An old value with a good link: the tear that lines 6 and 7 prevent.
#[test]
fn an_old_value_with_a_good_link_is_not_served() {
    let calls = |valid| {
        let check = call(0, Kind::Validate, 7, 8, Reply::Validated(valid));
        vec![
            load(1, 2, 3, 5),
            store(1, 4, 5, 7, true),
            load(0, 1, 6, 5),
            check,
        ]
    };
    assert!(served(calls(false)));
    assert!(!served(calls(true)));
}

#[test]
fn moments_lie_after_starts_and_not_after_answers() {
    let calls = [load(0, 1, 4, 5), load(1, 2, 3, 5)];
    assert_eq!(moments(&calls, &[0, 1], 2), Some(vec![3, 5]));
    assert_eq!(moments(&calls, &[1, 0], 2), Some(vec![5, 6]));
    let apart = [load(0, 1, 2, 5), load(1, 3, 4, 5)];
    assert_eq!(moments(&apart, &[1, 0], 2), None);
}

#[test]
fn recorded_histories_are_served() {
    for index in 0..5_000 {
        let history = record(&mut Rng::stream(7, index), None);
        let order = served_order(&history).expect("a served order");
        let least = history.calls.len() as u64;
        assert!(moments(&history.calls, &order, least).is_some());
    }
}
