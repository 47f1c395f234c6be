//! Short schedules that show the five wrong readings of Figure 2, over half
//! moves (02, CR 4): right last lines and wrong ones, worked out by hand.

mod common;
use common::listing_when;
use witness::counterexample::counterexample;
use witness::history::{of_text, record, search, served_order, Found};
use witness::machine::{Reply, Wrong};
use witness::rng::Rng;

fn check(schedule: &str, right_end: &str, wrong: Wrong, wrong_lines: &str) {
    let text = format!("2 1 5\n{schedule}");
    let right = listing_when(&text, None);
    assert!(right.ends_with(right_end), "{right}");
    let torn = listing_when(&text, Some(wrong));
    let answers = torn.rsplit_once(" / ").expect("more than one line").0;
    assert!(answers.ends_with(wrong_lines), "{torn}");
    let found = |wrong| search(&of_text(text.as_bytes(), wrong).unwrap(), 1000);
    assert!(matches!(found(None), Found::Order(_)));
    assert_eq!(found(Some(wrong)), Found::NoOrder);
}

#[test]
fn line_9_a_plain_write() {
    check(
        "0l 6(0.) 1l 1! 1s7 1! 0! 0l 0!",
        "0 L 10 5 / 0 L 10 7 / end 42",
        Wrong::Line9Plain,
        "0 L 10 5 / 0 L 10 5",
    );
}

#[test]
fn line_10_keeps_mybuf() {
    check(
        "0l 5(0.) 1l 1! 1s7 1! 0! 0l 0!",
        "0 L 9 5 / 0 L 10 7 / end 41",
        Wrong::Line10Keeps,
        "0 L 9 5 / 0 L 10 5",
    );
}

#[test]
fn no_vl_in_line_14() {
    check(
        "1l 1! 1s7 1! 0l 0. 1s8 1! 5(0.) 1l 1! 1s9 1! 0!",
        "1 S 8 1 / 0 L 10 7 / end 57",
        Wrong::NoCheck14,
        "1 S 8 1 / 0 L 15 0",
    );
}

#[test]
fn lines_6_and_7_skipped() {
    check(
        "0l 0. 1l 1! 1s7 1! 0! 0v 0!",
        "0 L 13 7 / 0 V 1 1 / end 36",
        Wrong::Skip6And7,
        "0 L 12 5 / 0 V 1 1",
    );
}

#[test]
fn sequence_number_modulo_n() {
    check(
        "1l 1! 1s7 2(1.) 0l 2(0.) 1! 1l 1! 1s8 1! 1s9 4(1.) 0!",
        "1 S 8 1 / 0 L 10 5 / end 54",
        Wrong::SequenceModN,
        "1 S 8 1 / 0 L 10 9",
    );
}

/// The brute-force search of the second witness can fail, and does.
#[test]
fn the_search_catches_each_of_them() {
    for (name, wrong) in Wrong::ALL {
        let torn = |index| served_order(&record(&mut Rng::stream(1, index), Some(wrong))).is_none();
        assert!((0..200_000).any(torn), "{name} was never caught");
    }
}

/// A text found for a reading shows it: the runs end, and an answer differs.
#[test]
fn a_counterexample_is_found_for_each() {
    for (name, wrong) in Wrong::ALL {
        let text = counterexample(1, 200_000, wrong).expect(name);
        let (right, torn) = (listing_when(&text, None), listing_when(&text, Some(wrong)));
        let answers = |listing: &str| listing.rsplit_once(" / end ").expect(name).0.to_string();
        assert_ne!(answers(&right), answers(&torn), "{name}: {text}");
    }
}

/// Steps in a row are one item, and what is not needed is gone.
#[test]
fn a_counterexample_is_short() {
    for (name, wrong) in Wrong::ALL {
        let text = counterexample(1, 200_000, wrong).expect(name);
        assert!(text.len() < 120, "{name}: {text}");
    }
}

/// The order of the calls of a long text is found, and a search is given up
/// where it may look at too little.
#[test]
fn a_long_history() {
    let text = format!("2 1 5\n0l 0! {}", "0v 0! 1l 1! ".repeat(300));
    let history = of_text(text.as_bytes(), None).unwrap();
    assert_eq!(history.calls.len(), 601);
    assert!(matches!(search(&history, 1000), Found::Order(order) if order.len() == 601));
    assert_eq!(search(&history, 600), Found::GivenUp);
}

/// A VL that says true after another's SC has no order, however many calls
/// come before it.
#[test]
fn one_answer_that_is_wrong() {
    let text = format!("2 1 5\n{}0s7 0! 1v 1!", "0l 0! 1l 1! ".repeat(100));
    let mut history = of_text(text.as_bytes(), None).unwrap();
    assert!(matches!(search(&history, 1000), Found::Order(_)));
    let last = history.calls.last_mut().unwrap();
    assert_eq!(last.reply, Reply::Validated(false));
    last.reply = Reply::Validated(true);
    assert_eq!(search(&history, 1000), Found::NoOrder);
}
