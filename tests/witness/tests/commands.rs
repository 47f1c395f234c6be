//! The refusals of a command, in the order of 02's CR 7: 4, 8, 5, 6, 7.

use witness::machine::{Bench, Order};

const W: usize = 3;

fn bench() -> Bench {
    Bench::set_up(2, W as u64, &[5; W], None).expect("N and W are in range")
}

fn store(words: usize) -> Order {
    Order::Store(vec![6; words])
}

/// The number with which a command is refused.
fn number(bench: &mut Bench, process: u64, order: Order) -> u8 {
    bench.command(process, &order).expect_err("a refusal")
}

/// Any number of words but W is 8, W words are refused with this number.
fn refused(bench: &mut Bench, number_of_w_words: u8) {
    for words in [0, W - 1, W + 1] {
        assert_eq!(number(bench, 1, store(words)), 8);
    }
    assert_eq!(number(bench, 1, store(W)), number_of_w_words);
}

fn start(bench: &mut Bench) {
    assert_eq!(bench.command(1, &Order::Load), Ok(None));
}

fn finish(bench: &mut Bench) {
    while !bench.is_idle(1) {
        bench
            .command(1, &Order::Step)
            .expect("a busy process takes a step");
    }
}

#[test]
fn eight_before_seven_and_five() {
    let mut bench = bench();
    refused(&mut bench, 7);
    start(&mut bench);
    refused(&mut bench, 5);
    finish(&mut bench);
    start(&mut bench);
    refused(&mut bench, 5);
    finish(&mut bench);
    assert_eq!(number(&mut bench, 1, store(W + 1)), 8);
    assert_eq!(bench.command(1, &store(W)), Ok(None));
}

#[test]
fn four_before_eight() {
    let mut bench = bench();
    for words in [0, W - 1, W, W + 1] {
        assert_eq!(number(&mut bench, 2, store(words)), 4);
    }
    assert_eq!(number(&mut bench, u64::MAX, Order::Step), 4);
}

/// A refused start leaves the open call as it was: it still answers.
#[test]
fn a_refusal_changes_nothing() {
    let (mut disturbed, mut quiet) = (bench(), bench());
    start(&mut disturbed);
    start(&mut quiet);
    while !quiet.is_idle(1) {
        refused(&mut disturbed, 5);
        let answer = quiet.command(1, &Order::Step);
        assert_eq!(disturbed.command(1, &Order::Step), answer);
    }
}
