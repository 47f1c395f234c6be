//! The judge on small logs, each worked out from 02's CR 1. N is 2, W is 1,
//! the value 5.

use witness::judge::{judge, read, Fault, Log, Verdict};

fn log(calls: &[[u64; 7]]) -> Log {
    Log {
        n: 2,
        w: 1,
        value: vec![5],
        numbers: calls.concat(),
    }
}

fn said(calls: &[[u64; 7]]) -> Verdict {
    judge(&log(calls))
}

const LL: [u64; 7] = [0, 1, 10, 20, 0, 20, 5];
const SC: [u64; 7] = [0, 2, 30, 40, 1, 40, 7];

#[test]
fn a_history_earns_a_yes_in_any_order_of_its_rows() {
    let late = [1, 1, 35, 60, 0, 50, 7];
    let vl = [0, 3, 50, 60, 0, 60, 0];
    assert_eq!(said(&[LL, SC, late, vl]), Verdict::Yes);
    assert_eq!(said(&[vl, late, SC, LL]), Verdict::Yes);
    assert_eq!(said(&[]), Verdict::Yes);
}

#[test]
fn each_condition_is_looked_at() {
    let no = |calls: &[[u64; 7]]| assert_eq!(said(calls), Verdict::No);
    no(&[LL, [0, 4, 30, 40, 1, 40, 0]]);
    no(&[LL, [0, 0, 30, 40, 1, 40, 0]]);
    no(&[LL, [0, 1, 20, 30, 0, 30, 5]]);
    no(&[[0, 1, 10, 20, 0, 15, 5], [1, 1, 10, 20, 0, 15, 5]]);
    no(&[[0, 1, 10, 20, 0, 10, 5]]);
    no(&[[0, 1, 10, 20, 0, 21, 5]]);
    no(&[[0, 1, 10, 20, 0, 20, 6]]);
    no(&[LL, [0, 2, 30, 40, 0, 40, 7]]);
    no(&[LL, [0, 2, 30, 40, 2, 40, 7]]);
    no(&[LL, SC, [0, 2, 50, 60, 1, 60, 8]]);
    no(&[LL, [1, 3, 30, 40, 0, 40, 0]]);
}

#[test]
fn refusals_come_in_their_order_over_the_whole_log() {
    let backwards = [0, 1, 10, 10, 0, 10, 5];
    let stranger = [2, 1, 10, 20, 0, 20, 5];
    assert_eq!(said(&[backwards]), Verdict::Refused(17));
    assert_eq!(said(&[backwards, stranger]), Verdict::Refused(4));
    let many = vec![backwards; 513];
    assert_eq!(said(&many), Verdict::Refused(16));
    let mut cut = log(&many);
    cut.numbers.pop();
    assert_eq!(judge(&cut), Verdict::Refused(8));
    cut.numbers = vec![0, 1, 10, 20, 0, 20, 5, 2];
    assert_eq!(judge(&cut), Verdict::Refused(4));
    cut.w = 0;
    assert_eq!(judge(&cut), Verdict::Refused(2));
    cut.n = 17;
    assert_eq!(judge(&cut), Verdict::Refused(1));
}

#[test]
fn numbers_are_read_up_to_the_largest() {
    let text = b"2 1\n5 18446744073709551615\n";
    assert_eq!(read(text).map(|log| log.numbers), Ok(vec![u64::MAX]));
    assert_eq!(read(b"2 1 18446744073709551616"), Err(Fault::TooLarge));
    assert_eq!(read(b"2 1 x"), Err(Fault::StrayByte));
    assert_eq!(read(b"2"), Err(Fault::NoSizes));
}
