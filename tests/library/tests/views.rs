//! Views of written values: each is the words themselves, where they lie.

use besklaun::{view, Refusal};

#[test]
fn every_success_in_its_place() {
    for w in 1..=64 {
        let value: Vec<u64> = (0..w as u64).collect();
        for count in 0..5 {
            let written: Vec<u64> = (100..100 + (count * w) as u64).collect();
            assert_eq!(at(view(w, &value, &written, 0)), Ok((value.as_ptr(), w)));
            for k in 1..=count {
                let place = written[(k - 1) * w..].as_ptr();
                assert_eq!(at(view(w, &value, &written, k)), Ok((place, w)));
            }
            for k in [count + 1, count + 2, usize::MAX] {
                assert_eq!(view(w, &value, &written, k), Err(Refusal::NoSuchSuccess));
            }
        }
    }
}

/// The place of the first word, and how many there are.
fn at(part: Result<&[u64], Refusal>) -> Result<(*const u64, usize), Refusal> {
    part.map(|words| (words.as_ptr(), words.len()))
}

/// "2, 3, 8, 15", in this order.
#[test]
fn refused_in_order() {
    let none = &[][..];
    for (w, value, written, k, refusal) in [
        (0, none, &[1][..], 9, Refusal::WOutOfRange),
        (65, none, &[1], 9, Refusal::WOutOfRange),
        (usize::MAX, none, &[1], 9, Refusal::WOutOfRange),
        (2, none, &[1], 9, Refusal::TooLittleLent),
        (2, none, &[1, 2], 9, Refusal::ValueNotWWords),
        (2, &[1, 2, 3], &[1, 2], 9, Refusal::ValueNotWWords),
        (2, &[1, 2], &[1, 2], 9, Refusal::NoSuchSuccess),
        (2, &[1, 2], none, 1, Refusal::NoSuchSuccess),
    ] {
        assert_eq!(view(w, value, written, k), Err(refusal));
    }
}
