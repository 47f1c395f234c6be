//! The generated texts: the same for a seed, and reaching what they are for.

use witness::commands::bench_text;
use witness::machine::Tally;
use witness::schedule::listing_of;
use witness::texts::{limit_texts, text};

#[test]
fn a_seed_names_its_texts() {
    let limits = limit_texts();
    for index in 0..200 {
        assert_eq!(text(3, index, &limits), text(3, index, &limits));
    }
}

#[test]
fn random_texts_reach_every_count() {
    let limits = limit_texts();
    let mut sum = Tally::default();
    for index in (1..4_000).filter(|index| index % 4 != 0) {
        sum.add(&listing_of(&text(1, index, &limits), None).2);
    }
    assert!(
        sum.ll.iter().chain(&sum.sc).all(|times| *times > 0),
        "{sum:?}"
    );
    let pairs = [sum.line7, sum.line9, sum.line13, sum.line15];
    assert!(pairs.concat().iter().all(|times| *times > 0), "{sum:?}");
    assert!(sum.halts.iter().all(|times| *times > 0), "{sum:?}");
    assert_eq!(sum.strange, 0);
}

#[test]
fn bench_texts_end() {
    for kind in [
        "load", "store", "turns", "helped", "flat", "deep", "words", "answers",
    ] {
        for (n, w) in [(2, 1), (3, 3), (16, 64)] {
            let text = bench_text(kind, n, w).expect("a text");
            let (_, outcome, _) = listing_of(text.as_bytes(), None);
            assert_eq!(outcome.number, 0, "{kind} {n} {w}");
        }
    }
}
