//! Milliseconds of the state that the first entries of a text leave, on the
//! texts of tests/benchmark that have the most entries; the least of twenty
//! turns: all of it from the set-up, the copies of `States`, and a state by
//! steps from a copy. Status 1 where such a state takes more than 5 ms.

use std::process::ExitCode;
use std::time::Instant;

use besklaun::{held, States};
use witness::commands::bench_text;

const TURNS: usize = 20;

/// Milliseconds.
const MOST: f64 = 5.0;

fn main() -> ExitCode {
    println!("| N | W | Entries | From the set-up: half of them, ms | All | All copies | From a copy, the most steps |");
    println!("|---|---|---|---|---|---|---|");
    let mut fast = true;
    for (n, w) in [(2, 1), (2, 8), (4, 8), (16, 1), (16, 64)] {
        fast &= row(n, w);
    }
    ExitCode::from(u8::from(!fast))
}

/// One line; whether it is fast enough.
fn row(n: usize, w: usize) -> bool {
    let text = bench_text("turns", n as u64, w as u64).expect("the sizes are right");
    let mut list = vec![0; held::length(n, w, 1)];
    let all = held::after_text(&mut list, text.as_bytes(), usize::MAX).entries;
    let [half, whole] = [all / 2, all].map(|entries| {
        least(|| {
            let said = held::after_text(&mut list, text.as_bytes(), entries);
            assert_eq!(said.entries, entries, "the text has these entries");
        })
    });
    let mut states = None;
    let copies = least(|| states = States::of(text.as_bytes()));
    let states = states.expect("a right text");
    let state = least(|| assert!(states.after(58_999).is_some()));
    println!("| {n} | {w} | {all} | {half:.2} | {whole:.2} | {copies:.1} | {state:.2} |");
    state <= MOST
}

fn least(mut work: impl FnMut()) -> f64 {
    let mut best = f64::MAX;
    for _ in 0..TURNS {
        let began = Instant::now();
        work();
        best = best.min(began.elapsed().as_secs_f64());
    }
    best * 1e3
}
