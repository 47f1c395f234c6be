//! Nanoseconds of a text run through the library and of the separately
//! written one, in one process, on the same short texts: what a call costs
//! before it does much. The least of many rounds counts; a round is shorter
//! than a process's turn of its processor, so that other work on the machine
//! disturbs few of them. Status 1 where the library takes more than twice the
//! time of the other.

mod texts;

use std::hint::black_box;
use std::process::ExitCode;
use std::time::Instant;

use texts::{short_texts, Text};
use witness::schedule::{self, Form, LISTING, TRACE};

/// Rounds of each run, and about how many nanoseconds a round takes.
const ROUNDS: usize = 2000;
const ROUND: f64 = 40_000.0;

/// The most that the library may take, in times of the other's.
const MOST: f64 = 2.0;

/// A way to write a run down, and the library's function for it.
struct Style {
    name: &'static str,
    form: &'static Form,
    proved: fn(&[u8], &mut [u8]) -> besklaun::TextRun,
}

/// Number, entries and bytes written.
type Told = (u8, u64, usize);

fn main() -> ExitCode {
    println!("| Run | Text | N | W | Entries | Library, ns | Witness, ns | Ratio |");
    println!("|---|---|---|---|---|---|---|---|");
    let styles = [
        Style {
            name: "listing",
            form: &LISTING,
            proved: besklaun::run_text,
        },
        Style {
            name: "trace",
            form: &TRACE,
            proved: besklaun::trace_text,
        },
    ];
    let texts = short_texts();
    let mut slow = 0;
    for style in &styles {
        for text in &texts {
            let ratio = row(style, text);
            slow += usize::from(ratio > MOST);
        }
    }
    if slow > 0 {
        eprintln!("texts: {slow} ratios are above {MOST:.1}");
    }
    ExitCode::from(u8::from(slow > 0))
}

/// One line; the ratio of its times.
fn row(style: &Style, text: &Text) -> f64 {
    let bytes = text.bytes.as_bytes();
    let mut lent = vec![0; style.form.lent];
    let mut expected = vec![0; style.form.lent];
    let told = proved(style, bytes, &mut lent);
    let (_, entries, written) = told;
    assert!(
        told == plain(style, bytes, &mut expected),
        "the runs differ"
    );
    assert!(
        lent[..written] == expected[..written],
        "what they write differs"
    );

    let (mut library, mut witness) = (f64::MAX, f64::MAX);
    for _ in 0..ROUNDS {
        let run = || proved(style, black_box(bytes), &mut lent);
        library = library.min(nanoseconds(library, run));
        let run = || plain(style, black_box(bytes), &mut expected);
        witness = witness.min(nanoseconds(witness, run));
    }
    let ratio = library / witness;
    let Text { name, n, w, .. } = text;
    let run = style.name;
    println!(
        "| {run} | {name} | {n} | {w} | {entries} | {library:.0} | {witness:.0} | {ratio:.2} |"
    );
    ratio
}

/// Of a call, in a round of so many calls as the least time so far lets fit
/// into it.
fn nanoseconds(least: f64, mut call: impl FnMut() -> Told) -> f64 {
    let calls = (ROUND / least).ceil();
    let began = Instant::now();
    for _ in 0..calls as usize {
        black_box(call());
    }
    began.elapsed().as_secs_f64() * 1e9 / calls
}

fn proved(style: &Style, text: &[u8], lent: &mut [u8]) -> Told {
    let run = (style.proved)(text, lent);
    (run.number(), run.entries as u64, run.written)
}

fn plain(style: &Style, text: &[u8], lent: &mut [u8]) -> Told {
    let (run, _) = schedule::run_text(text, style.form, lent, None);
    (run.number, run.entries, run.written)
}
