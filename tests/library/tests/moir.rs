//! Text runs on Moir's bench: the separately written program on thousands of
//! texts, with the rooms for which it counts. All bytes lent are compared,
//! those after the last line too.

use std::thread;

use besklaun::{moir_run_text, moir_run_text_with_report, moir_trace_text};
use besklaun::{moir_trace_text_with_report, Refusal, Sizes, Stop, TextRun};
use witness::moir::{limit_texts, listing_of, text, trace_of};
use witness::schedule::{self as separately, LISTING, TRACE};

/// What stands in the bytes lent before a run.
const BEFORE: u8 = 0xa5;

type Run = fn(&[u8], &mut [u8]) -> TextRun;

/// The bytes lent have the last line and are as they were behind it.
fn writes(run: Run, text: &[u8], room: usize, expected: &[u8]) {
    let mut lent = vec![BEFORE; room];
    let ran = run(text, &mut lent);
    let shown = text.escape_ascii();
    assert!(&lent[..ran.written] == expected, "{shown}");
    let behind = &lent[ran.written..];
    assert!(behind.iter().all(|byte| *byte == BEFORE), "{shown}");
    let last = String::from_utf8_lossy(expected);
    let last = last.lines().last().unwrap();
    let told = match ran.number() {
        0 => format!("end {}", ran.entries),
        number => format!("refused {number} {}", ran.entries),
    };
    assert_eq!(told, last, "{shown}");
}

#[test]
fn as_the_separately_written_program() {
    let limits = limit_texts();
    for index in 0..2000 {
        let text = text(13, index, &limits);
        writes(moir_run_text, &text, LISTING.lent, &listing_of(&text).0);
        if index % 20 == 0 {
            writes(moir_trace_text, &text, TRACE.lent, &trace_of(&text));
        }
    }
}

/// Where it stopped: at the fault that the separately written reader finds;
/// or at an item before which the text comes to its end, and with which it
/// is refused alike.
#[test]
fn stops_where_it_is_refused() {
    let limits = limit_texts();
    let mut items = 0;
    for index in 0..1000 {
        let text = text(41, index, &limits);
        let shown = text.escape_ascii();
        let mut lent = vec![BEFORE; LISTING.lent];
        let (run, stop) = moir_run_text_with_report(&text, &mut lent);
        assert_eq!(run, moir_run_text(&text, &mut lent), "{shown}");
        let mut trace = vec![BEFORE; TRACE.lent];
        let (traced, at) = moir_trace_text_with_report(&text, &mut trace);
        if run.outcome != Err(Refusal::NoRoom) && traced.outcome != Err(Refusal::NoRoom) {
            assert_eq!((traced.outcome, at), (run.outcome, stop), "{shown}");
        }
        items += usize::from(stops(&text, run, stop));
    }
    assert!(items > 100, "{items}");
}

/// Whether it stopped at an item.
fn stops(text: &[u8], run: TextRun, stop: Stop) -> bool {
    let shown = text.escape_ascii();
    if text.len() > separately::TEXT_LIMIT {
        assert_eq!(stop, Stop::NotRead, "{shown}");
        return false;
    }
    let read = match separately::parse(text) {
        Err(fault) => {
            assert_eq!(stop, Stop::AtFault(fault.place), "{shown}");
            return false;
        }
        Ok(read) => read,
    };
    let Sizes { n, w } = match stop {
        Stop::AtNoItem(sizes) | Stop::AtItem(sizes, _) => sizes,
        _ => panic!("{stop:?}: {shown}"),
    };
    assert_eq!((n, w), (read.n, read.w), "{shown}");
    let Stop::AtItem(_, item) = stop else {
        assert!(run.number() < 4, "{shown}");
        return false;
    };
    let (before, rest) = text.split_at(item.place);
    // behind a group that is open the text before the item is no text
    if separately::parse(before).is_ok() {
        let space = |byte: &u8| b" \n".contains(byte);
        let length = rest.iter().position(space).unwrap_or(rest.len());
        assert!(last_line(before).starts_with("end "), "{shown}");
        let with = last_line(&text[..item.place + length]);
        let told = format!("refused {} {}", run.number(), run.entries);
        assert_eq!(with, told, "{shown}");
    }
    true
}

fn last_line(text: &[u8]) -> String {
    let listing = String::from_utf8(listing_of(text).0).unwrap();
    listing.lines().last().unwrap().to_owned()
}

/// "A refusal 14 at the start writes nothing."
#[test]
fn too_little_room() {
    for (run, least) in [(moir_run_text as Run, 744), (moir_trace_text, 872)] {
        for room in [0, 1, least - 1] {
            let mut lent = vec![BEFORE; room];
            let expected = TextRun {
                outcome: Err(Refusal::NoRoom),
                entries: 0,
                written: 0,
            };
            assert_eq!(run(b"2 1 5\n", &mut lent), expected);
            assert!(lent.iter().all(|byte| *byte == BEFORE));
        }
        writes(run, b"2 1 5\n", least, b"end 0\n");
    }
}

/// The stack that besklaun.h names, in several threads at once.
#[test]
fn stack_and_threads() {
    let text = &text(13, 1, &limit_texts());
    let listing = &listing_of(text).0;
    let trace = &trace_of(text);
    thread::scope(|scope| {
        for _ in 0..2 {
            let runs = [
                (moir_run_text as Run, LISTING.lent, listing),
                (moir_trace_text, TRACE.lent, trace),
            ];
            for (run, room, expected) in runs {
                let small = thread::Builder::new().stack_size(128 * 1024);
                let begun = small.spawn_scoped(scope, move || writes(run, text, room, expected));
                begun.unwrap();
            }
        }
    });
}
