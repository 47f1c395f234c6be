//! Text runs: the examples, and the separately written program on thousands
//! of texts and rooms. All bytes lent are compared, those after the last
//! line too.

use std::fs;
use std::path::{Path, PathBuf};
use std::thread;

use besklaun::{mark_trace, run_text, run_text_with_report, trace_text, trace_text_with_report};
use besklaun::{Refusal, Sizes, Stop, TextRun};
use witness::commuting::marked;
use witness::rng::Rng;
use witness::schedule::{self as separately, Form, LISTING, TRACE};
use witness::texts::{limit_texts, text};

/// What stands in the bytes lent before a run.
const BEFORE: u8 = 0xa5;

/// Room enough for every example.
const ROOM: usize = 65_536;

type Run = fn(&[u8], &mut [u8]) -> TextRun;

const STYLES: [(Run, &Form); 2] = [(run_text, &LISTING), (trace_text, &TRACE)];

#[test]
fn examples_have_their_listings_and_traces() {
    let listings = examples("listing");
    let traces = examples("trace");
    assert!(listings.len() > 30 && traces.len() > 8);
    for (text, expected) in listings {
        writes(run_text, &text, &expected);
    }
    for (text, expected) in traces {
        writes(trace_text, &text, &expected);
    }
}

/// Every text of examples/ that has a file of this ending beside it.
fn examples(ending: &str) -> Vec<(Vec<u8>, Vec<u8>)> {
    let folder = Path::new(env!("CARGO_MANIFEST_DIR")).join("../../examples");
    let files = fs::read_dir(folder)
        .unwrap()
        .map(|file| file.unwrap().path());
    let texts = files.filter(|path| path.extension().is_some_and(|end| end == "txt"));
    let beside = texts.map(|text| (text.with_extension(ending), text));
    let there = beside.filter(|(expected, _)| expected.exists());
    there
        .map(|(expected, text)| (read(text), read(expected)))
        .collect()
}

fn read(path: PathBuf) -> Vec<u8> {
    fs::read(path).unwrap()
}

fn writes(run: Run, text: &[u8], expected: &[u8]) {
    let mut lent = vec![BEFORE; ROOM];
    let ran = run(text, &mut lent);
    assert_eq!(&lent[..ran.written], expected);
    assert!(lent[ran.written..].iter().all(|byte| *byte == BEFORE));
    let last = String::from_utf8(expected.to_vec()).unwrap();
    let last: Vec<&str> = last.lines().last().unwrap().split(' ').collect();
    let (number, entries) = match last[..] {
        ["end", entries] => ("0", entries),
        ["refused", number, entries] => (number, entries),
        _ => panic!("another last line: {last:?}"),
    };
    assert_eq!(ran.number().to_string(), number);
    assert_eq!(ran.entries.to_string(), entries);
}

/// "A refusal 14 at the start writes nothing."
#[test]
fn too_little_room() {
    for ((run, form), least) in STYLES.iter().zip([744, 872]) {
        for room in [0, 1, least - 1] {
            let mut lent = vec![BEFORE; room];
            let expected = TextRun {
                outcome: Err(Refusal::NoRoom),
                entries: 0,
                written: 0,
            };
            assert_eq!(run(b"2 1 5\n", &mut lent), expected);
            assert!(lent.iter().all(|byte| *byte == BEFORE));
        }
        let mut lent = vec![BEFORE; least];
        let expected = TextRun {
            outcome: Ok(()),
            entries: 0,
            written: 6,
        };
        assert_eq!(run(b"2 1 5\n", &mut lent), expected);
        assert_eq!(&lent[..7], b"end 0\n\xa5");
        alike(*run, form, b"2 1 5\n0l 0! 0l 0!\n", least);
    }
}

#[test]
fn as_the_separately_written_program() {
    let limits = limit_texts();
    let rng = &mut Rng::stream(11, 0);
    for index in 0..3000 {
        let text = text(11, index, &limits);
        let room = match rng.below(4) {
            0 => rng.between(700, 900),
            1 => rng.between(744, 6000),
            _ => ROOM,
        };
        for (run, form) in STYLES {
            alike(run, form, &text, room);
        }
    }
}

#[test]
fn any_bytes() {
    for byte in 0..=255 {
        for text in [vec![byte], [b"2 1 5\n0l 0! ", &[byte][..]].concat()] {
            alike(run_text, &LISTING, &text, ROOM);
        }
    }
    let rng = &mut Rng::stream(12, 0);
    for length in (0..300).chain([16_384, 16_385, 100_000]) {
        let text: Vec<u8> = (0..length).map(|_| rng.bits() as u8).collect();
        alike(run_text, &LISTING, &text, ROOM);
    }
    alike(run_text, &LISTING, &[], ROOM);
}

/// The number, the entries, the count and every byte lent are the same.
fn alike(run: Run, form: &Form, text: &[u8], room: usize) {
    let mut lent = vec![BEFORE; room];
    let mut expected = lent.clone();
    let ran = run(text, &mut lent);
    let (outcome, _) = separately::run_text(text, form, &mut expected, None);
    let shown = text.escape_ascii();
    assert_eq!(ran.number(), outcome.number, "{shown}");
    assert_eq!(ran.entries as u64, outcome.entries, "{shown}");
    assert_eq!(ran.written, outcome.written, "{shown}");
    assert!(lent == expected, "{shown}");
}

/// Where it stopped: at the fault that the separately written reader finds;
/// or at an item before which the text comes to its end, and with which it
/// is refused alike.
#[test]
fn stops_where_it_is_refused() {
    let limits = limit_texts();
    let mut seen = [0; 4];
    for index in 0..3000 {
        let text = text(13, index, &limits);
        let shown = text.escape_ascii();
        let mut lent = vec![BEFORE; ROOM];
        let (run, stop) = run_text_with_report(&text, &mut lent);
        assert_eq!(run, run_text(&text, &mut lent), "{shown}");
        let mut trace = vec![BEFORE; 10 * ROOM];
        let (traced, at) = trace_text_with_report(&text, &mut trace);
        if run.outcome != Err(Refusal::NoRoom) && traced.outcome != Err(Refusal::NoRoom) {
            assert_eq!((traced.outcome, at), (run.outcome, stop), "{shown}");
        }
        seen[kind(stop)] += 1;
        stops(&text, run, stop);
    }
    assert!(seen.iter().all(|count| *count > 0), "{seen:?}");
}

fn kind(stop: Stop) -> usize {
    match stop {
        Stop::NotRead => 0,
        Stop::AtFault(_) => 1,
        Stop::AtNoItem(_) => 2,
        Stop::AtItem(..) => 3,
    }
}

fn stops(text: &[u8], run: TextRun, stop: Stop) {
    let shown = text.escape_ascii();
    if text.len() > separately::TEXT_LIMIT {
        assert_eq!(stop, Stop::NotRead, "{shown}");
        return;
    }
    let read = match separately::parse(text) {
        Err(fault) => {
            assert_eq!(stop, Stop::AtFault(fault.place), "{shown}");
            return;
        }
        Ok(read) => read,
    };
    let Sizes { n, w } = match stop {
        Stop::AtNoItem(sizes) | Stop::AtItem(sizes, _) => sizes,
        _ => panic!("{stop:?}: {shown}"),
    };
    assert_eq!((n, w), (read.n, read.w), "{shown}");
    let Stop::AtItem(_, item) = stop else {
        assert!(run.number() < 4, "{shown}");
        return;
    };
    let (before, rest) = text.split_at(item.place);
    let digits = rest.iter().take_while(|byte| byte.is_ascii_digit()).count();
    let process = String::from_utf8_lossy(&rest[..digits]).parse::<u64>();
    assert_eq!(process.unwrap().min(16), item.process, "{shown}");
    // behind a group that is open the text before the item is no text
    if separately::parse(before).is_ok() {
        let length = rest
            .iter()
            .position(|byte| b" \n".contains(byte))
            .unwrap_or(rest.len());
        let (end, _) = separately::run_text(before, &LISTING, &mut vec![0; ROOM], None);
        assert_eq!(end.number, 0, "{shown}");
        let with = &text[..item.place + length];
        let (again, _) = separately::run_text(with, &LISTING, &mut vec![0; ROOM], None);
        assert_eq!(
            (again.number, again.entries),
            (run.number(), run.entries as u64),
            "{shown}"
        );
    }
}

/// The marks of traces, into rooms that suffice and into others.
#[test]
fn marks_of_traces() {
    let limits = limit_texts();
    let rng = &mut Rng::stream(40, 0);
    let mut marks = 0;
    for index in 0..600 {
        let text = text(40, index, &limits);
        let mut trace = vec![0; 10 * ROOM];
        let ran = trace_text(&text, &mut trace);
        trace.truncate(ran.written);
        let shown = String::from_utf8(trace.clone()).unwrap();
        let expected = marked(&shown).unwrap().into_bytes();
        marks += expected.iter().filter(|byte| **byte == b'~').count();
        assert!(expected.len() <= 3 * trace.len());
        for room in [expected.len() + 9, rng.below(expected.len() + 1)] {
            let mut lent = vec![BEFORE; room];
            assert_eq!(mark_trace(&trace, &mut lent), expected.len());
            let fits = room.min(expected.len());
            assert!(lent[..fits] == expected[..fits]);
            assert!(lent[fits..].iter().all(|byte| *byte == BEFORE));
        }
    }
    assert!(marks > 10_000, "{marks}");
    assert_eq!(mark_trace(&[], &mut []), 0);
    assert_eq!(mark_trace(b"\n\n", &mut []), 6);
}

/// The stack that besklaun.h names, in several threads at once.
#[test]
fn stack_and_threads() {
    let both = [
        (run_text as Run, examples("listing")),
        (trace_text, examples("trace")),
    ];
    thread::scope(|scope| {
        for (run, examples) in both.iter().chain(&both) {
            let small = thread::Builder::new().stack_size(640 * 1024);
            let begun = small.spawn_scoped(scope, move || {
                for (text, expected) in examples {
                    writes(*run, text, expected);
                }
            });
            begun.unwrap();
        }
    });
}
