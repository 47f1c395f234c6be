//! The state that the first entries of a text leave, for each number of
//! entries that is tried, as the separately written program has it: number,
//! entries, all memory, and the item of the entry that is not carried out.

mod held_list;

use std::thread;

use besklaun::held::{self, FirstEntries};
use besklaun::{run_text_with_report, Refusal, States, Stop};
use held_list::seen;
use witness::machine::{Bench, Order};
use witness::rng::Rng;
use witness::schedule::{parse, Item, Schedule, ENTRY_LIMIT, TEXT_LIMIT};
use witness::station::memory;
use witness::texts::{limit_texts, text};

/// What stands in a list before a run.
const BEFORE: u64 = 0x0123_4567_89ab_cdef;

/// More numbers than any text needs.
const LIST: usize = held::length(16, 64, 1) + 1;

/// The separately written program's bench, for so many entries at the most.
struct First {
    bench: Bench,
    words: usize,
    entries: u64,
    most: u64,
    /// The process of the entry that is not carried out.
    process: u64,
}

impl First {
    /// The number of what ends the run, 0 at the text's end.
    fn items(&mut self, items: &[Item]) -> Result<(), u8> {
        items.iter().try_for_each(|item| self.item(item))
    }

    fn item(&mut self, item: &Item) -> Result<(), u8> {
        match item {
            Item::Load(p) => self.entry(*p, &Order::Load).map(|_| ()),
            Item::Validate(p) => self.entry(*p, &Order::Validate).map(|_| ()),
            Item::Step(p) => self.entry(*p, &Order::Step).map(|_| ()),
            Item::Store(p, value) => {
                let words = vec![*value; self.words];
                self.entry(*p, &Order::Store(words)).map(|_| ())
            }
            Item::Finish(p) => {
                while !self.entry(*p, &Order::Step)? {}
                Ok(())
            }
            Item::Group(count, items) => (0..*count).try_for_each(|_| self.items(items)),
        }
    }

    fn entry(&mut self, p: u64, order: &Order) -> Result<bool, u8> {
        self.process = p;
        if self.entries == self.most {
            return Err(12);
        }
        let answer = self.bench.command(p, order)?;
        self.entries += 1;
        Ok(answer.is_some())
    }
}

fn first(schedule: &Schedule, most: u64) -> Result<(u8, First), u8> {
    let words = schedule.w.min(64) as usize;
    let value = vec![schedule.initial; words];
    let bench = Bench::set_up(schedule.n, schedule.w, &value, None)?;
    let most = most.min(ENTRY_LIMIT);
    let (entries, process) = (0, 0);
    let mut run = First {
        bench,
        words,
        entries,
        most,
        process,
    };
    let number = run.items(&schedule.items).err().unwrap_or(0);
    Ok((number, run))
}

#[test]
fn as_the_separately_written_program() {
    let limits = limit_texts();
    let rng = &mut Rng::stream(35, 0);
    let (mut states, mut refused) = (0, 0);
    for index in 0..1_500 {
        let text = text(35, index, &limits);
        let read = match parse(&text) {
            _ if text.len() > TEXT_LIMIT => Err(12),
            Err(fault) => Err(fault.number),
            Ok(read) => first(&read, ENTRY_LIMIT).map(|(_, whole)| (read, whole.entries)),
        };
        match read {
            Err(number) => {
                before_the_set_up(&text, number);
                refused += 1;
            }
            Ok((read, all)) => {
                let drawn = [(); 2].map(|()| rng.below(all as usize + 1) as u64);
                for most in drawn.into_iter().chain([0, 1, all, all + 1, u64::MAX]) {
                    state(&text, &read, most);
                    states += 1;
                }
            }
        }
    }
    assert!(states > 5_000 && refused > 100, "{states} {refused}");
}

/// A refusal before the set-up leaves every number.
fn before_the_set_up(text: &[u8], number: u8) {
    let mut list = vec![BEFORE; LIST];
    let said = held::after_text(&mut list, text, 7);
    let shown = text.escape_ascii();
    assert_eq!(
        said.outcome.map_err(Refusal::number),
        Err(number),
        "{shown}"
    );
    assert_eq!(said.entries, 0, "{shown}");
    let (_, stop) = run_text_with_report(text, &mut [0; 744]);
    assert_eq!(said.stop, stop, "{shown}");
    assert!(list.iter().all(|number| *number == BEFORE), "{shown}");
}

fn state(text: &[u8], read: &Schedule, most: u64) {
    let (number, expected) = first(read, most).expect("a set-up");
    let mut list = vec![BEFORE; LIST];
    let said = held::after_text(&mut list, text, most as usize);
    let shown = format!("{most} of {}", text.escape_ascii());
    let said_number = said.outcome.map_or_else(Refusal::number, |()| 0);
    assert_eq!(said_number, number, "{shown}");
    assert_eq!(said.entries as u64, expected.entries, "{shown}");
    assert_eq!(seen(&list), memory(&expected.bench), "{shown}");
    assert_eq!(list.last(), Some(&BEFORE), "{shown}");
    stops(text, said, number, expected.process, &shown);
}

fn stops(text: &[u8], said: FirstEntries, number: u8, process: u64, shown: &str) {
    let Stop::AtItem(_, item) = said.stop else {
        assert!(
            number == 0 && matches!(said.stop, Stop::AtNoItem(_)),
            "{shown}"
        );
        return;
    };
    assert!(number != 0 && item.process == process.min(16), "{shown}");
    let rest = &text[item.place..];
    let digits = rest.iter().take_while(|byte| byte.is_ascii_digit()).count();
    let there = String::from_utf8_lossy(&rest[..digits]).parse();
    assert_eq!(there, Ok(process), "{shown}");
}

/// The states that are reached by steps from a copy are those of the text's
/// first entries.
#[test]
fn from_copies() {
    let limits = limit_texts();
    let rng = &mut Rng::stream(36, 0);
    let mut long = 0;
    for index in 0..400 {
        let text = text(36, index, &limits);
        let Some(states) = States::of(&text) else {
            let said = held::after_text(&mut vec![BEFORE; LIST], &text, 1);
            assert!(said.outcome.is_err() && said.entries == 0);
            continue;
        };
        let all = states.entries();
        long += usize::from(all > 2_000);
        let drawn = [(); 4].map(|()| rng.below(all + 1));
        let copies = [0, 999, 1_000, 1_001, all];
        for entry in drawn
            .into_iter()
            .chain(copies)
            .filter(|entry| *entry <= all)
        {
            let list = states.after(entry).expect("a state");
            let mut alone = vec![0; list.len()];
            let said = held::after_text(&mut alone, &text, entry);
            assert_eq!(said.entries, entry);
            assert!(list == alone, "{entry} of {}", text.escape_ascii());
        }
        assert!(states.after(all + 1).is_none());
    }
    assert!(long > 5, "{long}");
}

/// The item of the next entry, where the list is too short, and the most
/// entries; in the stack that besklaun.h names.
#[test]
fn limits() {
    let small = thread::Builder::new().stack_size(640 * 1024);
    let begun = small.spawn(|| {
        let mut list = vec![BEFORE; held::length(2, 1, 1)];
        let text = b"2 1 5\n0l 0! 0s7 0! 1l 1! 0v 0!\n";
        let said = held::after_text(&mut list, text, 13);
        let Stop::AtItem(_, item) = said.stop else {
            panic!("{said:?}");
        };
        assert_eq!((said.outcome, said.entries), (Err(Refusal::TooMuch), 13));
        assert_eq!(&text[item.place..][..2], b"0!");
        assert_eq!(list[held::call_place(0)], 14);
        let mut short = vec![BEFORE; held::length(2, 1, 1) - 1];
        let said = held::after_text(&mut short, text, 13);
        assert_eq!(said.outcome, Err(Refusal::TooLittleLent));
        assert!(short.iter().all(|number| *number == BEFORE));
        let said = held::after_text(&mut [], text, 0);
        assert_eq!(said.outcome, Err(Refusal::TooLittleLent));
    });
    begun.unwrap().join().unwrap();
}
