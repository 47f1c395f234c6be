//! Small schedules: every one of up to 6 and 6 turns, and numbers and turns
//! at the limits, as the separately written program says.

use std::collections::BTreeSet;
use std::thread;

use besklaun::{number_for, schedule_after, schedule_for, Refusal};
use witness::interleaving::{answer, every_schedule, questions, ways, Question};

#[test]
fn every_schedule_once_and_in_order() {
    for (a, b) in pairs_up_to(6) {
        let mut number = 0;
        let mut last = None;
        every_schedule(a, b, &mut |turns| {
            assert_eq!(schedule_for(a, b, number).unwrap().turns(), turns);
            assert_eq!(number_for(a, b, turns), Ok(number));
            if let Some(mut before) = last.replace(turns.to_vec()) {
                assert_eq!(schedule_after(a, b, &mut before), Ok(true));
                assert_eq!(before, turns);
            }
            number += 1;
        });
        let mut last = last.unwrap();
        let stays = last.clone();
        assert_eq!(schedule_after(a, b, &mut last), Ok(false));
        assert_eq!(last, stays);
        assert_eq!(schedule_for(a, b, number), Err(Refusal::NoSuchNumber));
        assert_eq!(u128::from(number), ways(a as u64, b as u64));
    }
}

/// The numbers at both ends, whatever a and b are.
#[test]
fn numbers_near_the_largest() {
    for (a, b) in pairs_up_to(32) {
        let count = ways(a as u64, b as u64) as u64;
        for back in 1..=count.min(3) {
            let found = schedule_for(a, b, count - back).unwrap();
            assert_eq!(number_for(a, b, found.turns()), Ok(count - back));
        }
        let first = schedule_for(a, b, 0).unwrap();
        let mut last = first.turns().to_vec();
        last.reverse();
        assert_eq!(schedule_for(a, b, count - 1).unwrap().turns(), last);
        assert_eq!(schedule_for(a, b, count), Err(Refusal::NoSuchNumber));
        assert_eq!(schedule_for(a, b, u64::MAX), Err(Refusal::NoSuchNumber));
    }
}

#[test]
fn refusals_in_their_order() {
    assert_eq!(schedule_for(33, 0, u64::MAX), Err(Refusal::TooManyTurns));
    assert_eq!(schedule_for(0, usize::MAX, 0), Err(Refusal::TooManyTurns));
    assert_eq!(number_for(33, 0, &[2]), Err(Refusal::TooManyTurns));
    assert_eq!(schedule_after(0, 33, &mut [2]), Err(Refusal::TooManyTurns));
    assert_eq!(schedule_for(1, 1, 2), Err(Refusal::NoSuchNumber));
    assert_eq!(number_for(1, 1, &[0, 0]), Err(Refusal::NotASchedule));
    assert_eq!(number_for(1, 1, &[0, 1, 2]), Err(Refusal::NotASchedule));
    assert_eq!(number_for(1, 1, &[0, 1, 1]), Err(Refusal::NotASchedule));
    assert_eq!(number_for(1, 1, &[]), Err(Refusal::NotASchedule));
    let mut turns = [1, 255];
    assert_eq!(schedule_after(1, 1, &mut turns), Err(Refusal::NotASchedule));
    assert_eq!(turns, [1, 255]);
}

#[test]
fn as_the_separately_written_program() {
    let mut seen = BTreeSet::new();
    for question in questions(1, 3000, 6) {
        let said = told(&question);
        assert_eq!(said, answer(&question), "{}", question.written());
        if said.starts_with(|first: char| first.is_ascii_lowercase()) {
            seen.insert(said);
        }
    }
    let all = ["last", "refused 20", "refused 21", "refused 22"];
    assert_eq!(seen, all.map(String::from).into());
}

/// The stack that besklaun.h names.
#[test]
fn stack() {
    let small = thread::Builder::new().stack_size(32 * 1024);
    let next = small.spawn(|| {
        let mut turns = *schedule_for(32, 32, 0)
            .unwrap()
            .turns()
            .first_chunk::<64>()
            .unwrap();
        schedule_after(32, 32, &mut turns)?;
        number_for(32, 32, &turns)
    });
    assert_eq!(next.unwrap().join().unwrap(), Ok(1));
}

fn pairs_up_to(most: usize) -> impl Iterator<Item = (usize, usize)> {
    (0..=most).flat_map(move |a| (0..=most).map(move |b| (a, b)))
}

/// What the library says to a question, as the separately written program
/// writes an answer.
fn told(question: &Question) -> String {
    let said = match question {
        Question::ScheduleOf(a, b, number) => {
            schedule_for(*a as usize, *b as usize, *number).map(|found| listed(found.turns()))
        }
        Question::NumberOf(a, b, turns) => {
            number_for(*a as usize, *b as usize, &bytes(turns)).map(|number| number.to_string())
        }
        Question::After(a, b, turns) => {
            let mut turns = bytes(turns);
            schedule_after(*a as usize, *b as usize, &mut turns).map(|more| match more {
                true => listed(&turns),
                false => "last".to_string(),
            })
        }
    };
    said.unwrap_or_else(|cause: Refusal| format!("refused {}", cause.number()))
}

fn bytes(turns: &[u64]) -> Vec<u8> {
    let byte = |turn: &u64| u8::try_from(*turn).expect("a turn is a byte");
    turns.iter().map(byte).collect()
}

fn listed(turns: &[u8]) -> String {
    let mut words = vec![turns.len().to_string()];
    words.extend(turns.iter().map(u8::to_string));
    words.join(" ")
}
