//! All small schedules in order (02, CR 5), by its sentences.

use witness::interleaving::{
    after, answer, every_schedule, interleavings, number_of, questions, schedule_of, turn_list,
    ways, Length, Plan, Question, Table, TurnList, Turned,
};
use witness::machine::{Lent, Order, Sizes};
use witness::rng::Rng;
use witness::station::SetUp;

fn every(a: usize, b: usize) -> Vec<Vec<u8>> {
    let mut all = Vec::new();
    every_schedule(a, b, &mut |turns| all.push(turns.to_vec()));
    all
}

fn wide(turns: &[u8]) -> Vec<u64> {
    turns.iter().map(|turn| u64::from(*turn)).collect()
}

#[test]
fn schedules_by_hand() {
    let expected = [
        [0, 0, 1, 1],
        [0, 1, 0, 1],
        [0, 1, 1, 0],
        [1, 0, 0, 1],
        [1, 0, 1, 0],
        [1, 1, 0, 0],
    ];
    assert_eq!(every(2, 2), expected);
    assert_eq!(every(0, 0), [[0_u8; 0]]);
    assert_eq!(every(3, 0), [[0; 3]]);
    assert_eq!(every(0, 2), [[1; 2]]);
}

/// "each the sum of its two neighbours, with edges of 1"
#[test]
fn ways_to_finish() {
    for k in 0..=32 {
        assert_eq!((ways(k, 0), ways(0, k)), (1, 1));
    }
    for a in 1..=32 {
        for b in 1..=32 {
            assert_eq!(ways(a, b), ways(a - 1, b) + ways(a, b - 1));
        }
    }
    assert_eq!(ways(2, 2), 6);
    assert_eq!(ways(6, 6), 924);
    assert_eq!(ways(32, 32), 1_832_624_140_942_590_534);
}

/// Numbers are places in the list that the recursion makes, and the next is
/// the next there.
#[test]
fn small_schedules_exhausted() {
    for a in 0..=6 {
        for b in 0..=6 {
            let all = every(a, b);
            let (a, b) = (a as u64, b as u64);
            assert!(all.windows(2).all(|two| two[0] < two[1]));
            assert_eq!(all.len() as u128, ways(a, b));
            for (number, turns) in (0..).zip(&all) {
                assert_eq!(schedule_of(a, b, number).as_ref(), Ok(turns));
                assert_eq!(number_of(a, b, &wide(turns)), Ok(number));
                let next = all.get(number as usize + 1).cloned();
                assert_eq!(after(a, b, &wide(turns)), Ok(next));
            }
            assert_eq!(schedule_of(a, b, all.len() as u128), Err(21));
        }
    }
}

/// At both ends and in the middle of the longest ones.
#[test]
fn large_schedules() {
    let rng = &mut Rng::stream(1, 1);
    for _ in 0..500 {
        let (a, b) = (rng.below(33) as u64, rng.pick(&[30, 31, 32]));
        let count = ways(a, b);
        for number in [0, count - 1, u128::from(rng.bits()) % count] {
            let turns = wide(&schedule_of(a, b, number).expect("it is below the count"));
            assert_eq!(number_of(a, b, &turns), Ok(number));
            let next = after(a, b, &turns).expect("a right schedule");
            let numbered = next.map(|next| number_of(a, b, &wide(&next)));
            let expected = (number + 1 < count).then_some(Ok(number + 1));
            assert_eq!(numbered, expected);
        }
    }
    let last = [vec![1; 32], vec![0; 32]].concat();
    assert_eq!(schedule_of(32, 32, ways(32, 32) - 1), Ok(last));
}

#[test]
fn refusals_in_order() {
    for (a, b) in [(33, 0), (0, 33), (u64::MAX, u64::MAX)] {
        assert_eq!(schedule_of(a, b, u128::MAX), Err(20));
        assert_eq!(number_of(a, b, &[2]), Err(20));
        assert_eq!(after(a, b, &[2]), Err(20));
    }
    assert_eq!(schedule_of(1, 1, 2), Err(21));
    for turns in [
        &[][..],
        &[0],
        &[0, 0],
        &[0, 1, 1],
        &[0, 1, 0],
        &[0, 2],
        &[0, 1, 2],
    ] {
        assert_eq!(number_of(1, 1, turns), Err(22));
        assert_eq!(after(1, 1, turns), Err(22));
    }
    assert_eq!(after(1, 1, &[1, 0]), Ok(None));
    assert_eq!(after(0, 0, &[]), Ok(None));
}

#[test]
fn questions_are_read_as_written() {
    for question in questions(1, 500, 3) {
        let line = question.written();
        assert_eq!(Question::read(line.trim_end()), Ok(question));
    }
    let told = |line: &str| answer(&Question::read(line).expect("a question"));
    assert_eq!(told("0 1 2 1"), "3 1 0 1");
    assert_eq!(told("0 0 0 0"), "0");
    assert_eq!(told("1 1 2 3 1 0 1"), "1");
    assert_eq!(told("2 1 2 3 1 0 1"), "3 1 1 0");
    assert_eq!(told("2 1 2 3 1 1 0"), "last");
    assert_eq!(told("1 1 2 3 1 0 2"), "refused 22");
}

fn set_up(n: u64) -> SetUp {
    let sizes = Sizes { n, w: 1, r: 2 };
    SetUp {
        sizes,
        lent: Lent {
            processes: n,
            words: sizes.words_needed(),
        },
        value: vec![5],
    }
}

fn table(n: u64, calls: [Vec<(Order, u64)>; 2]) -> Table {
    let list = TurnList {
        set_up: set_up(n),
        calls,
        turns: vec![],
    };
    list.table().expect("a right set-up")
}

fn left(table: &Table) -> [usize; 2] {
    [table.left[0].len(), table.left[1].len()]
}

/// A start, steps up to the answer, the next start, and passes at the end.
#[test]
fn turns_of_a_list() {
    let mut table = table(2, [vec![(Order::Load, 1), (Order::Validate, 1)], vec![]]);
    assert_eq!(table.turn(0), Turned::Reply(Ok(None)));
    assert_eq!(left(&table), [1, 0]);
    for _ in 0..9 {
        assert_eq!(table.turn(0), Turned::Reply(Ok(None)));
    }
    assert!(matches!(table.turn(0), Turned::Reply(Ok(Some(_)))));
    assert_eq!(left(&table), [1, 0]);
    assert_eq!(table.turn(0), Turned::Reply(Ok(None)));
    assert!(matches!(table.turn(0), Turned::Reply(Ok(Some(_)))));
    let before = table.bench.clone();
    for turn in [0, 1, 0] {
        assert_eq!(table.turn(turn), Turned::Pass);
    }
    assert!(table.bench.same_memory(&before));
}

/// A refused call leaves the list all the same; 22 leaves all calls.
#[test]
fn refused_calls() {
    let calls = vec![
        (Order::Validate, 0),
        (Order::Load, 2),
        (Order::Store(vec![]), 0),
        (Order::Load, 0),
    ];
    let mut table = table(2, [calls, vec![(Order::Load, 0)]]);
    for turn in [2, 3, 255, u64::MAX] {
        assert_eq!(table.turn(turn), Turned::Reply(Err(22)));
        assert_eq!(left(&table), [4, 1]);
    }
    for (number, calls) in [(7, 3), (24, 2), (8, 1)] {
        assert_eq!(table.turn(0), Turned::Reply(Err(number)));
        assert_eq!(left(&table), [calls, 1]);
    }
    assert_eq!(table.turn(0), Turned::Reply(Ok(None)));
}

/// "at N = 1 process 1 counts as idle": its calls are refused with 4 and are
/// gone, and then it passes.
#[test]
fn one_process() {
    let mut table = table(1, [vec![], vec![(Order::Load, 0), (Order::Load, 9)]]);
    for calls in [1, 0] {
        assert_eq!(table.turn(1), Turned::Reply(Err(4)));
        assert_eq!(left(&table), [0, calls]);
    }
    assert_eq!(table.turn(1), Turned::Pass);
    assert_eq!(table.turn(0), Turned::Pass);
}

#[test]
fn lists_of_turns_are_read_as_written() {
    for index in 0..300 {
        let list = turn_list(2, index);
        assert_eq!(TurnList::read(&list.written()), Ok(list));
    }
}

fn plan(length: Length, first: Vec<Order>, second: Vec<Order>) -> Plan {
    let on_record_0 = |orders: Vec<Order>| orders.into_iter().map(|order| (order, 0)).collect();
    Plan {
        set_up: set_up(2),
        length,
        calls: [on_record_0(first), on_record_0(second)],
    }
}

/// An LL is a start and ten steps, a VL without an LL is refused at once: the
/// one turn of process 1 comes at twelve places, once after the answer.
#[test]
fn lists_to_their_end() {
    let plan = plan(Length::ToTheEnd, vec![Order::Load], vec![Order::Validate]);
    let survey = interleavings(&plan).expect("a right set-up");
    assert_eq!(survey.schedules, 12);
    let told: Vec<(String, &str, u64)> = survey
        .listings
        .iter()
        .map(|listing| {
            (
                listing.lines.join(" / "),
                listing.first.as_str(),
                listing.times,
            )
        })
        .collect();
    let expected = [
        ("0 L 10 5 / 1 refused 7".to_string(), "000000000001", 1),
        ("1 refused 7 / 0 L 10 5".to_string(), "000000000010", 11),
    ];
    assert_eq!(told, expected);
}

/// With a and b turns each, every schedule is carried out, passes and all.
#[test]
fn so_many_turns() {
    for (a, b) in [(0, 0), (1, 1), (3, 2), (8, 5)] {
        let plan = plan(Length::Turns(a, b), vec![Order::Load], vec![]);
        let survey = interleavings(&plan).expect("a right set-up");
        assert_eq!(u128::from(survey.schedules), ways(a, b));
        assert_eq!(survey.listings.len(), 1);
    }
}

/// Two processes that have linked race with an SC each. Each takes a start
/// and steps; one of the two SCs succeeds, whatever the order.
#[test]
fn one_of_two_racing_scs_succeeds() {
    let calls = |word| vec![Order::Load, Order::Store(vec![word])];
    let plan = plan(Length::ToTheEnd, calls(7), calls(9));
    let mut table = Table {
        bench: plan.set_up.carried_out().expect("a right set-up"),
        left: plan.calls.clone(),
    };
    for turn in [0, 1] {
        (0..11).for_each(|_| {
            table.turn(turn);
        });
    }
    let survey = witness::interleaving::interleavings_from(table, Length::ToTheEnd);
    assert!(survey.schedules > 3_000);
    for listing in &survey.listings {
        let truths: Vec<&str> = listing
            .lines
            .iter()
            .map(|line| &line[line.len() - 2..])
            .collect();
        assert_eq!(truths, [" 1", " 0"], "{listing:?}");
    }
}
