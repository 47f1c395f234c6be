//! When two commands may change places (02, CR 13), by its sentences.

use witness::commuting::{
    entries_of, may_change_places, neighbours, survey, swaps, touches_of_trace, Item, Obstacle,
    Survey, Touch,
};
use witness::machine::{Bench, Half, Order, Place};
use witness::rng::Rng;
use witness::schedule::trace_of;
use witness::station::{small_list, Command, List};
use witness::texts;

fn touch(process: u64, record: usize, place: Place, only_looks: bool) -> Touch {
    let item = Some(Item {
        record,
        place,
        only_looks,
    });
    Touch { process, item }
}

fn may(one: &Touch, other: &Touch) -> bool {
    let (forth, back) = (may_change_places(one, other), may_change_places(other, one));
    assert_eq!(forth.is_ok(), back.is_ok());
    forth.is_ok()
}

#[test]
fn items_in_common() {
    let (looks, alters) = (true, false);
    let x = |process, looks| touch(process, 0, Place::X, looks);
    assert!(may(&x(0, looks), &x(1, looks)));
    assert!(!may(&x(0, looks), &x(1, alters)));
    assert!(!may(&x(0, alters), &x(1, alters)));
    assert_eq!(
        may_change_places(&x(0, looks), &x(0, looks)),
        Err(Obstacle::SameProcess)
    );
    let other_record = touch(1, 1, Place::X, alters);
    assert!(may(&x(0, alters), &other_record));
    let half = |process, word, half| touch(process, 0, Place::HalfWord(3, word, half), alters);
    assert!(may(&half(0, 0, Half::Low), &half(1, 0, Half::High)));
    assert!(may(&half(0, 0, Half::Low), &half(1, 1, Half::Low)));
    assert!(!may(&half(0, 0, Half::Low), &half(1, 0, Half::Low)));
    let place = |process, place| touch(process, 0, place, alters);
    assert!(may(&place(0, Place::Help(0)), &place(1, Place::Help(1))));
    assert!(may(&place(0, Place::Help(0)), &place(1, Place::Bank(0))));
    let start = Touch {
        process: 1,
        item: None,
    };
    assert!(may(&x(0, alters), &start));
    assert!(may(
        &start,
        &Touch {
            process: 2,
            ..start
        }
    ));
    assert!(!may(&start, &start));
}

/// Case A's lines, and what they touch, worked out by hand.
#[test]
fn neighbours_by_hand() {
    let trace = "\
1 0 start L
2 1 start L
3 0 1 Help[0] write 1 4 links cleared
4 1 1 Help[1] write 1 5 links cleared
5 0 2 X LL 0 0 link set
6 1 2 X LL 0 0 link set
7 0 3 BUF[0][0] low read 5
8 1 3 BUF[0][0] low read 5
9 0 3 BUF[0][0] high read 0
10 1 17 BUF[0][0] high write 7
11 0 19 X SC 4 1 false answers 0 S 6 0
12 1 23 X VL true answers 1 V 1 1
13 1 start V
14 0 start S 7
end 14
";
    let expected = "\
1 2 yes
2 3 yes
3 4 yes
4 5 yes
5 6 yes
6 7 yes
7 8 yes
8 9 yes
9 10 no BUF[0][0] high
10 11 yes
11 12 no X
12 13 no same process
13 14 yes
10 of 13
";
    assert_eq!(neighbours(trace).as_deref(), Ok(expected));
    assert_eq!(neighbours("refused 10 0\n").as_deref(), Ok("0 of 0\n"));
    assert!(neighbours("1 0 start L\n").is_err());
}

/// What a text's entries touch, in the machine itself.
fn touches_of_text(text: &[u8]) -> Vec<Touch> {
    let Some((mut bench, commands)) = entries_of(text) else {
        return Vec::new();
    };
    let touch = |command: &Command| {
        let done = bench.command(command.process, &command.order);
        done.expect("an accepted command");
        Touch::of_last(&bench, command.process)
    };
    commands.iter().map(touch).collect()
}

/// A trace says of each entry what the machine says of it.
#[test]
fn a_trace_tells_the_items() {
    let mut entries = 0;
    for index in 0..600 {
        let text = texts::text(7, index, &[]);
        let trace = String::from_utf8(trace_of(&text, None)).expect("a trace is plain text");
        let touches = touches_of_trace(&trace).expect("a trace");
        // the room of a trace may end it before the text ends
        assert!(touches_of_text(&text).starts_with(&touches));
        entries += touches.len();
    }
    assert!(entries > 20_000, "{entries}");
}

/// The neighbours of random texts, by the trace and in both orders.
#[test]
fn neighbours_of_texts_in_both_orders() {
    let (mut may, mut may_not) = (0, 0);
    for index in 0..300 {
        let text = texts::text(8, index, &[]);
        let Some((bench, commands)) = entries_of(&text) else {
            continue;
        };
        if commands.len() > 2_000 || bench.processes().len() > 4 {
            continue;
        }
        let (lines, right) = swaps(bench, &commands);
        assert!(right, "{lines}");
        let trace = String::from_utf8(trace_of(&text, None)).expect("a trace is plain text");
        let told = neighbours(&trace).expect("a trace");
        for (one, other) in told.lines().zip(lines.lines()) {
            assert!(other.starts_with(one), "{one}, {other}");
        }
        may += lines.matches("yes same").count();
        may_not += lines.matches("differs").count();
    }
    assert!(may > 1_000 && may_not > 0, "{may} {may_not}");
}

/// Pairs that may change places come to the same in both orders. Some pairs
/// that may not do so too: a failed SC, say.
#[test]
fn both_orders_come_to_the_same() {
    let mut sums = Survey::default();
    for index in 0..200 {
        sums.add(&survey(&small_list(9, index)).expect("the same in both orders"));
    }
    assert!(sums.with_a_start > 10_000, "{sums:?}");
    assert!(sums.apart > 10_000, "{sums:?}");
    assert!(sums.both_look > 1_000, "{sums:?}");
    assert!(sums.in_common > sums.in_common_but_same, "{sums:?}");
    assert!(sums.in_common_but_same > 0, "{sums:?}");
}

fn states(list: &List, visit: &mut impl FnMut(&Bench)) {
    let mut bench = list.set_up.carried_out().expect("a right set-up");
    for command in &list.commands {
        visit(&bench);
        let _ = bench.command_on(command.process, command.record, &command.order);
    }
}

/// "such a step alters no other item": with its item and its own process put
/// in place, the memory before it is the memory after it.
#[test]
fn a_step_alters_one_item() {
    for index in 0..60 {
        states(&small_list(10, index), &mut |bench| {
            for p in (0..bench.processes().len()).filter(|p| !bench.is_idle(*p)) {
                let mut after = bench.clone();
                after.command(p as u64, &Order::Step).expect("a step");
                let item = Touch::of_last(&after, p as u64)
                    .item
                    .expect("a step has one");
                let mut rebuilt = bench.clone();
                rebuilt.transplant(&after, p, item.record, item.place);
                assert!(rebuilt.same_memory(&after));
                if item.only_looks {
                    let content = |bench: &Bench| bench.records()[item.record].item(item.place).0;
                    assert_eq!(content(bench), content(&after));
                }
            }
        });
    }
}

/// "its answer and what it leaves depend on N, W, that item and its own
/// process alone": the step gives the same in another station of the same
/// sizes, where all else is from another run.
#[test]
fn a_step_depends_on_one_item() {
    let rng = &mut Rng::stream(11, 0);
    let mut tried = 0;
    for index in 0..60 {
        let here = small_list(11, index);
        let mut others = Vec::new();
        let mut elsewhere = here.clone();
        elsewhere.commands = other_commands(&here, index);
        states(&elsewhere, &mut |bench| others.push(bench.clone()));
        states(&here, &mut |bench| {
            for p in (0..bench.processes().len()).filter(|p| !bench.is_idle(*p)) {
                let mut other = others[rng.below(others.len())].clone();
                let mut after = bench.clone();
                let answer = after.command(p as u64, &Order::Step);
                let item = Touch::of_last(&after, p as u64)
                    .item
                    .expect("a step has one");
                other.transplant(bench, p, item.record, item.place);
                assert_eq!(other.command(p as u64, &Order::Step), answer);
                assert_eq!(other.processes()[p], after.processes()[p]);
                let left = |bench: &Bench| bench.records()[item.record].item(item.place);
                assert_eq!(left(&other), left(&after));
                tried += 1;
            }
        });
    }
    assert!(tried > 10_000, "{tried}");
}

/// The same commands, by other processes.
fn other_commands(list: &List, index: u64) -> Vec<Command> {
    let n = list.set_up.sizes.n;
    let mut commands = list.commands.clone();
    for command in &mut commands {
        command.process = (command.process.wrapping_add(1 + index)) % n;
    }
    commands
}
