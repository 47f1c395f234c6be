//! A station of several records (02, CR 10), by its sentences.

use witness::machine::{Bench, Lent, Order, Sizes};
use witness::station::{limit_lists, list, memory, replies, List};

fn sizes(n: u64, w: u64, r: u64) -> Sizes {
    Sizes { n, w, r }
}

fn set_up(sizes: Sizes, processes: u64, words: u64, length: usize) -> u8 {
    let lent = Lent { processes, words };
    Bench::station(sizes, lent, &vec![5; length]).map_or_else(|number| number, |_| 0)
}

/// What `witness station-replies` prints, its lines parted by " / ".
fn answers(text: &str) -> String {
    let list = List::read(text).expect("a list");
    replies(&list).lines.join(" / ")
}

/// The words of a list, its lines parted by " / ".
fn lines(list: &str) -> String {
    list.replace(" / ", "\n") + "\n"
}

/// "The words lent become (3R + 2) × N × W for R records."
#[test]
fn words_lent() {
    assert_eq!(sizes(1, 1, 1).words_needed(), 5);
    assert_eq!(sizes(2, 3, 1).words_needed(), 30);
    assert_eq!(sizes(2, 3, 2).words_needed(), 48);
    assert_eq!(sizes(16, 64, 8).words_needed(), 26_624);
}

#[test]
fn set_up_takes_1_2_23_3_8() {
    assert_eq!(set_up(sizes(2, 3, 2), 2, 48, 3), 0);
    assert_eq!(set_up(sizes(16, 64, 8), 16, 26_624, 64), 0);
    for n in [0, 17, u64::MAX] {
        assert_eq!(set_up(sizes(n, 0, 0), 0, 0, 0), 1);
    }
    for w in [0, 65, u64::MAX] {
        assert_eq!(set_up(sizes(2, w, 0), 0, 0, 0), 2);
    }
    for r in [0, 9, u64::MAX] {
        assert_eq!(set_up(sizes(2, 3, r), 0, 0, 0), 23);
    }
    assert_eq!(set_up(sizes(2, 3, 2), 1, 48, 0), 3);
    assert_eq!(set_up(sizes(2, 3, 2), 2, 47, 0), 3);
    for length in [0, 2, 4] {
        assert_eq!(set_up(sizes(2, 3, 2), 2, 48, length), 8);
    }
}

/// Commands take 4, 24, 8, 5, 6, 7; a step's record is not looked at.
#[test]
fn command_rows() {
    let rows = lines(
        "2 1 2 2 16 1 5 / 2 1 2 0 / 0 1 2 0 / 0 2 2 0 / 0 2 1 0 / 0 2 1 1 6 / 0 3 1 0 / \
         0 0 9 0 / 0 1 1 0 / 0 1 2 0 / 0 1 0 0 / 0 2 0 2 6 6 / 0 2 0 1 6 / 0 0 9 0",
    );
    let expected = "accepted / refused 4 / refused 24 / refused 24 / refused 8 / refused 7 / \
                    refused 7 / refused 6 / accepted / refused 24 / refused 5 / refused 8 / \
                    refused 5 / accepted";
    assert_eq!(answers(&rows), expected);
}

/// 01's case A on record 1, process 1's LL on record 0 in between: it finds
/// the set-up value, and 7 looks at the LLs of each record.
#[test]
fn records_stand_apart() {
    let call = |start: &str, steps: usize, p: usize| format!("{start}{}", step(p).repeat(steps));
    let text = [
        "2 1 2 2 16 1 5\n".to_string(),
        call("0 1 1 0\n", 10, 0),
        call("0 2 1 1 7\n", 6, 0),
        call("1 1 0 0\n", 10, 1),
        "1 3 1 0\n".to_string(),
        call("1 1 1 0\n", 10, 1),
        call("0 3 1 0\n", 1, 0),
        call("1 3 1 0\n", 1, 1),
        call("1 3 0 0\n", 1, 1),
        "0 3 0 0\n".to_string(),
    ];
    let replies = answers(&text.concat());
    let told: Vec<&str> = replies.split(" / ").filter(|r| *r != "accepted").collect();
    let expected = [
        "LL 10 5",
        "SC 1 6",
        "LL 10 5",
        "refused 7",
        "LL 10 7",
        "VL 0 1",
        "VL 1 1",
        "VL 1 1",
        "refused 7",
    ];
    assert_eq!(told, expected);
}

fn step(p: usize) -> String {
    format!("{p} 0 0 0\n")
}

/// The memory of a run worked out by hand. N = 1, W = 1, R = 2: an LL and an
/// SC of 7 on record 1, and then three steps of an LL on record 1.
#[test]
fn memory_by_hand() {
    let words = "1 1 2 1 8 1 5\n0 1 1 0\n".to_string() + &step(0).repeat(10);
    let words = words + "0 2 1 1 7\n" + &step(0).repeat(6) + "0 1 1 0\n" + &step(0).repeat(3);
    let run = replies(&List::read(&words).expect("a list"));
    let told = memory(&run.bench.expect("an accepted set-up"));
    let expected = [
        // record 0 as the set-up left it: X, Bank, Help
        "0 0 0",
        "0 0",
        "1 0",
        "0 0 0",
        // record 1: X names buffer 2 by 1 and is linked; Bank[0] was linked
        // by line 12; line 1 asks with buffer 1, which line 20 took over
        "2 1 1",
        "0 1",
        "1 0",
        "1 1 0",
        // process 0 in line 3 of an LL on record 1, one half read; c = 2 of
        // line 8, e = 1 of line 18
        "1 3 1 3 0 2 0 1",
        "2 0 0 0",
        "1 2 1 1",
        // the buffers of both records, the return area, the offer area
        "5",
        "0",
        "0",
        "5",
        "0",
        "7",
        "7",
        "7",
    ];
    assert_eq!(told, expected);
}

#[test]
fn lists_are_read_as_written() {
    let limits = limit_lists();
    for index in 0..300 {
        let list = list(2, index, &limits);
        assert_eq!(List::read(&list.written()), Ok(list));
    }
}

/// Random lists that are set up, with their numbers.
fn accepted_lists(count: u64) -> impl Iterator<Item = List> {
    (0..count).map(|index| list(5, index, &[]))
}

fn station(list: &List) -> Bench {
    Bench::station(list.set_up.sizes, list.set_up.lent, &list.set_up.value).expect("a right set-up")
}

/// "after a set-up the accepted commands of one record are answered as if
/// its bench stood alone"
#[test]
fn each_record_as_if_alone() {
    for list in accepted_lists(300) {
        let Sizes { n, w, r } = list.set_up.sizes;
        let alone = || Bench::set_up(n, w, &list.set_up.value, None).expect("a right set-up");
        let mut lone: Vec<Bench> = (0..r).map(|_| alone()).collect();
        let mut station = station(&list);
        for command in &list.commands {
            let reply = station.command_on(command.process, command.record, &command.order);
            if reply.is_ok() {
                let record = station.seen().record;
                assert_eq!(lone[record].command(command.process, &command.order), reply);
            }
        }
        for (record, lone) in lone.iter().enumerate() {
            assert_eq!(station.records()[record], lone.records()[0]);
            for (here, there) in station.processes().iter().zip(lone.processes()) {
                assert_eq!(here.sets[record], there.sets[0]);
            }
        }
    }
}

/// "a command on one record leaves the tables, buffers, links and private
/// sets of the others in place"; a refused one leaves all memory.
#[test]
fn other_records_stay() {
    for list in accepted_lists(60) {
        let mut station = station(&list);
        for command in &list.commands {
            let (records, processes) = (station.records().to_vec(), station.processes().to_vec());
            let reply = station.command_on(command.process, command.record, &command.order);
            let touched = reply.is_ok().then_some(station.seen().record);
            if touched.is_none() {
                assert!(processes == station.processes());
            }
            for record in (0..records.len()).filter(|record| Some(*record) != touched) {
                assert!(records[record] == station.records()[record]);
                for (before, after) in processes.iter().zip(station.processes()) {
                    assert_eq!(before.sets[record], after.sets[record]);
                }
            }
        }
    }
}

/// CR 9 record by record: each of the 3N buffer numbers is owned by one
/// process or kept at one place.
#[test]
fn every_buffer_has_one_place() {
    for list in accepted_lists(60) {
        let mut station = station(&list);
        for command in &list.commands {
            let _ = station.command_on(command.process, command.record, &command.order);
            for record in 0..station.records().len() {
                let mut found = owned(&station, record);
                found.extend(kept(&station, record));
                found.sort_unstable();
                assert!(found.into_iter().eq(0..3 * station.processes().len()));
            }
        }
    }
}

/// "the buffer in Help[p], if p has done line 1 but not line 10 of an LL and
/// the flag is 0, else mybuf"
fn owned(station: &Bench, record: usize) -> Vec<usize> {
    let owner = |(p, process): (usize, &witness::machine::Process)| {
        let help = station.records()[record].help()[p].content();
        let asks = process.record == record && (2..=10).contains(&process.line.number());
        match asks && !help.helpme {
            true => help.buffer,
            false => process.sets[record].mybuf,
        }
    };
    station.processes().iter().enumerate().map(owner).collect()
}

/// "Bank[i], but at X's sequence number X's own buffer"
fn kept(station: &Bench, record: usize) -> Vec<usize> {
    let record = &station.records()[record];
    let x = record.x().content();
    let place = |i: usize| match i == x.sequence {
        true => x.buffer,
        false => record.bank()[i].content(),
    };
    (0..record.bank().len()).map(place).collect()
}

/// The record number of the open call is 0 when idle.
#[test]
fn an_idle_process_names_record_0() {
    let mut station = Bench::station(
        sizes(1, 1, 3),
        Lent {
            processes: 1,
            words: 11,
        },
        &[5],
    )
    .expect("a right set-up");
    assert_eq!(station.command_on(0, 2, &Order::Load), Ok(None));
    while !station.is_idle(0) {
        assert_eq!(station.processes()[0].record, 2);
        station.command_on(0, 0, &Order::Step).expect("a step");
    }
    assert_eq!(station.processes()[0].record, 0);
}
