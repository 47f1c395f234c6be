//! Words of 2 to the 32nd and more, moved in halves (02, CR 4): a process
//! halts within a word while another writes it. Two processes, one word;
//! process 0 reads, process 1 writes. Values are worked out by hand.

use witness::machine::{Access, Act, Answer, Bench, Half, Order, Place, Reply, Values};

/// The k-th value: its low half is 10k+1, its high half 10k+2.
fn value(k: u64) -> u64 {
    ((10 * k + 2) << 32) | (10 * k + 1)
}

fn bench(value: u64) -> Bench {
    Bench::set_up(2, 1, &[value], None).expect("N and W are in range")
}

fn start(bench: &mut Bench, p: u64, order: Order) {
    assert_eq!(bench.command(p, &order), Ok(None));
}

fn steps(bench: &mut Bench, p: u64, number: usize) {
    for _ in 0..number {
        assert_eq!(bench.command(p, &Order::Step), Ok(None));
    }
}

fn finish(bench: &mut Bench, p: u64) -> Answer {
    loop {
        let answer = bench.command(p, &Order::Step).expect("a busy process");
        if let Some(answer) = answer {
            return answer;
        }
    }
}

fn load(bench: &mut Bench, p: u64) -> Answer {
    start(bench, p, Order::Load);
    finish(bench, p)
}

fn store(bench: &mut Bench, p: u64, word: u64) -> Reply {
    start(bench, p, Order::Store(vec![word]));
    finish(bench, p).reply
}

/// Process 1 writes the values `from` to `to`, one after the other.
fn writes(bench: &mut Bench, from: u64, to: u64) {
    for k in from..=to {
        load(bench, 1);
        assert_eq!(store(bench, 1, value(k)), Reply::Stored(true));
    }
}

/// The access of one step of process 0 that answers nothing.
fn access(bench: &mut Bench) -> Access {
    steps(bench, 0, 1);
    bench.seen().access.expect("a step makes an access")
}

/// Process 0 reads this half of word 0 of buffer 0.
fn reads(bench: &mut Bench, half: Half, bits: u32) {
    let access = access(bench);
    assert_eq!(access.place, Place::HalfWord(0, 0, half));
    assert_eq!(access.act, Act::Read(Values::Half(bits)));
}

fn loaded(process: usize, count: u64, word: u64) -> Answer {
    Answer {
        process,
        count,
        reply: Reply::Loaded(vec![word]),
    }
}

/// Four writes take the buffers 4, 1, 2 and 3, and the writer then owns
/// buffer 0, which the set-up filled and reader 0 still reads.
fn before_buffer_0_is_written(bench: &mut Bench, reader_steps: usize) {
    start(bench, 0, Order::Load);
    steps(bench, 0, reader_steps);
    writes(bench, 1, 4);
}

/// The fifth write comes between the halves of line 3: low half of the
/// set-up value, high half of the fifth. Line 6 reads anew.
#[test]
fn a_reader_halts_within_a_word_of_line_3() {
    let mut bench = bench(value(0));
    before_buffer_0_is_written(&mut bench, 3);
    writes(&mut bench, 5, 5);
    reads(&mut bench, Half::High, 52);
    assert_eq!(finish(&mut bench, 0), loaded(0, 13, value(5)));
}

/// The writer halts within its line 11, which puts 4 into buffer 0.
#[test]
fn a_writer_halts_within_a_word_of_line_11() {
    let mut bench = bench(value(0));
    before_buffer_0_is_written(&mut bench, 2);
    start(&mut bench, 1, Order::Load);
    steps(&mut bench, 1, 9);
    reads(&mut bench, Half::Low, 41);
    reads(&mut bench, Half::High, 2);
    assert_eq!(finish(&mut bench, 0), loaded(0, 13, value(4)));
}

/// The writer halts within its line 17, which puts 5 over 4.
#[test]
fn a_writer_halts_within_a_word_of_line_17() {
    let mut bench = bench(value(0));
    before_buffer_0_is_written(&mut bench, 2);
    load(&mut bench, 1);
    start(&mut bench, 1, Order::Store(vec![value(5)]));
    steps(&mut bench, 1, 5);
    reads(&mut bench, Half::Low, 51);
    reads(&mut bench, Half::High, 42);
    assert_eq!(finish(&mut bench, 0), loaded(0, 13, value(4)));
}

/// A run goes word by word, low half first, and the largest word is whole.
#[test]
fn a_run_of_words() {
    let words = [value(1), u64::MAX];
    let mut bench = Bench::set_up(1, 2, &words, None).expect("N and W are in range");
    start(&mut bench, 0, Order::Load);
    steps(&mut bench, 0, 2);
    let halves = [
        (0, Half::Low, 11),
        (0, Half::High, 12),
        (1, Half::Low, u32::MAX),
        (1, Half::High, u32::MAX),
    ];
    for (word, half, bits) in halves {
        let access = access(&mut bench);
        assert_eq!(access.place, Place::HalfWord(0, word, half));
        assert_eq!(access.act, Act::Read(Values::Half(bits)));
    }
    assert_eq!(finish(&mut bench, 0).reply, Reply::Loaded(words.to_vec()));
}

/// Low half, high half, both or none differ from what the buffer held.
#[test]
fn every_pattern_of_halves() {
    let word = |high: u64, low: u64| (high << 32) | low;
    let most = u64::from(u32::MAX);
    let words = [
        word(6, 5),
        word(6, 7),
        word(8, 5),
        word(0, most),
        word(most, 0),
        word(most, most),
        0,
    ];
    for old in words {
        for new in words {
            let mut bench = bench(old);
            assert_eq!(load(&mut bench, 1), loaded(1, 10, old));
            assert_eq!(store(&mut bench, 1, new), Reply::Stored(true));
            assert_eq!(load(&mut bench, 0), loaded(0, 10, new));
        }
    }
}
