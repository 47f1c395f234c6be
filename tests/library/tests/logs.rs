//! The judge: the verdicts of docs/JUDGE.md, and those of the separately
//! written judge on thousands of logs.

use std::collections::BTreeSet;
use std::thread;

use besklaun::{judge, judge_with_reason, Object, Reason, Refusal, Verdict};
use witness::judge::{self as separately, bench_log, sample};

/// The log that docs/JUDGE.md shows, of two processes and one word that
/// begins with 5.
const SHOWN: [[u64; 7]; 4] = [
    [0, 1, 1024, 11264, 0, 3072, 5],
    [0, 2, 12288, 18432, 1, 18432, 7],
    [1, 1, 19456, 29696, 0, 21504, 7],
    [0, 3, 30720, 31744, 0, 31744, 0],
];

#[test]
fn verdicts_shown_in_the_document() {
    let judged = |calls: [[u64; 7]; 4]| judge(2, 1, &[5], calls.as_flattened());
    assert_eq!(judged(SHOWN), Verdict::Yes);
    let mut old_value = SHOWN;
    old_value[2][6] = 5;
    assert_eq!(judged(old_value), Verdict::No);
    let mut before_its_start = SHOWN;
    before_its_start[2][5] = 15360;
    assert_eq!(judged(before_its_start), Verdict::No);
    let mut earlier = SHOWN;
    earlier[2] = [1, 1, 11264, 29696, 0, 15360, 5];
    assert_eq!(judged(earlier), Verdict::Yes);
}

#[test]
fn causes_in_the_order_of_the_document() {
    let calls = SHOWN.as_flattened();
    let cut = &calls[..27];
    let mut answered_at_its_start = SHOWN;
    answered_at_its_start[1][3] = 12288;
    assert_eq!(
        judge(0, 0, &[], cut),
        Verdict::Refused(Refusal::NOutOfRange)
    );
    assert_eq!(
        judge(17, 1, &[5], calls),
        Verdict::Refused(Refusal::NOutOfRange)
    );
    assert_eq!(
        judge(usize::MAX, usize::MAX, &[], &[]),
        Verdict::Refused(Refusal::NOutOfRange)
    );
    assert_eq!(
        judge(2, 0, &[], cut),
        Verdict::Refused(Refusal::WOutOfRange)
    );
    assert_eq!(
        judge(2, usize::MAX, &[5], calls),
        Verdict::Refused(Refusal::WOutOfRange)
    );
    assert_eq!(
        judge(1, 1, &[], cut),
        Verdict::Refused(Refusal::NoSuchProcess)
    );
    assert_eq!(
        judge(2, 1, &[], calls),
        Verdict::Refused(Refusal::ValueNotWWords)
    );
    assert_eq!(
        judge(2, 1, &[5, 5], calls),
        Verdict::Refused(Refusal::ValueNotWWords)
    );
    assert_eq!(
        judge(2, 1, &[5], cut),
        Verdict::Refused(Refusal::ValueNotWWords)
    );
    let many = answered_at_its_start.concat().repeat(129);
    assert_eq!(
        judge(2, 1, &[5], &many),
        Verdict::Refused(Refusal::TooManyCalls)
    );
    assert_eq!(
        judge(2, 1, &[5], &many[..3584]),
        Verdict::Refused(Refusal::AnswerNotAfterStart)
    );
}

#[test]
fn empty_slices() {
    assert_eq!(judge(2, 1, &[5], &[]), Verdict::Yes);
    assert_eq!(
        judge(2, 1, &[], &[]),
        Verdict::Refused(Refusal::ValueNotWWords)
    );
}

#[test]
fn as_the_separately_written_judge() {
    let mut seen = BTreeSet::new();
    for index in 0..4000 {
        let sample = sample(7, index);
        let log = &sample.log;
        let expected = separately::judge(log);
        let said = judge(log.n as usize, log.w as usize, &log.value, &log.numbers);
        assert_eq!(
            shown(said),
            expected.to_string(),
            "log {index}: {}",
            sample.what
        );
        seen.insert(shown(said));
    }
    assert_eq!(seen.len(), 8, "verdicts seen: {seen:?}");
}

#[test]
fn reasons() {
    let why = |calls: &[[u64; 7]]| judge_with_reason(2, 1, &[5], calls.as_flattened());
    assert_eq!(why(&SHOWN), (Verdict::Yes, Reason::None));
    let mut old_value = SHOWN;
    old_value[2][6] = 5;
    let object = Object::WordsOf(1);
    let expected = Reason::Answer { call: 2, object };
    assert_eq!(why(&old_value), (Verdict::No, expected));
    let said = "condition 5: call 2: Figure 1's object answers the words of call 1";
    assert_eq!(expected.to_string(), said);
    let mut first = SHOWN;
    first[0][6] = 6;
    let object = Object::Value;
    let expected = Reason::Answer { call: 0, object };
    assert_eq!(why(&first), (Verdict::No, expected));
    let mut linked = SHOWN;
    linked[3][4] = 1;
    let object = Object::Truth(false);
    let expected = Reason::Answer { call: 3, object };
    assert_eq!(why(&linked), (Verdict::No, expected));
    let none = (Verdict::Refused(Refusal::ValueNotWWords), Reason::Value);
    assert_eq!(judge_with_reason(2, 1, &[], &[]), none);
    let huge = judge_with_reason(2, usize::MAX, &[5], SHOWN.as_flattened());
    assert_eq!(huge, (Verdict::Refused(Refusal::WOutOfRange), Reason::None));
}

/// Condition, calls, and what the object answers, on thousands of logs.
#[test]
fn reasons_as_the_separately_written_judge() {
    let mut seen = BTreeSet::new();
    for index in 0..4000 {
        let sample = sample(8, index);
        let log = &sample.log;
        let (verdict, reason) =
            judge_with_reason(log.n as usize, log.w as usize, &log.value, &log.numbers);
        let expected = separately::reason(log);
        let what = format!("log {index}: {}: {reason}", sample.what);
        assert_eq!(shown(verdict), separately::judge(log).to_string(), "{what}");
        assert_eq!(reason.condition(), expected.condition, "{what}");
        assert_eq!(reason.condition() != 0, verdict == Verdict::No, "{what}");
        // the 513th call is told by the number alone
        if verdict != Verdict::Refused(Refusal::TooManyCalls) {
            assert_eq!(calls_of(reason), expected.calls, "{what}");
        }
        assert_eq!(object_of(reason, log), expected.object, "{what}");
        seen.insert(reason.condition());
    }
    assert_eq!(seen.len(), 7, "conditions seen: {seen:?}");
}

fn calls_of(reason: Reason) -> Vec<usize> {
    match reason {
        Reason::None | Reason::Value => vec![],
        Reason::Overlap(a, b) | Reason::Moment(a, b) => vec![a, b],
        Reason::Call(call) | Reason::Kind(call) | Reason::Outside(call) | Reason::NoLl(call) => {
            vec![call]
        }
        Reason::Answer { call, .. } => vec![call],
    }
}

fn object_of(reason: Reason, log: &separately::Log) -> Vec<u64> {
    let Reason::Answer { object, .. } = reason else {
        return vec![];
    };
    match object {
        Object::Value => log.value.clone(),
        Object::WordsOf(call) => {
            let width = 6 + log.w as usize;
            log.numbers[call * width + 6..(call + 1) * width].to_vec()
        }
        Object::Truth(truth) => vec![u64::from(truth)],
    }
}

/// The stack that besklaun.h names.
#[test]
fn stack() {
    let log = bench_log(512, 64);
    let small = thread::Builder::new().stack_size(64 * 1024);
    let judged = small.spawn(move || judge(16, 64, &log.value, &log.numbers));
    assert_eq!(judged.unwrap().join().unwrap(), Verdict::Yes);
    let log = bench_log(512, 64);
    let small = thread::Builder::new().stack_size(64 * 1024);
    let judged = small.spawn(move || judge_with_reason(16, 64, &log.value, &log.numbers));
    let expected = (Verdict::Yes, Reason::None);
    assert_eq!(judged.unwrap().join().unwrap(), expected);
}

fn shown(verdict: Verdict) -> String {
    match verdict {
        Verdict::Yes => "yes".to_string(),
        Verdict::No => "no".to_string(),
        Verdict::Refused(cause) => format!("refused {}", cause.number()),
    }
}
