//! Case A and the bench runs B to N of document 01, over half moves (02, CR 4).

mod common;
use common::listing;
use witness::schedule::listing_of;

const FIRST: &str = "2 1 5\n";

fn check(schedule: &str, expected: &str) {
    assert_eq!(listing(&format!("{FIRST}{schedule}")), expected);
}

#[test]
fn case_a_whole() {
    let text = "2 1 5\n0l 0! 0s7 0! 1l 1! 0v 0!\n";
    let expected = "0 L 10 5\n0 S 6 1\n1 L 10 7\n0 V 1 0\nend 31\n";
    assert_eq!(listing_of(text.as_bytes(), None).0, expected.as_bytes());
}

#[test]
fn run_b() {
    check(
        "0l 2(0.) 1l 1! 1s7 1! 0! 0v 0!",
        "1 L 10 5 / 1 S 8 1 / 0 L 13 7 / 0 V 1 1 / end 36",
    );
}

#[test]
fn run_c() {
    check(
        "0l 2(0.) 1l 1! 1s7 1! 6(0.) 1l 1! 1s9 1! 0! 0v 0!",
        "1 L 10 5 / 1 S 8 1 / 1 L 10 7 / 1 S 8 1 / 0 L 15 5 / 0 V 1 0 / end 58",
    );
}

#[test]
fn run_d() {
    let expected = "0 L 10 5 / 0 S 6 1 / 0 S 6 0 / end 25";
    assert_eq!(listing("1 1 5\n0l 0! 0s6 0! 0s7 0!"), expected);
}

#[test]
fn run_e() {
    check(
        "0l 0! 1l 1! 0s6 0! 1s7 1!",
        "0 L 10 5 / 1 L 10 5 / 0 S 6 1 / 1 S 6 0 / end 36",
    );
}

#[test]
fn run_f() {
    check(
        "0l 0! 0s7 0! 1l 1! 1s9 1!",
        "0 L 10 5 / 0 S 6 1 / 1 L 10 7 / 1 S 8 1 / end 38",
    );
}

#[test]
fn runs_g_to_j() {
    check("0s1", "refused 7 0");
    check("0.", "refused 6 0");
    check("0l 0l", "refused 5 1");
    check("2l", "refused 4 0");
}

#[test]
fn runs_k_to_n() {
    assert_eq!(listing("0 1 5\n"), "refused 1 0");
    assert_eq!(listing("1 65 5\n"), "refused 2 0");
    check("0(0.)", "refused 10 0");
    assert_eq!(listing("16 64 0\n"), "end 0");
}
