//! Where a fault 10 or 11 stands. The text's end counts as a byte.

use witness::schedule::{parse, Fault};

/// The marker `^` stands before the byte at fault.
fn check(number: u8, marked: &str) {
    let place = marked.find('^').expect("a marked byte");
    let text = marked.replace('^', "");
    assert_eq!(
        parse(text.as_bytes()),
        Err(Fault { number, place }),
        "{marked}"
    );
    // Up to that byte the text could still have become right.
    assert!(can_go_on(&text.as_bytes()[..place]), "{marked}");
}

/// Whether some right text begins so, by a few ways to go on.
fn can_go_on(begin: &[u8]) -> bool {
    const BEGINS: [&str; 8] = ["", "0", " 1 1\n", "1 1\n", " 1\n", "1\n", "\n", "1 1 1\n"];
    const MIDDLES: [&str; 7] = ["", "l", "0l", " 0l", "1", ".", "0"];
    let goes_on = |with: String| parse(&[begin, with.as_bytes()].concat()).is_ok();
    (0..=8).any(|open| {
        let close = ")".repeat(open);
        BEGINS
            .iter()
            .any(|a| MIDDLES.iter().any(|b| goes_on(format!("{a}{b}{close}"))))
    })
}

#[test]
fn in_the_first_line() {
    for marked in [
        "^",
        "2^",
        "2 ^",
        "2 ^ 1 5\n",
        "2 1 5^",
        "2 1 5^ \n",
        "^ 2 1 5\n",
        "2^\n1 5\n",
    ] {
        check(10, marked);
    }
    check(10, "429496729^6 1 5\n");
    check(10, "2 1 5^\r\n");
    check(10, "2 1 0^0429496729\n");
}

#[test]
fn in_items() {
    for items in [
        "0l^0!", "0^ l", "0s^", "0s^ 7", "0s7^(", "^l", "0^", "0l ^)", "^(", "0l^\t",
    ] {
        check(10, &format!("2 1 5\n{items}"));
    }
    check(10, "2 1 5\n0s429496729^60");
    check(10, "2 1 5\n429496729^6(0l)");
    check(10, "2 1 5\n0l 0!^\0");
}

#[test]
fn in_groups() {
    for items in [
        "0^(0l)", "256^(0l)", "1(^)", "1( \n^)", "1(0l^", "1(0l ^", "1(0l)^1l", "1^ (0l)",
    ] {
        check(10, &format!("2 1 5\n{items}"));
    }
    check(10, "2 1 5\n1(0l)^)");
    check(10, "2 1 5\n4294967295^(0l)");
}

/// At the digit after it, whatever stands further right.
#[test]
fn at_a_leading_zero() {
    for first in [
        "0^2 1 5\n",
        "2 0^1 5\n",
        "2 1 0^5\n",
        "0^0 0 0\n",
        "0 0 0^0\n",
    ] {
        check(10, first);
    }
    for items in [
        "0^0",
        "0^0l",
        "0^1(0l)",
        "0^07(0.)",
        "1(0^1.)",
        "1s0^0",
        "0s0^7 x",
        "0^4294967296",
        "0s0^00000000000000000000",
    ] {
        check(10, &format!("2 1 5\n{items}"));
    }
    // A zero alone is a number, and stops where one would.
    for items in ["0^", "0^ 0 0", "0^(0l)", "0s0^("] {
        check(10, &format!("2 1 5\n{items}"));
    }
}

#[test]
fn at_the_ninth_bracket() {
    let eight = format!("2 1 5\n{}", "1(".repeat(8));
    check(11, &format!("{eight}1^("));
    check(11, &format!("{eight}255^(x"));
    check(10, &format!("{eight}0^("));
    check(10, &format!("{eight}256^("));
    check(10, &format!("{eight}0l 1^"));
    check(10, &format!("2 1 5\n0l^0 {}", "1(".repeat(9)));
}

#[test]
fn right_ones() {
    for text in [
        "2 1 5\n",
        "2 1 5\n \n",
        "2 1 4294967295\n\n0l\n",
        "0 0 0\n0l 0s0 10. 100(0.) 1s1000",
        "9 9 9\n255( 1(0l\n)\n) 0s1",
    ] {
        assert!(parse(text.as_bytes()).is_ok(), "{text}");
    }
    let eight = format!("2 1 5\n{}0l{}", "1(".repeat(8), ")".repeat(8));
    assert!(parse(eight.as_bytes()).is_ok());
    assert!(parse(b"2 1 5\n4294967295l 4294967295s4294967295").is_ok());
}
