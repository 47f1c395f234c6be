//! The limits of a text run and the order of its checks.

mod common;
use common::listing;
use witness::schedule::{run_text, LISTING};
use witness::texts::repeat;

fn last_line(text: &str) -> String {
    let listing = listing(text);
    listing
        .rsplit(" / ")
        .next()
        .expect("a last line")
        .to_string()
}

#[test]
fn length_before_notation() {
    let blanks = |text: &str, length: usize| text.to_string() + &" ".repeat(length - text.len());
    assert_eq!(listing(&blanks("2 1 5\n", 16_384)), "end 0");
    assert_eq!(listing(&blanks("2 1 5\n", 16_385)), "refused 12 0");
    assert_eq!(listing(&blanks("x", 16_384)), "refused 10 0");
    assert_eq!(listing(&blanks("x", 16_385)), "refused 12 0");
}

#[test]
fn notation_before_n_and_w() {
    assert_eq!(listing("0 1 5\nx"), "refused 10 0");
    assert_eq!(listing("0 0 5\n0."), "refused 1 0");
    assert_eq!(listing("17 1 5\n"), "refused 1 0");
    assert_eq!(listing("4294967295 4294967295 5\n"), "refused 1 0");
    assert_eq!(listing("1 4294967295 5\n"), "refused 2 0");
    assert_eq!(
        listing(&format!("0 1 5\n{}", "1(".repeat(9))),
        "refused 11 0"
    );
}

#[test]
fn entries_in_row_order() {
    assert_eq!(listing("2 1 5\n4294967295!"), "refused 4 0");
    assert_eq!(listing("2 1 5\n2v"), "refused 4 0");
    assert_eq!(listing("2 1 5\n0!"), "refused 6 0");
    assert_eq!(listing("2 1 5\n0l 0s1"), "refused 5 1");
    assert_eq!(listing("2 1 5\n0l 0! 1v"), "0 L 10 5 / refused 7 11");
    assert_eq!(listing("2 1 5\n0l 10(0.) 0!"), "0 L 10 5 / refused 6 11");
    let many = "1 L 10 5 / ".repeat(255) + "refused 5 2806";
    assert_eq!(listing("2 1 5\n0l 255(255(1l 1!) 0l)"), many);
}

#[test]
fn sixty_thousand_entries() {
    let most = format!("1 64 5\n{} 0l 35(0.)", repeat("0l 0!", 228));
    assert_eq!(last_line(&most), "end 60000");
    for more in ["0.", "0!", "0l", "9l"] {
        assert_eq!(last_line(&format!("{most} {more}")), "refused 12 60000");
    }
    let deep = format!("1 1 5\n{}0l 0!{}", "255(".repeat(8), ")".repeat(8));
    assert_eq!(last_line(&deep), "refused 12 60000");
}

#[test]
fn room_of_744_bytes() {
    // A line of 16 bytes and 8,097 of 8: 744 bytes are left.
    let edge = format!("1 1 55555555\n0l 0! {}", repeat("0v 0!", 8097));
    assert_eq!(last_line(&edge), "end 16205");
    assert_eq!(last_line(&format!("{edge} 0v")), "end 16206");
    assert_eq!(last_line(&format!("{edge} 0v 0!")), "end 16207");
    assert_eq!(last_line(&format!("{edge} 0v 0! 0v")), "refused 14 16207");
    assert_eq!(last_line(&format!("{edge} 0.")), "refused 6 16205");
    let past = edge.replacen(" 55555555\n", " 555555555\n", 1);
    assert_eq!(last_line(&past), "end 16205");
    for more in ["0v", "0.", "9l"] {
        assert_eq!(last_line(&format!("{past} {more}")), "refused 14 16205");
    }
}

/// Entry 60,000 itself takes the room: 12 comes before 14.
#[test]
fn entries_before_room() {
    let text = |steps: usize, end: &str| {
        let lines = format!("{} 0s1000 0! 76(0l 0!)", repeat("0l 0!", 151));
        format!("2 64 555\n1l {steps}(1.) {lines}{end}")
    };
    assert_eq!(last_line(&text(165, "")), "end 60000");
    assert_eq!(last_line(&text(165, " 0v")), "refused 12 60000");
    assert_eq!(last_line(&text(164, " 0v")), "refused 14 59999");
    assert_eq!(last_line(&text(166, "")), "refused 12 60000");
}

/// Number, entries done and bytes written, with this much listing lent.
fn run(room: usize, text: &str) -> (u8, u64, usize) {
    let mut lent = vec![b'#'; room];
    let (outcome, _) = run_text(text.as_bytes(), &LISTING, &mut lent, None);
    let rest = &lent[outcome.written..];
    assert!(
        rest.iter().all(|byte| *byte == b'#'),
        "bytes after the last line stay"
    );
    (outcome.number, outcome.entries, outcome.written)
}

#[test]
fn small_listings() {
    assert_eq!(run(743, "2 1 5\n"), (14, 0, 0));
    assert_eq!(run(0, "x"), (14, 0, 0));
    assert_eq!(run(743, &" ".repeat(16_385)), (14, 0, 0));
    assert_eq!(run(744, "2 1 5\n"), (0, 0, 6));
    assert_eq!(run(744, "2 1 5\n0l 0!"), (0, 11, 16));
    assert_eq!(run(744, "2 1 5\n0l 0! 0v"), (14, 11, 23));
    assert_eq!(run(744, "x"), (10, 0, 13));
}
