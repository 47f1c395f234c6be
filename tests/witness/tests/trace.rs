//! Traces worked out by hand from Figure 2 and document 01. `2 1 5` has the
//! buffers 4 of process 0 and 5 of process 1, and X = (0, 0).

use witness::schedule::{run_text, trace_of, TRACE};
use witness::texts::repeat;

fn trace(text: &str) -> String {
    String::from_utf8(trace_of(text.as_bytes(), None)).expect("a trace is plain text")
}

fn check(schedule: &str, parts: &[&str]) {
    assert_eq!(trace(&format!("2 1 5\n{schedule}")), parts.concat());
}

fn last_line(text: &str) -> String {
    let trace = trace(text);
    trace.lines().last().expect("a last line").to_string()
}

/// The lines of the format text, and on to the end of the SC.
const CASE_A_BEGINS: &str = "\
1 0 start L
2 0 1 Help[0] write 1 4 links cleared
3 0 2 X LL 0 0 link set
4 0 3 BUF[0][0] low read 5
5 0 3 BUF[0][0] high read 0
6 0 4 Help[0] LL 1 4 link set
7 0 8 Help[0] LL 1 4 link set
8 0 9 Help[0] SC 0 4 true links cleared
9 0 10 Help[0] read 0 4
10 0 11 BUF[4][0] low write 5
11 0 11 BUF[4][0] high write 0 answers 0 L 10 5
12 0 start S 7
13 0 12 Bank[0] LL 0 link set
14 0 14 Help[0] LL 0 4 link set
15 0 17 BUF[4][0] low write 7
16 0 17 BUF[4][0] high write 0
17 0 18 Bank[1] read 1
18 0 19 X SC 4 1 true links cleared answers 0 S 6 1
";

/// Process 1 reads what process 0 wrote.
const CASE_A_READS: &str = "\
19 1 start L
20 1 1 Help[1] write 1 5 links cleared
21 1 2 X LL 4 1 link set
22 1 3 BUF[4][0] low read 7
23 1 3 BUF[4][0] high read 0
24 1 4 Help[1] LL 1 5 link set
25 1 8 Help[1] LL 1 5 link set
26 1 9 Help[1] SC 0 5 true links cleared
27 1 10 Help[1] read 0 5
28 1 11 BUF[5][0] low write 7
29 1 11 BUF[5][0] high write 0 answers 1 L 10 7
";

#[test]
fn case_a() {
    let ends = "\
30 0 start V
31 0 23 X VL false answers 0 V 1 0
end 31
";
    check(
        "0l 0! 0s7 0! 1l 1! 0v 0!",
        &[CASE_A_BEGINS, CASE_A_READS, ends],
    );
}

/// Reader 0 stops before line 3. Process 1 sees its request, hands it
/// buffer 5 (line 15), takes buffer 4 for it and writes 7 there.
const HELP_BEFORE_LINE_3: &str = "\
1 0 start L
2 0 1 Help[0] write 1 4 links cleared
3 0 2 X LL 0 0 link set
4 1 start L
5 1 1 Help[1] write 1 5 links cleared
6 1 2 X LL 0 0 link set
7 1 3 BUF[0][0] low read 5
8 1 3 BUF[0][0] high read 0
9 1 4 Help[1] LL 1 5 link set
10 1 8 Help[1] LL 1 5 link set
11 1 9 Help[1] SC 0 5 true links cleared
12 1 10 Help[1] read 0 5
13 1 11 BUF[5][0] low write 5
14 1 11 BUF[5][0] high write 0 answers 1 L 10 5
15 1 start S 7
16 1 12 Bank[0] LL 0 link set
17 1 14 Help[0] LL 1 4 link set
18 1 14 X VL true
19 1 15 Help[0] SC 0 5 true links cleared
20 1 17 BUF[4][0] low write 7
21 1 17 BUF[4][0] high write 0
22 1 18 Bank[1] read 1
23 1 19 X SC 4 1 true links cleared answers 1 S 8 1
24 0 3 BUF[0][0] low read 5
25 0 3 BUF[0][0] high read 0
26 0 4 Help[0] LL 0 5 link set
27 0 5 X LL 4 1 link set
28 0 6 BUF[4][0] low read 7
29 0 6 BUF[4][0] high read 0
";

/// Run B: VL(X) is true, so the words of line 6 stay.
#[test]
fn a_helped_reader() {
    let ends = "\
30 0 7 X VL true
31 0 8 Help[0] LL 0 5 link set
32 0 10 Help[0] read 0 5
33 0 11 BUF[5][0] low write 7
34 0 11 BUF[5][0] high write 0 answers 0 L 13 7
35 0 start V
36 0 23 X VL true answers 0 V 1 1
end 36
";
    check(
        "0l 2(0.) 1l 1! 1s7 1! 0! 0v 0!",
        &[HELP_BEFORE_LINE_3, ends],
    );
}

/// Run C: a second write, which also brings Bank[1] up to date (line 13),
/// comes before line 7; the copy is from BUF[b], b being 5.
#[test]
fn a_helped_reader_takes_the_handed_words() {
    let ends = "\
30 1 start L
31 1 1 Help[1] write 1 1 links cleared
32 1 2 X LL 4 1 link set
33 1 3 BUF[4][0] low read 7
34 1 3 BUF[4][0] high read 0
35 1 4 Help[1] LL 1 1 link set
36 1 8 Help[1] LL 1 1 link set
37 1 9 Help[1] SC 0 1 true links cleared
38 1 10 Help[1] read 0 1
39 1 11 BUF[1][0] low write 7
40 1 11 BUF[1][0] high write 0 answers 1 L 10 7
41 1 start S 9
42 1 12 Bank[1] LL 1 link set
43 1 12 X VL true
44 1 13 Bank[1] SC 4 true links cleared
45 1 14 Help[1] LL 0 1 link set
46 1 17 BUF[1][0] low write 9
47 1 17 BUF[1][0] high write 0
48 1 18 Bank[2] read 2
49 1 19 X SC 1 2 true links cleared answers 1 S 8 1
50 0 7 X VL false
51 0 7 BUF[5][0] low read 5
52 0 7 BUF[5][0] high read 0
53 0 8 Help[0] LL 0 5 link set
54 0 10 Help[0] read 0 5
55 0 11 BUF[5][0] low write 5
56 0 11 BUF[5][0] high write 0 answers 0 L 15 5
57 0 start V
58 0 23 X VL false answers 0 V 1 0
end 58
";
    check(
        "0l 2(0.) 1l 1! 1s7 1! 6(0.) 1l 1! 1s9 1! 0! 0v 0!",
        &[HELP_BEFORE_LINE_3, ends],
    );
}

/// Reader 0 stands at line 9, process 1 at line 15: one of the two SCs on
/// Help[0] will fail.
const BEFORE_LINES_9_AND_15: &str = "\
1 0 start L
2 0 1 Help[0] write 1 4 links cleared
3 0 2 X LL 0 0 link set
4 0 3 BUF[0][0] low read 5
5 0 3 BUF[0][0] high read 0
6 0 4 Help[0] LL 1 4 link set
7 0 8 Help[0] LL 1 4 link set
8 1 start L
9 1 1 Help[1] write 1 5 links cleared
10 1 2 X LL 0 0 link set
11 1 3 BUF[0][0] low read 5
12 1 3 BUF[0][0] high read 0
13 1 4 Help[1] LL 1 5 link set
14 1 8 Help[1] LL 1 5 link set
15 1 9 Help[1] SC 0 5 true links cleared
16 1 10 Help[1] read 0 5
17 1 11 BUF[5][0] low write 5
18 1 11 BUF[5][0] high write 0 answers 1 L 10 5
19 1 start S 7
20 1 12 Bank[0] LL 0 link set
21 1 14 Help[0] LL 1 4 link set
22 1 14 X VL true
";

#[test]
fn line_9_fails_and_line_10_finds_the_handed_buffer() {
    let ends = "\
23 1 15 Help[0] SC 0 5 true links cleared
24 1 17 BUF[4][0] low write 7
25 1 17 BUF[4][0] high write 0
26 1 18 Bank[1] read 1
27 1 19 X SC 4 1 true links cleared answers 1 S 8 1
28 0 9 Help[0] SC 0 4 false
29 0 10 Help[0] read 0 5
30 0 11 BUF[5][0] low write 5
31 0 11 BUF[5][0] high write 0 answers 0 L 10 5
end 31
";
    check("0l 6(0.) 1l 1! 1s7 1! 0!", &[BEFORE_LINES_9_AND_15, ends]);
}

#[test]
fn line_15_fails_and_the_helper_keeps_its_buffer() {
    let ends = "\
23 0 9 Help[0] SC 0 4 true links cleared
24 1 15 Help[0] SC 0 5 false
25 1 17 BUF[5][0] low write 7
26 1 17 BUF[5][0] high write 0
27 1 18 Bank[1] read 1
28 1 19 X SC 5 1 true links cleared answers 1 S 8 1
29 0 10 Help[0] read 0 4
30 0 11 BUF[4][0] low write 5
31 0 11 BUF[4][0] high write 0 answers 0 L 10 5
end 31
";
    check(
        "0l 6(0.) 1l 1! 1s7 3(1.) 0. 1! 0!",
        &[BEFORE_LINES_9_AND_15, ends],
    );
}

/// After case A's beginning and reading process 0 reads again: it got
/// buffer 1 from Bank[1] in line 18. Both have x = (4, 1), Bank[1] is 1.
const BOTH_HAVE_READ: &str = "\
30 0 start L
31 0 1 Help[0] write 1 1 links cleared
32 0 2 X LL 4 1 link set
33 0 3 BUF[4][0] low read 7
34 0 3 BUF[4][0] high read 0
35 0 4 Help[0] LL 1 1 link set
36 0 8 Help[0] LL 1 1 link set
37 0 9 Help[0] SC 0 1 true links cleared
38 0 10 Help[0] read 0 1
39 0 11 BUF[1][0] low write 7
40 0 11 BUF[1][0] high write 0 answers 0 L 10 7
";

#[test]
fn line_13_fails_where_another_did_it() {
    let ends = "\
41 1 start S 8
42 1 12 Bank[1] LL 1 link set
43 1 12 X VL true
44 0 start S 9
45 0 12 Bank[1] LL 1 link set
46 0 12 X VL true
47 0 13 Bank[1] SC 4 true links cleared
48 1 13 Bank[1] SC 4 false
49 0 14 Help[1] LL 0 5 link set
50 0 17 BUF[1][0] low write 9
51 0 17 BUF[1][0] high write 0
52 0 18 Bank[2] read 2
53 0 19 X SC 1 2 true links cleared answers 0 S 8 1
54 1 14 Help[1] LL 0 5 link set
55 1 17 BUF[5][0] low write 8
56 1 17 BUF[5][0] high write 0
57 1 18 Bank[2] read 2
58 1 19 X SC 5 2 false answers 1 S 8 0
end 58
";
    check(
        "0l 0! 0s7 0! 1l 1! 0l 0! 1s8 2(1.) 0s9 3(0.) 1. 0! 1!",
        &[CASE_A_BEGINS, CASE_A_READS, BOTH_HAVE_READ, ends],
    );
}

#[test]
fn line_12_finds_x_changed() {
    let ends = "\
41 1 start S 8
42 1 12 Bank[1] LL 1 link set
43 0 start S 9
44 0 12 Bank[1] LL 1 link set
45 0 12 X VL true
46 0 13 Bank[1] SC 4 true links cleared
47 0 14 Help[1] LL 0 5 link set
48 0 17 BUF[1][0] low write 9
49 0 17 BUF[1][0] high write 0
50 0 18 Bank[2] read 2
51 0 19 X SC 1 2 true links cleared answers 0 S 8 1
52 1 12 X VL false
53 1 14 Help[1] LL 0 5 link set
54 1 17 BUF[5][0] low write 8
55 1 17 BUF[5][0] high write 0
56 1 18 Bank[2] read 2
57 1 19 X SC 5 2 false answers 1 S 7 0
end 57
";
    check(
        "0l 0! 0s7 0! 1l 1! 0l 0! 1s8 1. 0s9 0! 1!",
        &[CASE_A_BEGINS, CASE_A_READS, BOTH_HAVE_READ, ends],
    );
}

/// A second SC of process 1 finds the new request of reader 0, but X has
/// changed by its first. Help[0] is (0, 0) from the set-up until line 1.
#[test]
fn line_14_finds_x_changed() {
    let whole = "\
1 1 start L
2 1 1 Help[1] write 1 5 links cleared
3 1 2 X LL 0 0 link set
4 1 3 BUF[0][0] low read 5
5 1 3 BUF[0][0] high read 0
6 1 4 Help[1] LL 1 5 link set
7 1 8 Help[1] LL 1 5 link set
8 1 9 Help[1] SC 0 5 true links cleared
9 1 10 Help[1] read 0 5
10 1 11 BUF[5][0] low write 5
11 1 11 BUF[5][0] high write 0 answers 1 L 10 5
12 1 start S 7
13 1 12 Bank[0] LL 0 link set
14 1 14 Help[0] LL 0 0 link set
15 1 17 BUF[5][0] low write 7
16 1 17 BUF[5][0] high write 0
17 1 18 Bank[1] read 1
18 1 19 X SC 5 1 true links cleared answers 1 S 6 1
19 0 start L
20 0 1 Help[0] write 1 4 links cleared
21 1 start S 8
22 1 12 Bank[0] LL 0 link set
23 1 14 Help[0] LL 1 4 link set
24 1 14 X VL false
25 1 17 BUF[1][0] low write 8
26 1 17 BUF[1][0] high write 0
27 1 18 Bank[1] read 1
28 1 19 X SC 1 1 false answers 1 S 7 0
end 28
";
    check("1l 1! 1s7 1! 0l 0. 1s8 1!", &[whole]);
}

/// One process, two words: its buffer is 2.
#[test]
fn words_one_by_one_in_halves() {
    let whole = "\
1 0 start L
2 0 1 Help[0] write 1 2 links cleared
3 0 2 X LL 0 0 link set
4 0 3 BUF[0][0] low read 5
5 0 3 BUF[0][0] high read 0
6 0 3 BUF[0][1] low read 5
7 0 3 BUF[0][1] high read 0
8 0 4 Help[0] LL 1 2 link set
9 0 8 Help[0] LL 1 2 link set
10 0 9 Help[0] SC 0 2 true links cleared
11 0 10 Help[0] read 0 2
12 0 11 BUF[2][0] low write 5
13 0 11 BUF[2][0] high write 0
14 0 11 BUF[2][1] low write 5
15 0 11 BUF[2][1] high write 0 answers 0 L 14 5 5
16 0 start S 4294967295
17 0 12 Bank[0] LL 0 link set
18 0 14 Help[0] LL 0 2 link set
19 0 17 BUF[2][0] low write 4294967295
20 0 17 BUF[2][0] high write 0
21 0 17 BUF[2][1] low write 4294967295
22 0 17 BUF[2][1] high write 0
23 0 18 Bank[1] read 1
24 0 19 X SC 2 1 true links cleared answers 0 S 8 1
end 24
";
    assert_eq!(trace("1 2 5\n0l 0! 0s4294967295 0!"), whole);
}

/// Between the halves of a word another process may move.
#[test]
fn a_halt_between_two_halves() {
    let whole = "\
1 0 start L
2 0 1 Help[0] write 1 4 links cleared
3 0 2 X LL 0 0 link set
4 0 3 BUF[0][0] low read 4294967295
5 1 start L
6 1 1 Help[1] write 1 5 links cleared
7 0 3 BUF[0][0] high read 0
8 1 2 X LL 0 0 link set
9 1 3 BUF[0][0] low read 4294967295
10 0 4 Help[0] LL 1 4 link set
end 10
";
    assert_eq!(trace("2 1 4294967295\n0l 3(0.) 1l 1. 0. 2(1.) 0."), whole);
}

#[test]
fn refused_schedules() {
    let begin = "1 0 start L\n2 0 1 Help[0] write 1 4 links cleared\n";
    check("0l 0. 1.", &[begin, "refused 6 2\n"]);
    check("0l 0. 0l 0.", &[begin, "refused 5 2\n"]);
    check("0l 0. 1v", &[begin, "refused 7 2\n"]);
    check("0l 0. 2!", &[begin, "refused 4 2\n"]);
    check("0l 0. x", &["refused 10 0\n"]);
    check(&"1(".repeat(9), &["refused 11 0\n"]);
    assert_eq!(trace(""), "refused 10 0\n");
    assert_eq!(trace("17 1 5\n0l"), "refused 1 0\n");
    assert_eq!(trace("2 0 5\n0l"), "refused 2 0\n");
    assert_eq!(trace(&" ".repeat(16_385)), "refused 12 0\n");
}

#[test]
fn an_empty_schedule() {
    check("", &["end 0\n"]);
    check(" \n ", &["end 0\n"]);
}

/// 12 comes at 60,000 entries; the room is enough for them.
#[test]
fn sixty_thousand_entries() {
    let deep = format!("1 1 5\n{}0l 0!{}", "255(".repeat(8), ")".repeat(8));
    assert_eq!(trace(&deep).lines().count(), 60_001);
    assert_eq!(last_line(&deep), "refused 12 60000");
}

/// Here a listing would be refused with 14 at entry 16,206.
#[test]
fn the_listing_room_is_no_limit() {
    let text = format!("1 1 555555555\n0l 0! {} 0v", repeat("0v 0!", 8097));
    assert_eq!(last_line(&text), "end 16206");
}

/// Number, entries done and bytes written, with this much room lent.
fn run(room: usize, text: &str) -> (u8, u64, usize) {
    let mut lent = vec![b'#'; room];
    let (outcome, _) = run_text(text.as_bytes(), &TRACE, &mut lent, None);
    assert!(lent[outcome.written..].iter().all(|byte| *byte == b'#'));
    (outcome.number, outcome.entries, outcome.written)
}

/// `1 0 start L` has 12 bytes with its line feed, `refused 14 1` has 13.
#[test]
fn room_of_872_bytes() {
    assert_eq!(run(871, "2 1 5\n"), (14, 0, 0));
    assert_eq!(run(871, "x"), (14, 0, 0));
    assert_eq!(run(872, "2 1 5\n"), (0, 0, 6));
    assert_eq!(run(872, "2 1 5\n0l"), (0, 1, 18));
    assert_eq!(run(872, "2 1 5\n0l 9."), (14, 1, 25));
    assert_eq!(run(883, "2 1 5\n0l 1l"), (14, 1, 25));
    assert_eq!(run(884, "2 1 5\n0l 1l"), (0, 2, 30));
}
