//! Texts at the limits of numbers and counts, and small points of notation.

pub fn texts() -> Vec<Vec<u8>> {
    let mut texts = Vec::new();
    for number in NUMBERS {
        texts.extend(with_number(number));
    }
    for schedule in SCHEDULES {
        texts.push(format!("2 1 5\n{schedule}").into_bytes());
    }
    texts.extend(FIRST_LINES.iter().map(|text| text.to_vec()));
    texts
}

const NUMBERS: [&str; 24] = [
    "0",
    "1",
    "2",
    "10",
    "16",
    "17",
    "64",
    "65",
    "255",
    "256",
    "4294967295",
    "4294967296",
    "42949672950",
    "18446744073709551617",
    "00000000000000000000000000000000001",
    // A zero at each place of a number, and zeros alone.
    "012",
    "102",
    "120",
    "00",
    "000",
    "01",
    "010",
    "100",
    "04294967296",
];

/// The number in each place where a number may stand.
fn with_number(number: &str) -> Vec<Vec<u8>> {
    let texts = [
        format!("{number} 1 5\n0l 0!"),
        format!("1 {number} 5\n0l 0!"),
        format!("1 1 {number}\n0l 0!"),
        format!("1 1 5\n{number}l {number}!"),
        format!("1 1 5\n{number}v"),
        format!("1 1 5\n{number}."),
        format!("1 1 5\n{number}s1"),
        format!("1 1 5\n1({number}l)"),
        format!("1 1 5\n0l 0! 0s{number} 0! 0l 0!"),
        format!("1 1 5\n{number}(0l 0!)"),
        format!("1 1 5\n{number}"),
    ];
    texts.map(String::into_bytes).to_vec()
}

const SCHEDULES: [&str; 44] = [
    "",
    " ",
    "\n",
    " \n \n ",
    "0l 0!",
    " 0l 0!",
    "\n0l\n0!\n",
    "0l  0!",
    "0l0!",
    "0l,0!",
    "0 l",
    "0s",
    "0s 7",
    "0sx",
    "0l 0! 0s7(0l)",
    "l",
    "0",
    "0x",
    "0L",
    "-1l",
    "+1l",
    "1 l",
    "()",
    "1()",
    "1( )",
    "1(\n)",
    "1(0l",
    "1(0l ",
    "1(0l 0!",
    "0l)",
    ")",
    "1(0l))",
    "1(0l 0!)1(0l)",
    "1(0l 0!)0l",
    "1(0l 0!) 0l",
    "1(1(0l 0!)1(0l 0!))",
    "1(1(0l 0!) 1(0l 0!))",
    "1 (0l)",
    "1( 0l\n0! )",
    "0l\t0!",
    "0l 0!\r\n",
    "0l 0!\0",
    "0l 0! 1v",
    "0! 0l",
];

const FIRST_LINES: [&[u8]; 22] = [
    b"",
    b"\n",
    b"2",
    b"2 ",
    b"2 1",
    b"2 1 ",
    b"2 1 5",
    b"2 1 5 \n",
    b"2 1 5 6\n",
    b" 2 1 5\n",
    b"2  1 5\n",
    b"2 1  5\n",
    b"2\n1 5\n",
    b"2 1\n",
    b"2 1 5\r\n",
    b"\xef\xbb\xbf2 1 5\n",
    b"2 1 5\n\0",
    b"\0",
    b"2 1 x\n",
    b"02 001 0005\n00l 00! 00s007 00!",
    b"16 64 0\n",
    b"2,1,5\n",
];
