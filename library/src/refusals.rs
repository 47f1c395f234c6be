//! Why an entry refuses: the rows of the refusal table (docs/NOTATION.md), by
//! name. The numbers are those of the proved crates and of `besklaun.h`.

use std::error::Error;
use std::fmt;

/// The table: each row's name, number and words, said once.
macro_rules! table {
    ($($name:ident = $number:literal, $words:literal;)*) => {
        /// A row of the refusal table, with its number.
        #[derive(Clone, Copy, PartialEq, Eq, Hash, Debug)]
        #[non_exhaustive]
        #[repr(u8)]
        pub enum Refusal {
            $(#[doc = $words] $name = $number,)*
        }

        impl Refusal {
            /// Every row, by number. Rows 13 and 29 and on are given to nothing.
            pub const ALL: &'static [Refusal] = &[$(Refusal::$name),*];

            fn words(self) -> &'static str {
                match self {
                    $(Refusal::$name => $words,)*
                }
            }
        }
    };
}

table! {
    NOutOfRange = 1, "N is not 1 to 16";
    WOutOfRange = 2, "W is not 1 to 64";
    TooLittleLent = 3, "too little memory is lent, or the list is no whole number of values";
    NoSuchProcess = 4, "the process is not below N";
    StartAtBusy = 5, "a start at a process that has an open call";
    StepAtIdle = 6, "a step at a process that has no open call";
    NeverLinked = 7, "an SC or VL where no LL of the process was ever answered";
    ValueNotWWords = 8, "a value that has not W words";
    NumberOutOfRange = 9, "a number of the lent memory is out of its range";
    TextBroken = 10, "the text breaks the notation";
    TooDeep = 11, "the text opens a ninth group";
    TooMuch = 12, "the text has more than 16,384 bytes, or more than 60,000 commands";
    NoRoom = 14, "there is no room for another line";
    NoSuchSuccess = 15, "a success that is not in the list";
    TooManyCalls = 16, "more than 512 calls";
    AnswerNotAfterStart = 17, "a call that is answered no later than it starts";
    NoListing = 18, "the bytes are no listing";
    SeasonFull = 19, "4,096 listings are taken";
    TooManyTurns = 20, "more than 32 turns of a process";
    NoSuchNumber = 21, "no schedule has this number";
    NotASchedule = 22, "the turns are of no such schedule, or of another process than 0 and 1";
    ROutOfRange = 23, "R is not 1 to 8";
    NoSuchRecord = 24, "the record is not below R";
    BadTrailer = 25, "the file has no right trailer, or more than 16,777,216 bytes";
    BadRecord = 26, "the file has a bad record, or a tick that falls";
    ProcessInBoth = 27, "a process is in both files";
    TooLittleRoom = 28, "too little room for the merged file, or it would have more than 16,777,216 bytes";
}

impl Refusal {
    /// The number that the table gives it.
    pub fn number(self) -> u8 {
        self as u8
    }
}

impl fmt::Display for Refusal {
    fn fmt(&self, to: &mut fmt::Formatter) -> fmt::Result {
        write!(to, "refused {}: {}", self.number(), self.words())
    }
}

impl Error for Refusal {}

/// A number that no row of the table has.
#[derive(Clone, Copy, PartialEq, Eq, Debug)]
pub struct NoRefusal(pub u8);

impl fmt::Display for NoRefusal {
    fn fmt(&self, to: &mut fmt::Formatter) -> fmt::Result {
        write!(to, "no refusal has the number {}", self.0)
    }
}

impl Error for NoRefusal {}

impl TryFrom<u8> for Refusal {
    type Error = NoRefusal;

    fn try_from(number: u8) -> Result<Refusal, NoRefusal> {
        let mut rows = Refusal::ALL.iter();
        let row = rows.find(|row| row.number() == number);
        row.copied().ok_or(NoRefusal(number))
    }
}

/// The number that the library gives an outcome, 0 for none.
pub(crate) fn number_of(outcome: Result<(), Refusal>) -> u8 {
    outcome.map_or_else(Refusal::number, |()| 0)
}

/// What the library answers by a number, 0 for none. It has no other numbers
/// than those of the table, by the definitions that it is proved against.
pub(crate) fn outcome(number: u8) -> Result<(), Refusal> {
    match number {
        0 => Ok(()),
        _ => Err(Refusal::try_from(number).expect("a row of the table")),
    }
}
