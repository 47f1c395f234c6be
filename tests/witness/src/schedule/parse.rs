//! From text to tree. The reader never looks past the byte it judges, so it
//! stops at the first byte after which no text could be right.

use super::tree::{Item, Schedule};

const LARGEST_NUMBER: u64 = 4_294_967_295;
const LARGEST_COUNT: u64 = 255;
const DEEPEST: usize = 8;

/// Refusal 10 or 11 and the place of its byte; the text's end is a place.
#[derive(Clone, Copy, PartialEq, Eq, Debug)]
pub struct Fault {
    pub number: u8,
    pub place: usize,
}

pub fn parse(text: &[u8]) -> Result<Schedule, Fault> {
    let mut reader = Reader { text, place: 0 };
    let n = reader.number()?;
    reader.exactly(b' ')?;
    let w = reader.number()?;
    reader.exactly(b' ')?;
    let initial = reader.number()?;
    reader.exactly(b'\n')?;
    let items = reader.items(0)?;
    Ok(Schedule {
        n,
        w,
        initial,
        items,
    })
}

struct Reader<'a> {
    text: &'a [u8],
    place: usize,
}

impl Reader<'_> {
    /// The byte to be judged, or None at the text's end.
    fn byte(&self) -> Option<u8> {
        self.text.get(self.place).copied()
    }

    fn fault(&self, number: u8) -> Fault {
        Fault {
            number,
            place: self.place,
        }
    }

    fn exactly(&mut self, wanted: u8) -> Result<(), Fault> {
        if self.byte() != Some(wanted) {
            return Err(self.fault(10));
        }
        self.place += 1;
        Ok(())
    }

    /// At least one digit. The digit after a leading zero is the fault, or
    /// the one that makes the number too large.
    fn number(&mut self) -> Result<u64, Fault> {
        let begin = self.place;
        let mut value = self.digit().ok_or(self.fault(10))?;
        self.place += 1;
        while let Some(digit) = self.digit() {
            value = 10 * value + digit;
            if self.text[begin] == b'0' || value > LARGEST_NUMBER {
                return Err(self.fault(10));
            }
            self.place += 1;
        }
        Ok(value)
    }

    fn digit(&self) -> Option<u64> {
        let byte = self.byte()?;
        byte.is_ascii_digit().then(|| u64::from(byte - b'0'))
    }

    /// Passes over spaces and line feeds; tells whether there was one.
    fn blanks(&mut self) -> bool {
        let begin = self.place;
        while matches!(self.byte(), Some(b' ' | b'\n')) {
            self.place += 1;
        }
        self.place > begin
    }

    /// Items up to the text's end, or up to and with the `)` of the group
    /// whose depth is given. Only the schedule itself may be empty.
    fn items(&mut self, depth: usize) -> Result<Vec<Item>, Fault> {
        let mut items = Vec::new();
        loop {
            let parted = self.blanks() || items.is_empty();
            match self.byte() {
                None if depth == 0 => return Ok(items),
                Some(b')') if depth > 0 && !items.is_empty() => {
                    self.place += 1;
                    return Ok(items);
                }
                Some(b'0'..=b'9') if parted => items.push(self.item(depth)?),
                _ => return Err(self.fault(10)),
            }
        }
    }

    fn item(&mut self, depth: usize) -> Result<Item, Fault> {
        let number = self.number()?;
        let sign = self.byte();
        if sign == Some(b'(') {
            return self.group(number, depth);
        }
        let item = match sign {
            Some(b'l') => Item::Load(number),
            Some(b'v') => Item::Validate(number),
            Some(b'.') => Item::Step(number),
            Some(b'!') => Item::Finish(number),
            Some(b's') => {
                self.place += 1;
                return Ok(Item::Store(number, self.number()?));
            }
            _ => return Err(self.fault(10)),
        };
        self.place += 1;
        Ok(item)
    }

    /// The count is judged here, at the `(`: before it, the number could
    /// still have been a process number. 10 comes before 11.
    fn group(&mut self, count: u64, depth: usize) -> Result<Item, Fault> {
        if !(1..=LARGEST_COUNT).contains(&count) {
            return Err(self.fault(10));
        }
        if depth == DEEPEST {
            return Err(self.fault(11));
        }
        self.place += 1;
        Ok(Item::Group(count, self.items(depth + 1)?))
    }
}
