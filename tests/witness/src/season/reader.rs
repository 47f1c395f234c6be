//! The reader of a listing of N processes and W words. Its faults stand
//! where `docs/FRACTIONS.md` says: at the first wrong byte, a number out of
//! its range at the byte after it.

use super::Sum;

pub const LISTING_LIMIT: usize = 65_536;

const LARGEST: u64 = 4_294_967_295;

struct Cursor<'a> {
    bytes: &'a [u8],
    at: usize,
}

impl Cursor<'_> {
    fn peek(&self) -> Option<u8> {
        self.bytes.get(self.at).copied()
    }

    fn digit(&self) -> Option<u64> {
        match self.peek() {
            Some(byte @ b'0'..=b'9') => Some(u64::from(byte - b'0')),
            _ => None,
        }
    }

    fn expect(&mut self, byte: u8) -> Result<(), usize> {
        if self.peek() != Some(byte) {
            return Err(self.at);
        }
        self.at += 1;
        Ok(())
    }

    /// "no leading zeros; any count, word, C or E up to 4,294,967,295"
    fn number(&mut self) -> Result<u64, usize> {
        let mut value = self.digit().ok_or(self.at)?;
        self.at += 1;
        while let Some(digit) = self.digit() {
            let more = value * 10 + digit;
            if value == 0 || more > LARGEST {
                return Err(self.at);
            }
            value = more;
            self.at += 1;
        }
        Ok(value)
    }

    fn number_up_to(&mut self, most: u64) -> Result<u64, usize> {
        let value = self.number()?;
        if value > most {
            return Err(self.at);
        }
        Ok(value)
    }

    /// Process, letter, count, and W words or a truth.
    fn answer(&mut self, n: u64, w: u64, sums: &mut [Sum; 16]) -> Result<(), usize> {
        let sum = self.number_up_to(n - 1)? as usize;
        self.expect(b' ')?;
        let letter = self.peek().ok_or(self.at)?;
        if !b"LSV".contains(&letter) {
            return Err(self.at);
        }
        self.at += 1;
        self.expect(b' ')?;
        let count = self.number()?;
        if letter == b'L' {
            for _ in 0..w {
                self.expect(b' ')?;
                self.number()?;
            }
            sums[sum].steps += count;
            sums[sum].lls += 1;
        } else {
            self.expect(b' ')?;
            let truth = self.number_up_to(1)?;
            if letter == b'S' {
                sums[sum].successes += truth;
                sums[sum].scs += 1;
            }
        }
        self.expect(b'\n')
    }

    /// `end E` or `refused C E`, with nothing behind it.
    fn last(&mut self) -> Result<(), usize> {
        let refused = self.peek() != Some(b'e');
        let word: &[u8] = if refused { b"refused " } else { b"end " };
        for byte in word {
            self.expect(*byte)?;
        }
        self.number()?;
        if refused {
            self.expect(b' ')?;
            self.number()?;
        }
        self.expect(b'\n')?;
        if self.at < self.bytes.len() {
            return Err(self.at);
        }
        Ok(())
    }
}

/// Adds the answers of a listing to the sums, which mean nothing where it
/// is wrong.
pub fn read(bytes: &[u8], n: u64, w: u64, sums: &mut [Sum; 16]) -> Result<(), usize> {
    if bytes.len() > LISTING_LIMIT {
        return Err(LISTING_LIMIT);
    }
    let mut cursor = Cursor { bytes, at: 0 };
    while cursor.digit().is_some() {
        cursor.answer(n, w, sums)?;
    }
    cursor.last()
}
