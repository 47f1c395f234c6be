//! BUF: words without links, read and written half by half.

use super::access::{Act, Links, Place, Seen, Values};
use super::half::Half;

#[derive(Clone, PartialEq, Eq, Debug)]
pub struct Buffers(Vec<Vec<u64>>);

impl Buffers {
    /// All words 0 but those of buffer 0.
    pub fn new(number: usize, value: &[u64]) -> Buffers {
        let mut buffers = vec![vec![0; value.len()]; number];
        buffers[0].copy_from_slice(value);
        Buffers(buffers)
    }

    pub fn each(&self) -> impl Iterator<Item = &Vec<u64>> {
        self.0.iter()
    }

    pub fn word(&self, buffer: usize, word: usize) -> &u64 {
        &self.0[buffer][word]
    }

    pub fn word_mut(&mut self, buffer: usize, word: usize) -> &mut u64 {
        &mut self.0[buffer][word]
    }

    pub fn read(&self, buffer: usize, (word, half): (usize, Half), seen: &mut Seen) -> u32 {
        let bits = half.of(self.0[buffer][word]);
        let act = Act::Read(Values::Half(bits));
        seen.note(Place::HalfWord(buffer, word, half), act, Links::Untouched);
        bits
    }

    pub fn write(
        &mut self,
        buffer: usize,
        (word, half): (usize, Half),
        bits: u32,
        seen: &mut Seen,
    ) {
        half.put(&mut self.0[buffer][word], bits);
        let act = Act::Write(Values::Half(bits));
        seen.note(Place::HalfWord(buffer, word, half), act, Links::Untouched);
    }
}
