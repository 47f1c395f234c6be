//! A word of 64 bits goes over the bus in two halves (02, CR 4).

#[derive(Clone, Copy, PartialEq, Eq, Debug)]
pub enum Half {
    Low,
    High,
}

impl Half {
    /// The word and the half that the k-th move of a run is about: word by
    /// word, the low half first.
    pub fn of_move(k: usize) -> (usize, Half) {
        let half = match k % 2 {
            0 => Half::Low,
            _ => Half::High,
        };
        (k / 2, half)
    }

    /// This half of a word.
    pub fn of(self, word: u64) -> u32 {
        (word >> self.lowest_bit()) as u32
    }

    /// Replaces this half of a word; the other half stays.
    pub fn put(self, word: &mut u64, bits: u32) {
        let mask = u64::from(u32::MAX) << self.lowest_bit();
        *word = (*word & !mask) | (u64::from(bits) << self.lowest_bit());
    }

    fn lowest_bit(self) -> u32 {
        match self {
            Half::Low => 0,
            Half::High => 32,
        }
    }
}

#[cfg(test)]
mod tests {
    use super::Half;

    #[test]
    fn word_by_word_and_low_half_first() {
        let moves: Vec<(usize, Half)> = (0..4).map(Half::of_move).collect();
        let both = |word| [(word, Half::Low), (word, Half::High)];
        assert_eq!(moves, [both(0), both(1)].concat());
    }

    #[test]
    fn a_word_is_its_two_halves() {
        let word = 0x0123_4567_89ab_cdef;
        assert_eq!(Half::Low.of(word), 0x89ab_cdef);
        assert_eq!(Half::High.of(word), 0x0123_4567);
        assert_eq!(Half::High.of(u64::MAX), u32::MAX);
    }

    #[test]
    fn the_other_half_stays() {
        let mut word = 0x0123_4567_89ab_cdef;
        Half::Low.put(&mut word, u32::MAX);
        assert_eq!(word, 0x0123_4567_ffff_ffff);
        Half::High.put(&mut word, 0);
        assert_eq!(word, 0xffff_ffff);
    }
}
