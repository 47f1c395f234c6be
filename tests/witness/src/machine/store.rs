//! Lines 12 to 22 of Figure 2, procedure SC. Each function is one access.

use super::command::Reply;
use super::process::{Line, Request, Tag};
use super::step::{After, Step};
use super::tally::note;
use super::wrong::Wrong;

impl Step<'_> {
    pub(super) fn line12(&mut self) -> After {
        let x = self.own().x;
        let differs = self.record.bank[x.sequence].ll(self.p, self.seen) != x.buffer;
        After::either(differs, Line::L12Validate, Line::L14)
    }

    pub(super) fn line12_validate(&mut self) -> After {
        let valid = self.validate_x();
        note(&mut self.tally.line12_validate, valid);
        After::either(valid, Line::L13, Line::L14)
    }

    pub(super) fn line13(&mut self) -> After {
        let x = self.own().x;
        let success = self.record.bank[x.sequence].sc(self.p, x.buffer, self.seen);
        note(&mut self.tally.line13, success);
        After::At(Line::L14)
    }

    pub(super) fn line14(&mut self) -> After {
        let reader = self.process_to_help();
        let request = self.record.help[reader].ll(self.p, self.seen);
        if !request.helpme {
            return After::At(Line::L17);
        }
        self.me.d = request.buffer;
        if self.reads(Wrong::NoCheck14) {
            return After::At(Line::L15);
        }
        After::At(Line::L14Validate)
    }

    pub(super) fn line14_validate(&mut self) -> After {
        let valid = self.validate_x();
        note(&mut self.tally.line14_validate, valid);
        After::either(valid, Line::L15, Line::L17)
    }

    /// Line 15, and line 16 if the help was taken: the two processes
    /// exchange their buffers.
    pub(super) fn line15(&mut self) -> After {
        let reader = self.process_to_help();
        let handed_over = Request {
            helpme: false,
            buffer: self.own().mybuf,
        };
        let success = self.record.help[reader].sc(self.p, handed_over, self.seen);
        if note(&mut self.tally.line15, success) {
            self.own().mybuf = self.me.d;
        }
        After::At(Line::L17)
    }

    pub(super) fn line17(&mut self) -> After {
        let (word, half) = self.me.half_to_move();
        let (bits, into) = (half.of(self.me.offer_area[word]), self.own().mybuf);
        self.record.buf.write(into, (word, half), bits, self.seen);
        After::either(self.was_last_move(), Line::L18, Line::L17)
    }

    pub(super) fn line18(&mut self) -> After {
        let next = self.next_sequence();
        self.me.e = self.record.bank[next].read(self.seen);
        After::At(Line::L19)
    }

    /// Line 19, and lines 20 to 22.
    pub(super) fn line19(&mut self) -> After {
        let new = Tag {
            buffer: self.own().mybuf,
            sequence: self.next_sequence(),
        };
        let success = self.record.x.sc(self.p, new, self.seen);
        if success {
            self.own().mybuf = self.me.e;
        }
        After::Answer(Reply::Stored(success))
    }

    fn process_to_help(&mut self) -> usize {
        self.own().x.sequence % self.n
    }

    fn next_sequence(&mut self) -> usize {
        let range = if self.reads(Wrong::SequenceModN) {
            self.n
        } else {
            2 * self.n
        };
        (self.own().x.sequence + 1) % range
    }
}
