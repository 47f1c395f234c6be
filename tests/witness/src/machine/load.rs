//! Lines 1 to 11 of Figure 2, procedure LL. Each function is one access.

use super::command::Reply;
use super::process::{Line, Request};
use super::step::{After, Step};
use super::tally::note;
use super::wrong::Wrong;

impl Step<'_> {
    pub(super) fn line1(&mut self) -> After {
        let request = Request {
            helpme: true,
            buffer: self.own().mybuf,
        };
        self.record.help[self.p].write(request, self.seen);
        After::At(Line::L2)
    }

    pub(super) fn line2(&mut self) -> After {
        self.own().x = self.link_x();
        After::At(Line::L3)
    }

    pub(super) fn line3(&mut self) -> After {
        let from = self.own().x.buffer;
        self.read_half(from, Line::L3, Line::L4)
    }

    pub(super) fn line4(&mut self) -> After {
        let request = self.record.help[self.p].ll(self.p, self.seen);
        if request.helpme {
            return After::At(Line::L8);
        }
        self.me.b = request.buffer;
        After::At(Line::L5)
    }

    pub(super) fn line5(&mut self) -> After {
        self.own().x = self.link_x();
        if self.reads(Wrong::Skip6And7) {
            return After::At(Line::L7Copy);
        }
        After::At(Line::L6)
    }

    pub(super) fn line6(&mut self) -> After {
        let from = self.own().x.buffer;
        self.read_half(from, Line::L6, Line::L7Validate)
    }

    pub(super) fn line7_validate(&mut self) -> After {
        let valid = self.validate_x();
        note(&mut self.tally.line7, valid);
        After::either(valid, Line::L8, Line::L7Copy)
    }

    pub(super) fn line7_copy(&mut self) -> After {
        self.read_half(self.me.b, Line::L7Copy, Line::L8)
    }

    pub(super) fn line8(&mut self) -> After {
        let request = self.record.help[self.p].ll(self.p, self.seen);
        if !request.helpme {
            return After::At(Line::L10);
        }
        self.me.c = request.buffer;
        After::At(Line::L9)
    }

    pub(super) fn line9(&mut self) -> After {
        let withdrawn = Request {
            helpme: false,
            buffer: self.me.c,
        };
        let help = &mut self.record.help[self.p];
        if self.wrong == Some(Wrong::Line9Plain) {
            help.write(withdrawn, self.seen);
        } else {
            let success = help.sc(self.p, withdrawn, self.seen);
            note(&mut self.tally.line9, success);
        }
        After::At(Line::L10)
    }

    pub(super) fn line10(&mut self) -> After {
        let request = self.record.help[self.p].read(self.seen);
        if !self.reads(Wrong::Line10Keeps) {
            self.own().mybuf = request.buffer;
        }
        After::At(Line::L11)
    }

    pub(super) fn line11(&mut self) -> After {
        let (word, half) = self.me.half_to_move();
        let (bits, into) = (half.of(self.me.return_area[word]), self.own().mybuf);
        self.record.buf.write(into, (word, half), bits, self.seen);
        if !self.was_last_move() {
            return After::At(Line::L11);
        }
        self.own().linked = true;
        After::Answer(Reply::Loaded(self.me.return_area.clone()))
    }

    /// One half word of a buffer into the return area.
    fn read_half(&mut self, from: usize, same: Line, next: Line) -> After {
        let (word, half) = self.me.half_to_move();
        let bits = self.record.buf.read(from, (word, half), self.seen);
        half.put(&mut self.me.return_area[word], bits);
        After::either(self.was_last_move(), next, same)
    }
}
