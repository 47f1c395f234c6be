//! A shared place with one link for each process (01, "Links").

use super::access::{Act, Links, Place, Seen, Values};

#[derive(Clone, PartialEq, Eq, Debug)]
pub struct Linked<T: Copy + Into<Values>> {
    place: Place,
    content: T,
    links: Vec<bool>,
}

impl<T: Copy + Into<Values>> Linked<T> {
    pub fn new(place: Place, content: T, processes: usize) -> Linked<T> {
        Linked {
            place,
            content,
            links: vec![false; processes],
        }
    }

    pub fn content(&self) -> T {
        self.content
    }

    /// The links as a number with bit p for process p.
    pub fn link_bits(&self) -> u64 {
        let bits = self.links.iter().enumerate();
        bits.map(|(p, set)| u64::from(*set) << p).sum()
    }

    pub fn item(&self) -> (Values, u64) {
        (self.content.into(), self.link_bits())
    }

    /// LL: returns the content and sets p's link.
    pub fn ll(&mut self, p: usize, seen: &mut Seen) -> T {
        self.links[p] = true;
        let act = Act::Ll(self.content.into());
        seen.note(self.place, act, Links::OwnSet);
        self.content
    }

    /// SC: writes and clears all links if p's link is set, else does nothing.
    pub fn sc(&mut self, p: usize, new: T, seen: &mut Seen) -> bool {
        let success = self.links[p];
        let links = if success {
            self.update(new)
        } else {
            Links::Untouched
        };
        seen.note(self.place, Act::Sc(new.into(), success), links);
        success
    }

    /// VL: whether p's link is set.
    pub fn vl(&self, p: usize, seen: &mut Seen) -> bool {
        let valid = self.links[p];
        seen.note(self.place, Act::Vl(valid), Links::Untouched);
        valid
    }

    /// A plain read touches no link.
    pub fn read(&self, seen: &mut Seen) -> T {
        let act = Act::Read(self.content.into());
        seen.note(self.place, act, Links::Untouched);
        self.content
    }

    /// A plain write is an update too.
    pub fn write(&mut self, new: T, seen: &mut Seen) {
        let links = self.update(new);
        seen.note(self.place, Act::Write(new.into()), links);
    }

    /// An update clears all links.
    fn update(&mut self, new: T) -> Links {
        self.content = new;
        self.links.fill(false);
        Links::AllCleared
    }
}

#[cfg(test)]
mod tests {
    use super::super::process::Line;
    use super::{Act, Linked, Links, Place, Seen, Values};

    fn place() -> Linked<usize> {
        Linked::new(Place::Bank(3), 5, 2)
    }

    /// What an access gives, and what was noted of it.
    fn seen<R>(access: impl FnOnce(&mut Seen) -> R) -> (R, Act, Links) {
        let mut seen = Seen::nothing_yet(Line::Idle, 0);
        let given = access(&mut seen);
        let noted = seen.access.expect("an access");
        assert_eq!(noted.place, Place::Bank(3));
        (given, noted.act, noted.links)
    }

    #[test]
    fn sc_needs_a_link_and_clears_all_of_them() {
        let mut place = place();
        let sc = |number, success| Act::Sc(Values::Buffer(number), success);
        let ll = Act::Ll(Values::Buffer(5));
        assert_eq!(
            seen(|s| place.sc(0, 6, s)),
            (false, sc(6, false), Links::Untouched)
        );
        assert_eq!(seen(|s| place.ll(0, s)), (5, ll, Links::OwnSet));
        assert_eq!(seen(|s| place.ll(1, s)), (5, ll, Links::OwnSet));
        assert_eq!(
            seen(|s| place.sc(1, 7, s)),
            (true, sc(7, true), Links::AllCleared)
        );
        for p in 0..2 {
            let invalid = (false, Act::Vl(false), Links::Untouched);
            assert_eq!(seen(|s| place.vl(p, s)), invalid);
        }
        assert!(!seen(|s| place.sc(0, 8, s)).0);
        assert_eq!(seen(|s| place.read(s)).0, 7);
    }

    #[test]
    fn reads_leave_links_and_writes_clear_them() {
        let mut place = place();
        let five = Values::Buffer(5);
        seen(|s| place.ll(0, s));
        assert_eq!(
            seen(|s| place.read(s)),
            (5, Act::Read(five), Links::Untouched)
        );
        assert!(seen(|s| place.vl(0, s)).0 && !seen(|s| place.vl(1, s)).0);
        assert_eq!(
            seen(|s| place.write(5, s)),
            ((), Act::Write(five), Links::AllCleared)
        );
        assert!(!seen(|s| place.vl(0, s)).0);
    }
}
