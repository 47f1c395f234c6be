//! Figure 1's object, as 01 words it under "Demand 3". It is fed process,
//! kind and offered words; it never sees an answer of the bench.

use crate::machine::Reply;

#[derive(Clone, PartialEq, Eq, Debug)]
pub enum Kind {
    Load,
    Store(Vec<u64>),
    Validate,
}

#[derive(Clone, PartialEq, Eq, Hash, Debug)]
pub struct Object {
    words: Vec<u64>,
    links: Vec<bool>,
}

impl Object {
    pub fn new(value: &[u64], processes: usize) -> Object {
        Object {
            words: value.to_vec(),
            links: vec![false; processes],
        }
    }

    pub fn serve(&mut self, p: usize, kind: &Kind) -> Reply {
        match kind {
            Kind::Load => {
                self.links[p] = true;
                Reply::Loaded(self.words.clone())
            }
            Kind::Store(offered) => {
                let success = self.links[p];
                if success {
                    self.words = offered.clone();
                    self.links.fill(false);
                }
                Reply::Stored(success)
            }
            Kind::Validate => Reply::Validated(self.links[p]),
        }
    }
}
