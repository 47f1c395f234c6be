//! Lines, written into bytes that the caller lends.

pub struct Lines<'a> {
    lent: &'a mut [u8],
    written: usize,
}

impl Lines<'_> {
    pub fn over(lent: &mut [u8]) -> Lines<'_> {
        Lines { lent, written: 0 }
    }

    pub fn written(&self) -> usize {
        self.written
    }

    pub fn left(&self) -> usize {
        self.lent.len() - self.written
    }

    pub fn line(&mut self, line: &str) {
        let end = self.written + line.len();
        self.lent[self.written..end].copy_from_slice(line.as_bytes());
        self.lent[end] = b'\n';
        self.written = end + 1;
    }
}
