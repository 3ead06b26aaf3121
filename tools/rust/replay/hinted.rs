//! An iterator whose size hint is not its number of items.

/// Yields its items in order. The lower bound of its size hint is always `lower`.
pub struct Hinted {
    items: std::vec::IntoIter<u64>,
    lower: usize,
}

impl Hinted {
    pub fn new(items: Vec<u64>, lower: usize) -> Hinted {
        Hinted {
            items: items.into_iter(),
            lower,
        }
    }
}

impl Iterator for Hinted {
    type Item = u64;

    fn next(&mut self) -> Option<u64> {
        self.items.next()
    }

    fn size_hint(&self) -> (usize, Option<usize>) {
        (self.lower, None)
    }
}
