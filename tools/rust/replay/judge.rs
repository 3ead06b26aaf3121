//! What decides about items, for the commands that ask.

/// The numbers that describe a judge, and how far its offset has grown.
#[derive(Clone, Copy)]
pub struct Judge {
    pub divisor: u64,
    pub stride: u64,
    pub added: u64,
    pub offset: u64,
}

impl Judge {
    fn shifted(&mut self, item: u64) -> u64 {
        let shifted = item.wrapping_add(self.offset);
        self.offset = self.offset.wrapping_add(self.stride);
        shifted
    }

    fn write(&self, item: &mut u64) {
        *item = item.wrapping_add(self.added);
    }

    pub fn look(&mut self, item: &u64) -> bool {
        self.shifted(*item).is_multiple_of(self.divisor)
    }

    pub fn keep(&mut self, item: &mut u64) -> bool {
        let keeps = self.look(item);
        self.write(item);
        keeps
    }

    pub fn same(&mut self, later: &mut u64, kept: &mut u64) -> bool {
        let is_same = self.shifted(*later) % self.divisor == *kept % self.divisor;
        self.write(later);
        self.write(kept);
        is_same
    }

    pub fn key(&mut self, item: &mut u64) -> u64 {
        let key = self.shifted(*item) / self.divisor;
        self.write(item);
        key
    }
}
