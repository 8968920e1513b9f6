//! A slice to lend, with a margin on either side that nobody may touch.

/// Elements on either side of what is lent.
const MARGIN: usize = 64;

pub trait Element: Copy + PartialEq {
    /// What the margins hold, and what a slice holds before it is lent.
    const MARK: Self;
    const ZERO: Self;
}

impl Element for u8 {
    const MARK: u8 = 0xa5;
    const ZERO: u8 = 0;
}

impl Element for u32 {
    const MARK: u32 = 0xa5c3_96e1;
    const ZERO: u32 = 0;
}

impl Element for u64 {
    const MARK: u64 = 0xa5c3_96e1_5a3c_691e;
    const ZERO: u64 = 0;
}

pub struct Guarded<T> {
    all: Vec<T>,
}

impl<T: Element> Guarded<T> {
    /// `len` marked elements.
    pub fn new(len: usize) -> Self {
        Self { all: vec![T::MARK; len + 2 * MARGIN] }
    }

    pub fn of(elements: &[T]) -> Self {
        let mut new = Self::new(elements.len());
        new.slice_mut().copy_from_slice(elements);
        new
    }

    pub fn len(&self) -> usize {
        self.all.len() - 2 * MARGIN
    }

    pub fn slice(&self) -> &[T] {
        &self.all[MARGIN..self.all.len() - MARGIN]
    }

    pub fn slice_mut(&mut self) -> &mut [T] {
        let end = self.all.len() - MARGIN;
        &mut self.all[MARGIN..end]
    }

    /// All of it, as slots of fixed length.
    pub fn slots<const N: usize>(&mut self) -> &mut [T; N] {
        self.slice_mut().try_into().unwrap()
    }

    pub fn mark(&mut self) {
        self.slice_mut().fill(T::MARK);
    }

    /// The margins are as they were.
    pub fn margins_stay(&self) -> bool {
        let (before, rest) = self.all.split_at(MARGIN);
        let after = &rest[rest.len() - MARGIN..];
        marked(before) && marked(after)
    }

    /// Margins, and everything from `used` on, are as they were.
    pub fn stays_from(&self, used: usize) -> bool {
        self.margins_stay() && marked(&self.slice()[used..])
    }

    pub fn is_zero(&self) -> bool {
        // In runs, so that the test of megabytes is quick.
        self.slice().chunks(64).all(|run| run.iter().fold(true, |all, e| all & (*e == T::ZERO)))
    }
}

fn marked<T: Element>(elements: &[T]) -> bool {
    elements.iter().all(|e| *e == T::MARK)
}

#[cfg(test)]
mod tests {
    use super::*;

    #[test]
    fn a_touched_margin_shows() {
        for place in [0, MARGIN - 1, MARGIN + 3, 2 * MARGIN + 2] {
            let mut lent = Guarded::<u8>::new(3);
            assert!(lent.margins_stay());
            lent.all[place] ^= 1;
            assert!(!lent.margins_stay(), "{place}");
        }
        let mut lent = Guarded::<u32>::new(3);
        lent.slice_mut().fill(0);
        assert!(lent.margins_stay() && lent.is_zero());
    }

    #[test]
    fn a_touched_slot_past_the_answer_shows() {
        let mut lent = Guarded::<u64>::new(3);
        lent.slice_mut()[0] = 5;
        assert!(lent.stays_from(1) && !lent.stays_from(0));
        lent.slice_mut()[2] = 5;
        assert!(!lent.stays_from(1) && lent.stays_from(3));
    }

    #[test]
    fn one_byte_that_is_not_zero_shows() {
        let mut lent = Guarded::of(&[0u8; 200]);
        assert!(lent.is_zero());
        lent.slice_mut()[199] = 1;
        assert!(!lent.is_zero());
    }
}
