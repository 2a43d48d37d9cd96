//! Sets of numbers.

/// A set of numbers up to 511.
#[derive(Clone, Copy, Default)]
pub struct Set(pub [u64; 8]);

impl Set {
    pub fn insert(&mut self, i: usize) {
        self.0[i / 64] |= 1 << (i % 64);
    }

    pub fn remove(&mut self, i: usize) {
        self.0[i / 64] &= !(1 << (i % 64));
    }

    pub fn lowest(&self) -> Option<usize> {
        let word = self.0.iter().position(|&word| word != 0)?;
        Some(64 * word + self.0[word].trailing_zeros() as usize)
    }

    pub fn lowest_but(mut self, i: usize) -> Option<usize> {
        self.remove(i);
        self.lowest()
    }

    /// The number of members.
    pub fn len(&self) -> usize {
        self.0.iter().map(|word| word.count_ones() as usize).sum()
    }

    pub fn put(&mut self, i: usize, member: bool) {
        let word = &mut self.0[i / 64];
        *word = *word & !(1 << (i % 64)) | (member as u64) << (i % 64);
    }

    /// The members in rising order.
    pub fn members(&self) -> impl Iterator<Item = usize> + '_ {
        self.0.iter().enumerate().flat_map(|(i, &word)| {
            let mut rest = word;
            std::iter::from_fn(move || {
                let bit = (rest != 0).then(|| rest.trailing_zeros() as usize)?;
                rest &= rest - 1;
                Some(64 * i + bit)
            })
        })
    }
}
