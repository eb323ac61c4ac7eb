//! A set of numbers below 256, as wide as the largest entry table.

#[derive(Clone, Copy, Debug, Default, PartialEq, Eq)]
pub struct Bits([u64; 4]);

impl Bits {
    pub fn one(n: usize) -> Bits {
        let mut bits = Bits::default();
        bits.insert(n);
        bits
    }

    pub fn insert(&mut self, n: usize) {
        if let Some(word) = self.0.get_mut(n / 64) {
            *word |= 1 << (n % 64);
        }
    }

    pub fn remove(&mut self, n: usize) {
        if let Some(word) = self.0.get_mut(n / 64) {
            *word &= !(1 << (n % 64));
        }
    }

    pub fn contains(&self, n: usize) -> bool {
        self.0
            .get(n / 64)
            .is_some_and(|word| word >> (n % 64) & 1 == 1)
    }

    pub fn union(mut self, other: Bits) -> Bits {
        for (word, more) in self.0.iter_mut().zip(other.0) {
            *word |= more;
        }
        self
    }

    pub fn intersection(mut self, other: Bits) -> Bits {
        for (word, mask) in self.0.iter_mut().zip(other.0) {
            *word &= mask;
        }
        self
    }

    pub fn is_subset(&self, other: &Bits) -> bool {
        self.0
            .iter()
            .zip(other.0)
            .all(|(word, mask)| word & !mask == 0)
    }

    pub fn count(&self) -> usize {
        self.0.iter().map(|word| word.count_ones() as usize).sum()
    }

    pub fn first(&self) -> Option<usize> {
        let at = self.0.iter().position(|&word| word != 0)?;
        Some(at * 64 + self.0[at].trailing_zeros() as usize)
    }

    /// The members, rising.
    pub fn iter(self) -> impl Iterator<Item = usize> {
        let mut rest = self;
        std::iter::from_fn(move || {
            let n = rest.first()?;
            rest.remove(n);
            Some(n)
        })
    }
}

#[cfg(test)]
mod tests {
    use super::Bits;

    #[test]
    fn keeps_its_members() {
        let mut bits = Bits::one(3);
        bits.insert(64);
        bits.insert(255);
        bits.insert(256);
        bits.remove(3);
        assert_eq!(bits.iter().collect::<Vec<_>>(), [64, 255]);
        assert_eq!(bits.count(), 2);
        assert!(Bits::one(64).is_subset(&bits));
        assert!(!Bits::one(65).is_subset(&bits));
    }
}
