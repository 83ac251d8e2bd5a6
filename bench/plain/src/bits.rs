//! Sets of small numbers, as bits.

pub const WORD: usize = u64::BITS as usize;

/// The places of the bits of a word that are set, from the least on.
#[inline]
pub fn ones(mut word: u64) -> impl Iterator<Item = usize> {
    std::iter::from_fn(move || {
        let place = word.trailing_zeros() as usize;
        (word != 0).then(|| {
            word &= word - 1;
            place
        })
    })
}

/// A set of numbers below some bound.
pub struct Set {
    pub words: Vec<u64>,
}

impl Set {
    pub fn new(bound: usize) -> Set {
        Set { words: vec![0; bound.div_ceil(WORD)] }
    }

    pub fn is_empty(&self) -> bool {
        self.words.iter().all(|word| *word == 0)
    }

    #[inline]
    pub fn insert_if(&mut self, number: usize, condition: bool) {
        self.words[number / WORD] |= u64::from(condition) << (number % WORD);
    }

    #[inline]
    pub fn remove_if(&mut self, number: usize, condition: bool) {
        self.words[number / WORD] &= !(u64::from(condition) << (number % WORD));
    }
}
