//! Which entries of a calendar are looked at in which round.

use crate::bits::WORD;
use std::cmp::Reverse;
use std::collections::BinaryHeap;

/// Rounds that are near.
const NEAR: u32 = 64;

/// For each of the next rounds a set of entries, as bits; and a heap of those that are noted for a later round.
pub struct Wheel {
    /// Words of a set.
    words: usize,
    near: Vec<u64>,
    far: BinaryHeap<Reverse<(u32, u16)>>,
    /// The first round that an entry of the heap is noted for.
    first_far: u32,
}

impl Wheel {
    pub fn new(entries: usize) -> Wheel {
        let words = entries.div_ceil(WORD);
        Wheel { words, near: vec![0; NEAR as usize * words], far: BinaryHeap::new(), first_far: u32::MAX }
    }

    pub fn words(&self) -> usize {
        self.words
    }

    fn place(&self, round: u32, word: usize) -> usize {
        (round % NEAR) as usize * self.words + word
    }

    /// Notes an entry for a round, which comes after this one, or is round 0.
    #[inline]
    pub fn note(&mut self, now: u32, round: u32, entry: usize) {
        if round - now < NEAR {
            let place = self.place(round, entry / WORD);
            self.near[place] |= 1 << (entry % WORD);
        } else {
            self.far.push(Reverse((round, entry as u16)));
            self.first_far = self.first_far.min(round);
        }
    }

    /// Brings in what is near as of this round.
    #[inline]
    pub fn turn(&mut self, now: u32) {
        if self.first_far < now + NEAR {
            self.bring_in(now);
        }
    }

    #[cold]
    fn bring_in(&mut self, now: u32) {
        self.first_far = u32::MAX;
        while let Some(&Reverse((round, entry))) = self.far.peek() {
            if round - now >= NEAR {
                self.first_far = round;
                return;
            }
            self.far.pop();
            self.note(now, round, entry as usize);
        }
    }

    /// Takes a word of the set of this round.
    #[inline]
    pub fn take(&mut self, now: u32, word: usize) -> u64 {
        let place = self.place(now, word);
        std::mem::take(&mut self.near[place])
    }
}
