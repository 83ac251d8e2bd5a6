//! The board of a MAP: which minislots are idle, and what is granted.

use crate::config::Channel;
use crate::elements::{iuc, offset};

/// A MAP has at most so many assignments, reserves among them.
const MOST_ASSIGNMENTS: u32 = 100;
/// A MAP lists at most so many data grants pending.
pub const MOST_PENDINGS: usize = 38;
const WORD: u32 = u64::BITS;

/// Whose a grant is.
#[derive(Clone, Copy)]
pub enum Holder {
    /// Grant `k` in interval `i` of an entry of the calendar, by the number of its label.
    Occurrence { label: u16, k: u8, i: u32 },
    /// A requested grant on a seat, a turn's channel.
    Request { seat: u16, credit: u32 },
}

#[derive(Clone, Copy)]
pub struct Grant {
    /// Its SID, its IUC and its start.
    pub element: u32,
    pub minislots: u16,
    pub holder: Holder,
}

impl Grant {
    pub fn start(&self) -> u32 {
        offset(self.element)
    }

    pub fn iuc(&self) -> u32 {
        iuc(self.element)
    }
}

/// An occurrence of the calendar that was missed.
#[derive(Clone, Copy)]
pub struct Missed {
    pub label: u16,
    pub k: u8,
    pub i: u32,
}

#[derive(Default, Clone)]
pub struct Board {
    /// A bit for each minislot, in the order of minislots.
    idle: Vec<u64>,
    /// How many minislots are idle.
    pub idle_minislots: u32,
    /// Assignments that the MAP may still have.
    room: u32,
    /// Whether the MAP begins with the maintenance reserve.
    pub has_maintenance: bool,
    /// In the order in which they were placed.
    pub grants: Vec<Grant>,
    pub missed: Vec<Missed>,
    /// SIDs of data grants pending.
    pub pendings: Vec<u16>,
}

impl Board {
    /// The board of a MAP with its reserves alone.
    pub fn with_reserves(channel: &Channel, has_maintenance: bool) -> Board {
        let maintenance = if has_maintenance { channel.maintenance_minislots } else { 0 };
        let reserves = [maintenance, channel.contention_minislots];
        let end = channel.len - channel.contention_minislots;
        let mut board = Board {
            idle: vec![0; channel.len.div_ceil(WORD) as usize],
            idle_minislots: end - maintenance,
            room: MOST_ASSIGNMENTS - reserves.iter().filter(|reserve| **reserve > 0).count() as u32,
            has_maintenance: maintenance > 0,
            ..Board::default()
        };
        for minislot in maintenance..end {
            board.idle[(minislot / WORD) as usize] |= 1 << (minislot % WORD);
        }
        board
    }

    /// Makes this board one with the reserves of another alone, and keeps its memory.
    pub fn begin(&mut self, reserved: &Board) {
        self.idle.clear();
        self.idle.extend_from_slice(&reserved.idle);
        self.idle_minislots = reserved.idle_minislots;
        self.room = reserved.room;
        self.has_maintenance = reserved.has_maintenance;
        self.grants.clear();
        self.missed.clear();
        self.pendings.clear();
    }

    pub fn is_full(&self) -> bool {
        self.room == 0
    }

    /// The least idle minislot from `from` on.
    #[inline]
    fn next_idle(&self, from: u32) -> Option<u32> {
        let mut word = (from / WORD) as usize;
        let mut bits = self.idle.get(word)? & (u64::MAX << (from % WORD));
        while bits == 0 {
            word += 1;
            bits = *self.idle.get(word)?;
        }
        Some(word as u32 * WORD + bits.trailing_zeros())
    }

    /// The end of the idle run that an idle minislot is of.
    #[inline]
    fn end_of_run(&self, idle: u32) -> u32 {
        let mut word = (idle / WORD) as usize;
        let mut taken = !self.idle[word] & (u64::MAX << (idle % WORD));
        while taken == 0 {
            word += 1;
            match self.idle.get(word) {
                Some(bits) => taken = !bits,
                None => return word as u32 * WORD,
            }
        }
        word as u32 * WORD + taken.trailing_zeros()
    }

    /// The least minislot from `first` to `last` from which so many are idle.
    #[inline]
    pub fn earliest_fit(&self, minislots: u32, first: u32, last: u32) -> Option<u32> {
        let mut from = first;
        while let Some(start) = self.next_idle(from) {
            if start > last {
                return None;
            }
            let end = self.end_of_run(start);
            if end - start >= minislots {
                return Some(start);
            }
            from = end;
        }
        None
    }

    /// The first of the longest idle runs: its start and its minislots.
    pub fn longest_run(&self) -> Option<(u32, u32)> {
        let mut longest = None;
        let mut most = 0;
        let mut from = 0;
        while let Some(start) = self.next_idle(from) {
            from = self.end_of_run(start);
            if from - start > most {
                most = from - start;
                longest = Some((start, most));
            }
        }
        longest
    }

    /// Assigns idle minislots to a SID with an IUC, which `element` has. The board isn't full.
    #[inline]
    pub fn put(&mut self, start: u32, minislots: u32, element: u32, holder: Holder) {
        self.take(start, minislots);
        self.idle_minislots -= minislots;
        self.room -= 1;
        self.grants.push(Grant { element: element | start, minislots: minislots as u16, holder });
    }

    #[inline]
    fn take(&mut self, start: u32, minislots: u32) {
        let last = start + minislots - 1;
        let (first_word, last_word) = ((start / WORD) as usize, (last / WORD) as usize);
        let from_start = u64::MAX << (start % WORD);
        let up_to_last = u64::MAX >> (WORD - 1 - last % WORD);
        if first_word == last_word {
            self.idle[first_word] &= !(from_start & up_to_last);
        } else {
            self.idle[first_word] &= !from_start;
            self.idle[first_word + 1..last_word].fill(0);
            self.idle[last_word] &= !up_to_last;
        }
    }
}
