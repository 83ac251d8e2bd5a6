//! What bursts cost in minislots, and what minislots carry.

use crate::config::Channel;
use crate::elements::{LONG_DATA_GRANT, SHORT_DATA_GRANT};

/// A burst profile.
pub struct Profile {
    /// Bits of a symbol.
    pub bits: u32,
    /// Symbols of preamble and guard time.
    pub overhead: u32,
    /// Parity bytes of a FEC codeword; 0 is no code.
    pub parity: u32,
    /// Data bytes of a full codeword.
    pub data: u32,
    /// Whether the last codeword is shortened.
    pub is_shortened: bool,
}

/// A shortened last codeword has at least so many data bytes.
const LEAST_DATA: u32 = 16;

impl Profile {
    /// The bytes that are sent for so many bytes.
    fn coded_length(&self, bytes: u32) -> u32 {
        if self.parity == 0 {
            return bytes;
        }
        let codeword = self.data + self.parity;
        if !self.is_shortened {
            return bytes.div_ceil(self.data) * codeword;
        }
        let rest = bytes % self.data;
        let last = if rest == 0 { 0 } else { rest.max(LEAST_DATA) + self.parity };
        bytes / self.data * codeword + last
    }

    /// The minislots of a burst of so many bytes.
    pub fn cost(&self, bytes: u32, symbols_log2: u32) -> u32 {
        let symbols = self.overhead + (8 * self.coded_length(bytes)).div_ceil(self.bits);
        (symbols + (1 << symbols_log2) - 1) >> symbols_log2
    }

    /// The most bytes that a burst of so many minislots carries.
    pub fn capacity(&self, minislots: u32, symbols_log2: u32) -> u32 {
        let symbols = (minislots << symbols_log2).saturating_sub(self.overhead);
        let sent = symbols * self.bits / 8;
        if self.parity == 0 {
            return sent;
        }
        let codeword = self.data + self.parity;
        let rest = sent % codeword;
        let has_last = self.is_shortened && rest >= LEAST_DATA + self.parity;
        sent / codeword * self.data + if has_last { rest - self.parity } else { 0 }
    }
}

/// The minislots of a data grant, and its IUC.
#[derive(Clone, Copy)]
pub struct Cost {
    pub minislots: u32,
    pub iuc: u32,
}

/// The costs of data grants on a channel. Each is worked out once, when it is asked for first.
pub struct Costs<'c> {
    channel: &'c Channel,
    /// By bytes: twice the minislots, and one more for a long grant; 0 is not known yet.
    known: Vec<u16>,
}

impl<'c> Costs<'c> {
    pub fn new(channel: &'c Channel) -> Self {
        let most_bytes = channel.long.capacity(channel.len, channel.symbols_log2);
        Costs { channel, known: vec![0; most_bytes as usize + 1] }
    }

    /// The cost of a grant of 1 byte or more, of no more than a MAP carries.
    #[inline]
    pub fn of(&mut self, bytes: u32) -> Cost {
        let known = self.known[bytes as usize];
        if known == 0 {
            return self.work_out(bytes);
        }
        Cost { minislots: u32::from(known >> 1), iuc: SHORT_DATA_GRANT + u32::from(known & 1) }
    }

    #[cold]
    fn work_out(&mut self, bytes: u32) -> Cost {
        let channel = self.channel;
        let long = channel.long.cost(bytes, channel.symbols_log2);
        let short = channel.short.cost(bytes, channel.symbols_log2);
        let is_long = short > channel.short_max || short > long;
        let minislots = if is_long { long } else { short };
        self.known[bytes as usize] = (minislots << 1) as u16 | u16::from(is_long);
        Cost { minislots, iuc: if is_long { LONG_DATA_GRANT } else { SHORT_DATA_GRANT } }
    }
}
