//! The minislots of channels that the plan of a round can still spend.

use crate::bursts::{Cost, Costs};
use crate::config::Channel;

/// A set of channels, as bits by place.
pub type Channels = u16;

/// The bytes that a segment header takes.
pub const HEADER_BYTES: u32 = 8;

struct Budget<'c> {
    costs: Costs<'c>,
    /// By minislots: the bytes that a long grant carries.
    capacities: Vec<u32>,
    minislots: u32,
    /// The bytes that the budget carries.
    carries: u32,
}

pub struct Budgets<'c> {
    of_channels: Vec<Budget<'c>>,
    /// Channels whose budget carries more bytes than each grant has for its header.
    open: Channels,
    least_header: u32,
}

impl<'c> Budgets<'c> {
    /// Each grant has so many bytes of header at least.
    pub fn new(channels: &'c [Channel], least_header: u32) -> Self {
        let budget = |channel: &'c Channel| Budget {
            costs: Costs::new(channel),
            capacities: (0..=channel.len).map(|n| channel.long.capacity(n, channel.symbols_log2)).collect(),
            minislots: 0,
            carries: 0,
        };
        Budgets { of_channels: channels.iter().map(budget).collect(), open: 0, least_header }
    }

    pub fn open(&self) -> Channels {
        self.open
    }

    #[inline]
    pub fn carries(&self, channel: usize) -> u32 {
        self.of_channels[channel].carries
    }

    /// The bytes that so many minislots of a channel carry.
    pub fn capacity(&self, channel: usize, minislots: u32) -> u32 {
        self.of_channels[channel].capacities[minislots as usize]
    }

    #[inline]
    pub fn cost(&mut self, channel: usize, bytes: u32) -> Cost {
        self.of_channels[channel].costs.of(bytes)
    }

    /// Begins a round with so many minislots, or goes on with more.
    #[inline]
    pub fn set(&mut self, channel: usize, minislots: u32) {
        self.open |= 1 << channel;
        self.lower(channel, minislots);
    }

    #[inline]
    fn lower(&mut self, channel: usize, minislots: u32) {
        let budget = &mut self.of_channels[channel];
        budget.minislots = minislots;
        budget.carries = budget.capacities[minislots as usize];
        if budget.carries <= self.least_header {
            self.open &= !(1 << channel);
        }
    }

    #[inline]
    pub fn spend(&mut self, channel: usize, minislots: u32) {
        self.lower(channel, self.of_channels[channel].minislots - minislots);
    }

    pub fn give_back(&mut self, channel: usize, minislots: u32) {
        self.set(channel, self.of_channels[channel].minislots + minislots);
    }
}
