//! What rates allow a flow: buckets, in units of 1/1,280,000 byte.

use crate::config::Requests;

const BYTE: u64 = 1_280_000;

/// A bucket that grows at the start of each round but round 0, when it is full.
pub struct Bucket {
    /// Units that a round brings.
    growth: u64,
    most: u64,
    units: u64,
    /// The round as of which the units are.
    round: u32,
}

impl Bucket {
    /// The bucket of a rate in bit/s and a burst in bytes; a rate of 0 has none.
    fn new(rate: u32, burst: u32, round_ticks: u32) -> Option<Bucket> {
        let most = u64::from(burst) * BYTE;
        let growth = u64::from(rate) * u64::from(round_ticks);
        (rate > 0).then_some(Bucket { growth, most, units: most, round: 0 })
    }

    /// The whole bytes in the bucket in a round.
    fn bytes(&mut self, round: u32) -> u64 {
        self.units_in(round) / BYTE
    }

    pub fn units_in(&mut self, round: u32) -> u64 {
        let grown = self.growth.saturating_mul(u64::from(round - self.round));
        self.units = self.units.saturating_add(grown).min(self.most);
        self.round = round;
        self.units
    }

    fn spend(&mut self, bytes: u64) {
        self.units -= bytes * BYTE;
    }
}

/// The limits of a flow that makes requests.
pub struct Limits {
    rate: Option<Bucket>,
    min_rate: Option<Bucket>,
    /// The round as of which the next two are.
    round: u32,
    /// Bytes that may still be planned.
    allowance: u64,
    /// Bytes that may still be planned before all others.
    reserve: u64,
}

impl Limits {
    pub fn new(requests: &Requests, round_ticks: u32) -> Limits {
        let rate = Bucket::new(requests.rate, requests.burst, round_ticks);
        let min_rate = Bucket::new(requests.min_rate, requests.burst, round_ticks);
        Limits { rate, min_rate, round: 0, allowance: 0, reserve: 0 }
    }

    pub fn has_reserve(&self) -> bool {
        self.min_rate.is_some()
    }

    /// Works out what is allowed in a round, which isn't round 0, where that isn't done.
    #[inline]
    fn bring_up_to(&mut self, round: u32) {
        if self.round != round {
            self.round = round;
            self.allowance = self.rate.as_mut().map_or(u64::MAX, |bucket| bucket.bytes(round));
            self.reserve = self.min_rate.as_mut().map_or(0, |bucket| bucket.bytes(round));
        }
    }

    #[inline]
    pub fn allowance(&mut self, round: u32) -> u64 {
        self.bring_up_to(round);
        self.allowance
    }

    /// What is reserved, as far as it is allowed.
    pub fn reserve(&mut self, round: u32) -> u64 {
        self.bring_up_to(round);
        self.reserve.min(self.allowance)
    }

    #[inline]
    pub fn plan(&mut self, bytes: u64) {
        self.allowance -= bytes;
    }

    /// Plans bytes of what is reserved. They leave its bucket.
    pub fn plan_reserved(&mut self, bytes: u64) {
        self.plan(bytes);
        self.reserve -= bytes;
        if let Some(bucket) = &mut self.min_rate {
            bucket.spend(bytes);
        }
    }

    #[inline]
    pub fn credit(&mut self, bytes: u64) {
        if let Some(bucket) = &mut self.rate {
            bucket.spend(bytes);
        }
    }

    /// The units in the bucket of the rate in a round, or none where there is no limit.
    pub fn units_in(&mut self, round: u32) -> Option<u64> {
        self.rate.as_mut().map(|bucket| bucket.units_in(round))
    }
}
