//! What a channel grants at intervals, without a request: unsolicited grants, polls and station maintenance. Times are
//! in quarter microseconds.

use crate::bits::{ones, WORD};
use crate::board::{Board, Holder, Missed};
use crate::config::{Channel, Config, Flow, Service, Times, Type};
use crate::elements::{element, REQUEST, STATION_MAINTENANCE, UNSOLICITED_GRANT};
use crate::trace::Mark;
use crate::wheel::Wheel;

const TICK_QUARTERS: u32 = 25;

/// What an interval of an entry has.
#[derive(Clone, Copy)]
struct Form {
    element: u32,
    minislots: u32,
    /// Its number among all labels of the channel.
    label: u16,
    grants: u8,
}

/// What a calendar has of one flow or one station.
struct Entry {
    times: Times,
    /// The first occurrence that isn't settled: interval, number in it, ideal time.
    i: u32,
    k: u8,
    ideal: u32,
    /// Whether the interval has a poll in place of its grants.
    is_poll: bool,
    is_active: bool,
    grant: Form,
    /// What a silent interval has. Of a flow without activity detection it is never used.
    poll: Form,
}

/// By what a channel's minislots become times.
struct Pace {
    minislot_log2: u32,
    /// Minislots of a MAP.
    len: u32,
    round_quarters: u32,
}

impl Pace {
    /// The minislots of a time, rounded down. One begins every `25 * 2^minislot_log2` quarter microseconds.
    #[inline]
    fn floor(&self, quarters: u32) -> u32 {
        (quarters >> self.minislot_log2) / TICK_QUARTERS
    }

    /// What makes rounding up of rounding down, where it is added before.
    #[inline]
    fn almost_a_minislot(&self) -> u32 {
        (TICK_QUARTERS << self.minislot_log2) - 1
    }
}

impl Entry {
    /// Settles what is due in a round. Answers the next round in which something is.
    #[inline]
    fn settle(&mut self, pace: &Pace, round: u32, board: &mut Board) -> u32 {
        let begin = round * pace.round_quarters;
        let end = begin + pace.round_quarters;
        while self.ideal < end {
            if self.ideal >= begin {
                self.is_poll = !self.is_active;
            }
            let form = if self.is_poll { &self.poll } else { &self.grant };
            let closes = self.ideal + self.times.jitter;
            let first = pace.floor((self.ideal + pace.almost_a_minislot()).saturating_sub(begin));
            let last = pace.floor(closes - begin).min(pace.len - 1);
            let (label, k, i) = (form.label, self.k, self.i);
            let fit = if board.is_full() { None } else { board.earliest_fit(form.minislots, first, last) };
            if let Some(start) = fit {
                board.put(start, form.minislots, form.element, Holder::Occurrence { label, k, i });
            } else if closes < end {
                board.missed.push(Missed { label, k, i });
            } else {
                return round + 1;
            }
            let grants = form.grants;
            self.step(grants);
        }
        self.ideal / pace.round_quarters
    }

    /// Goes on to the next occurrence.
    #[inline]
    fn step(&mut self, grants: u8) {
        self.k += 1;
        if self.k == grants {
            self.k = 0;
            self.i += 1;
            self.ideal += self.times.interval;
        }
    }
}

/// How an entry is told of in the report, and what for.
pub struct Label {
    pub word: &'static str,
    pub id: u32,
    pub sid: u32,
    pub iuc: u32,
    pub minislots: u32,
}

pub struct Calendar {
    entries: Vec<Entry>,
    pub labels: Vec<Label>,
    /// The ids of flows with activity detection, in order, each with the place of its entry.
    detected: Vec<(u32, usize)>,
    wheel: Wheel,
    marks: Vec<Mark>,
    next_mark: usize,
    /// A board with the contention reserve, and one with both reserves.
    reserved: [Board; 2],
    maintenance_every: u32,
    pace: Pace,
    rounds: u32,
}

impl Calendar {
    /// The calendar of a channel for a run of so many rounds. Its marks are in the order of rounds, and in a round those
    /// as active come last.
    pub fn new(config: &Config, place: usize, marks: Vec<Mark>, rounds: u32) -> Calendar {
        let channel = &config.channels[place];
        let mut calendar = Calendar {
            entries: Vec::new(),
            labels: Vec::new(),
            detected: Vec::new(),
            wheel: Wheel::new(0),
            marks,
            next_mark: 0,
            reserved: [false, true].map(|has_maintenance| Board::with_reserves(channel, has_maintenance)),
            maintenance_every: channel.maintenance_every,
            pace: Pace {
                minislot_log2: channel.minislot_log2,
                len: channel.len,
                round_quarters: config.round_ticks * TICK_QUARTERS,
            },
            rounds,
        };
        for flow in entries_of(config, place) {
            calendar.add_flow(channel, flow);
        }
        let mut stations: Vec<_> = config.stations.iter().filter(|station| station.channel == place).collect();
        stations.sort_by_key(|station| station.id);
        for station in stations {
            let label = Label {
                word: "station",
                id: station.id,
                sid: station.sid,
                iuc: STATION_MAINTENANCE,
                minislots: channel.station_minislots,
            };
            let form = calendar.form(label, 1);
            calendar.add(station.times, form, form);
        }
        calendar.wheel = Wheel::new(calendar.entries.len());
        for entry in 0..calendar.entries.len() {
            calendar.note(0, calendar.entries[entry].ideal / calendar.pace.round_quarters, entry);
        }
        calendar
    }

    fn add_flow(&mut self, channel: &Channel, flow: &Flow) {
        let (word, iuc, minislots, grants) = match (&flow.service, flow.kind) {
            (Service::Grants(grants), kind) => {
                let cost = channel.unsolicited.cost(grants.bytes, channel.symbols_log2);
                let word = if kind == Type::Unsolicited { "ugs" } else { "ad" };
                (word, UNSOLICITED_GRANT, cost, grants.per_interval as u8)
            }
            (Service::Requests(_), Type::RealTimePolling) => ("rtp", REQUEST, channel.request_minislots, 1),
            (Service::Requests(_), _) => ("nrtp", REQUEST, channel.request_minislots, 1),
        };
        let label = |iuc, minislots| Label { word, id: flow.id, sid: flow.clusters[0][0], iuc, minislots };
        let grant = self.form(label(iuc, minislots), grants);
        let mut poll = grant;
        if flow.kind == Type::ActivityDetection {
            self.detected.push((flow.id, self.entries.len()));
            poll = self.form(label(REQUEST, channel.request_minislots), 1);
        }
        self.add(flow.times.expect("a flow of a calendar has times"), grant, poll);
    }

    fn form(&mut self, label: Label, grants: u8) -> Form {
        let number = self.labels.len() as u16;
        let form = Form { element: element(label.sid, label.iuc), minislots: label.minislots, label: number, grants };
        self.labels.push(label);
        form
    }

    fn add(&mut self, times: Times, grant: Form, poll: Form) {
        let ideal = times.start;
        self.entries.push(Entry { times, i: 0, k: 0, ideal, is_poll: false, is_active: true, grant, poll });
    }

    /// Notes an entry for a round, if the run has it.
    fn note(&mut self, now: u32, round: u32, entry: usize) {
        if round < self.rounds {
            self.wheel.note(now, round, entry);
        }
    }

    /// The place of a flow with activity detection among the entries.
    fn place_of(&self, flow: u32) -> usize {
        let found = self.detected.binary_search_by_key(&flow, |(id, _)| *id);
        self.detected[found.expect("the flow has an entry")].1
    }

    /// Whether a flow with activity detection is active, as of the last round that was filled.
    pub fn is_active(&self, flow: u32) -> bool {
        self.entries[self.place_of(flow)].is_active
    }

    /// Takes in the marks of a round.
    fn hear(&mut self, round: u32) {
        while let Some(mark) = self.marks.get(self.next_mark).filter(|mark| mark.round == round) {
            let (flow, is_active) = (mark.flow, mark.is_active);
            let place = self.place_of(flow);
            self.entries[place].is_active = is_active;
            self.next_mark += 1;
        }
    }

    /// Fills the board of the next round: makes its reserves, and settles what is due.
    pub fn fill(&mut self, round: u32, board: &mut Board) {
        board.begin(&self.reserved[usize::from(round % self.maintenance_every == 0)]);
        self.hear(round);
        self.wheel.turn(round);
        for word in 0..self.wheel.words() {
            for bit in ones(self.wheel.take(round, word)) {
                let entry = word * WORD + bit;
                let next = self.entries[entry].settle(&self.pace, round, board);
                self.note(round, next, entry);
            }
        }
    }
}

/// The flows that a channel's calendar has, in the order of its entries.
fn entries_of(config: &Config, channel: usize) -> impl Iterator<Item = &Flow> {
    let kinds = [Type::Unsolicited, Type::ActivityDetection, Type::RealTimePolling, Type::NonRealTimePolling];
    kinds.into_iter().flat_map(move |kind| {
        let mut flows: Vec<_> =
            config.flows.iter().filter(|flow| flow.kind == kind && flow.channels[0] == channel).collect();
        flows.sort_by_key(|flow| flow.id);
        flows
    })
}
