//! What a round grants of what was asked for. SID clusters have their turns one after another: each is planned shares
//! on the channels of its flow, which are placed at once, since no plan depends on where grants are placed.

use crate::bits::{ones, Set, WORD};
use crate::board::{Board, Holder, MOST_PENDINGS};
use crate::budgets::{Budgets, Channels, HEADER_BYTES};
use crate::bursts::Cost;
use crate::config::{Config, Flow, Requests, Service};
use crate::elements::element;
use crate::limits::Limits;
use crate::trace::Ask;
use std::cmp::Reverse;

/// A flow has at most so many channels.
const MOST_SEATS: usize = 8;

/// Bytes by seat of a turn.
type Shares = [u32; MOST_SEATS];

/// A turn's channel, and the SID there.
pub struct Seat {
    channel: usize,
    pub sid: u32,
    pub flow: u32,
    pub cluster: u32,
}

/// What a cluster has outstanding, and the units in its flow's bucket, if it has one.
pub struct State {
    pub outstanding: u64,
    pub units: Option<u64>,
}

#[derive(Clone, Copy)]
struct Turn {
    /// Bytes that were asked for and not credited.
    outstanding: u64,
    limits: usize,
    seats: usize,
    seats_end: usize,
    header: u32,
    channels: Channels,
}

/// The boards of one round, by channel.
pub struct Boards<'a, 'b> {
    /// Boards of some rounds, by channel.
    pub of_rounds: &'a mut [&'b mut [Board]],
    /// The number of the round among these.
    pub at: usize,
}

impl Boards<'_, '_> {
    #[inline]
    fn of(&mut self, channel: usize) -> &mut Board {
        &mut self.of_rounds[channel][self.at]
    }
}

pub struct Planner<'c> {
    /// In their order: by priority, flow and cluster.
    turns: Vec<Turn>,
    pub seats: Vec<Seat>,
    /// The turn of each cluster in table order.
    turn_of: Vec<usize>,
    /// By flow.
    limits: Vec<Limits>,
    budgets: Budgets<'c>,
    /// Turns of which bytes are outstanding.
    asking: Set,
    /// Turns of flows with a minimum rate.
    with_reserve: Set,
    /// First shares by turn, while a round is planned, and how many turns have some.
    firsts: Vec<Shares>,
    turns_with_firsts: u32,
    /// The channels on which turns can be pending.
    first_channels: Channels,
}

impl<'c> Planner<'c> {
    pub fn new(config: &'c Config) -> Self {
        let requesting: Vec<(&Flow, &Requests)> = config.flows.iter().filter_map(requesting).collect();
        let least_header = requesting.iter().map(|(_, requests)| header_of(requests)).min().unwrap_or(0);
        let mut planner = Planner {
            turns: Vec::new(),
            seats: Vec::new(),
            turn_of: Vec::new(),
            limits: requesting.iter().map(|(_, requests)| Limits::new(requests, config.round_ticks)).collect(),
            budgets: Budgets::new(&config.channels, least_header),
            asking: Set::new(0),
            with_reserve: Set::new(0),
            firsts: Vec::new(),
            turns_with_firsts: 0,
            first_channels: 0,
        };
        // each cluster in table order: its flow's place among those that make requests, and its own in the flow
        let clusters = |(place, (flow, _)): (usize, &(&Flow, _))| (0..flow.clusters.len()).map(move |n| (place, n));
        let clusters: Vec<_> = requesting.iter().enumerate().flat_map(clusters).collect();
        let mut order: Vec<usize> = (0..clusters.len()).collect();
        order.sort_by_key(|number| {
            let (place, cluster) = clusters[*number];
            let (flow, requests) = requesting[place];
            (Reverse(requests.priority), flow.id, cluster)
        });
        planner.turn_of = vec![0; order.len()];
        for (turn, number) in order.into_iter().enumerate() {
            let (place, cluster) = clusters[number];
            planner.turn_of[number] = turn;
            planner.add_turn(requesting[place], place, cluster);
        }
        planner.firsts = vec![[0; MOST_SEATS]; planner.turns.len()];
        planner.asking = Set::new(planner.turns.len());
        planner.with_reserve = Set::new(planner.turns.len());
        for (number, turn) in planner.turns.iter().enumerate() {
            planner.with_reserve.insert_if(number, planner.limits[turn.limits].has_reserve());
        }
        planner
    }

    fn add_turn(&mut self, (flow, requests): (&Flow, &Requests), limits: usize, cluster: usize) {
        let seats = self.seats.len();
        let mut channels = 0;
        for (&channel, &sid) in flow.channels.iter().zip(&flow.clusters[cluster]) {
            channels |= 1 << channel;
            self.seats.push(Seat { channel, sid, flow: flow.id, cluster: cluster as u32 });
        }
        self.first_channels |= 1 << flow.channels[0];
        let seats_end = self.seats.len();
        self.turns.push(Turn { outstanding: 0, limits, seats, seats_end, header: header_of(requests), channels });
    }

    /// How each cluster stands in a round, in table order.
    pub fn states(&mut self, round: u32) -> Vec<State> {
        let state = |turn: &usize| {
            let turn = &self.turns[*turn];
            State { outstanding: turn.outstanding, units: self.limits[turn.limits].units_in(round) }
        };
        self.turn_of.iter().map(state).collect()
    }

    /// Takes in the cut of a round, plans it and places its grants, and lists what is pending.
    pub fn serve(&mut self, round: u32, cut: &[Ask], boards: &mut Boards) {
        for ask in cut {
            self.take_in(ask);
        }
        if self.asking.is_empty() {
            return;
        }
        for channel in 0..boards.of_rounds.len() {
            self.budgets.set(channel, boards.of(channel).idle_minislots);
        }
        self.plan_reserves(round);
        self.serve_turns(round, boards);
    }

    #[inline]
    fn take_in(&mut self, ask: &Ask) {
        let turn = self.turn_of[ask.cluster as usize];
        self.turns[turn].outstanding += u64::from(ask.bytes);
        self.asking.insert_if(turn, ask.bytes > 0);
    }

    /// Plans the first shares of all turns: what is reserved for their flows.
    fn plan_reserves(&mut self, round: u32) {
        for word in 0..self.asking.words.len() {
            for bit in ones(self.asking.words[word] & self.with_reserve.words[word]) {
                self.plan_reserve(word * WORD + bit, round);
            }
        }
    }

    fn plan_reserve(&mut self, number: usize, round: u32) {
        let turn = self.turns[number];
        let demand = turn.outstanding.min(self.limits[turn.limits].reserve(round));
        if turn.channels & self.budgets.open() == 0 || demand == 0 {
            return;
        }
        let (shares, planned) = self.divide(&turn, demand, &[0; MOST_SEATS]);
        for (seat, share) in self.seats[turn.seats..turn.seats_end].iter().zip(shares) {
            if share > 0 {
                let cost = self.budgets.cost(seat.channel, share + turn.header);
                self.budgets.spend(seat.channel, cost.minislots);
            }
        }
        self.limits[turn.limits].plan_reserved(planned);
        self.firsts[number] = shares;
        self.turns_with_firsts += u32::from(planned > 0);
    }

    /// The first shares of a turn, if it has some. Their minislots are given back.
    fn take_firsts(&mut self, number: usize) -> Option<Shares> {
        if self.turns_with_firsts == 0 || self.firsts[number] == [0; MOST_SEATS] {
            return None;
        }
        self.turns_with_firsts -= 1;
        let firsts = std::mem::take(&mut self.firsts[number]);
        let turn = self.turns[number];
        for (seat, first) in self.seats[turn.seats..turn.seats_end].iter().zip(firsts) {
            if first > 0 {
                let cost = self.budgets.cost(seat.channel, first + turn.header);
                self.budgets.give_back(seat.channel, cost.minislots);
            }
        }
        Some(firsts)
    }

    /// Goes through the turns that ask. It ends once no channel carries a byte more and no list of pendings has room.
    fn serve_turns(&mut self, round: u32, boards: &mut Boards) {
        let mut open_lists = self.first_channels;
        for word in 0..self.asking.words.len() {
            for bit in ones(self.asking.words[word]) {
                let number = word * WORD + bit;
                if self.serve_turn(number, round, boards) == 0 {
                    self.list_pending(number, &mut open_lists, boards);
                }
                if self.budgets.open() | open_lists == 0 && self.turns_with_firsts == 0 {
                    return;
                }
            }
        }
    }

    #[inline]
    fn list_pending(&mut self, number: usize, open_lists: &mut Channels, boards: &mut Boards) {
        let Seat { channel, sid, .. } = self.seats[self.turns[number].seats];
        if *open_lists >> channel & 1 != 0 {
            let pendings = &mut boards.of(channel).pendings;
            pendings.push(sid as u16);
            *open_lists &= !(Channels::from(pendings.len() == MOST_PENDINGS) << channel);
        }
    }

    /// Plans what is left for a turn, and places its shares. Answers the bytes that are credited.
    #[inline]
    fn serve_turn(&mut self, number: usize, round: u32, boards: &mut Boards) -> u64 {
        let firsts = self.take_firsts(number);
        let turn = self.turns[number];
        if firsts.is_none() && turn.channels & self.budgets.open() == 0 {
            return 0;
        }
        let firsts = firsts.unwrap_or_default();
        let left = turn.outstanding - firsts.iter().map(|first| u64::from(*first)).sum::<u64>();
        let demand = left.min(self.limits[turn.limits].allowance(round));
        let (shares, planned) = self.divide(&turn, demand, &firsts);
        self.limits[turn.limits].plan(planned);
        let mut credit = 0;
        for (place, seat) in (turn.seats..turn.seats_end).enumerate() {
            let share = firsts[place] + shares[place];
            if share > 0 {
                credit += u64::from(self.place(seat, share, turn.header, boards));
            }
        }
        self.limits[turn.limits].credit(credit);
        self.turns[number].outstanding -= credit;
        self.asking.remove_if(number, turn.outstanding == credit);
        credit
    }

    /// Divides a demand over the channels of a turn by what they carry of it, beside its first shares: the shares, and
    /// what they come to.
    #[inline]
    fn divide(&self, turn: &Turn, demand: u64, firsts: &Shares) -> (Shares, u64) {
        let mut weights = [0; MOST_SEATS];
        let mut total = 0;
        for ((seat, weight), first) in self.seats[turn.seats..turn.seats_end].iter().zip(&mut weights).zip(firsts) {
            *weight = self.budgets.carries(seat.channel).saturating_sub(turn.header + first);
            total += u64::from(*weight);
        }
        if demand >= total {
            return (weights, total);
        }
        let mut shares = [0; MOST_SEATS];
        let mut left = demand;
        for (share, weight) in shares.iter_mut().zip(weights).take(turn.seats_end - turn.seats) {
            *share = (demand * u64::from(weight) / total) as u32;
            left -= u64::from(*share);
        }
        for (share, weight) in shares.iter_mut().zip(weights) {
            if left == 0 {
                break;
            }
            let more = u32::from(*share < weight);
            *share += more;
            left -= u64::from(more);
        }
        (shares, demand)
    }

    /// Spends the budget for a share, and places it. Answers the bytes that are credited.
    #[inline]
    fn place(&mut self, number: usize, share: u32, header: u32, boards: &mut Boards) -> u32 {
        let Seat { channel, sid, .. } = self.seats[number];
        let cost = self.budgets.cost(channel, share + header);
        self.budgets.spend(channel, cost.minislots);
        let board = boards.of(channel);
        if board.is_full() {
            return 0;
        }
        let fit = board.earliest_fit(cost.minislots, 0, u32::MAX).map(|start| (start, cost, share));
        let Some((start, cost, credit)) = fit.or_else(|| self.part(channel, header, board)) else {
            return 0;
        };
        board.put(start, cost.minislots, element(sid, cost.iuc), Holder::Request { seat: number as u16, credit });
        credit
    }

    /// What the longest idle run carries: where it starts, the cost of the grant, and its bytes without a header.
    fn part(&mut self, channel: usize, header: u32, board: &Board) -> Option<(u32, Cost, u32)> {
        let (start, minislots) = board.longest_run()?;
        let bytes = self.budgets.capacity(channel, minislots);
        (bytes > header).then(|| (start, self.budgets.cost(channel, bytes), bytes - header))
    }
}

fn requesting(flow: &Flow) -> Option<(&Flow, &Requests)> {
    match &flow.service {
        Service::Requests(requests) => Some((flow, requests)),
        Service::Grants(_) => None,
    }
}

fn header_of(requests: &Requests) -> u32 {
    if requests.headers {
        HEADER_BYTES
    } else {
        0
    }
}
