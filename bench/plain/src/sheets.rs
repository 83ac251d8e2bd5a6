//! The texts of some rounds: what of both files they are.

use crate::board::Board;
use crate::calendar::Calendar;
use crate::config::{Channel, Config};
use crate::lines::{Liner, SeatPieces};
use crate::planner::Seat;
use crate::records::Recorder;
use crate::starts::Starts;
use crate::text::Text;

/// What the texts of a channel are made by.
struct Scribe<'c> {
    recorder: Recorder<'c>,
    liner: Liner,
    /// Minislots of a MAP.
    len: u32,
}

/// What texts are made by.
pub struct Scribes<'c> {
    of_channels: Vec<Scribe<'c>>,
    seats: SeatPieces,
}

impl<'c> Scribes<'c> {
    pub fn new(config: &'c Config, calendars: &[Calendar], seats: &[Seat]) -> Self {
        let scribe = |(channel, calendar): (&'c Channel, &Calendar)| Scribe {
            recorder: Recorder::new(channel, config),
            liner: Liner::new(channel.id, &calendar.labels),
            len: channel.len,
        };
        let of_channels = config.channels.iter().zip(calendars).map(scribe).collect();
        Scribes { of_channels, seats: SeatPieces::new(seats) }
    }
}

/// G and M lines.
#[derive(Clone, Copy, Default)]
pub struct Lines {
    pub granted: usize,
    pub missed: usize,
}

pub struct Sheet {
    pub maps: Text,
    pub report: Text,
    /// How many lines it has had since it was made.
    pub lines: Lines,
    starts: Starts,
}

impl Sheet {
    pub fn new() -> Sheet {
        Sheet { maps: Text::default(), report: Text::default(), lines: Lines::default(), starts: Starts::new() }
    }

    pub fn clear(&mut self) {
        self.maps.clear();
        self.report.clear();
    }

    /// Adds the record and the lines of a channel's MAP.
    pub fn add(&mut self, scribes: &Scribes, channel: usize, round: u32, board: &Board) {
        let scribe = &scribes.of_channels[channel];
        let order = self.starts.order(board, scribe.len);
        scribe.recorder.add(round, board, order, &mut self.maps);
        scribe.liner.add(round, board, order, &scribes.seats, &mut self.report);
        self.lines.granted += board.grants.len();
        self.lines.missed += board.missed.len();
    }

    pub fn bytes(&self) -> usize {
        self.maps.as_bytes().len() + self.report.as_bytes().len()
    }
}
