//! The lines of the report.

use crate::board::{Board, Grant, Holder};
use crate::calendar::{Calendar, Label};
use crate::config::{Config, Service, Type};
use crate::planner::{Seat, State};
use crate::text::{Part, Piece, Text};
use crate::trace::Passed;

/// No G or M line has as many bytes, nor does one with what is written behind it.
const LINE_BYTES: usize = 128;

/// The parts of a calendar's lines that never change, as in `G,0,1,` `ugs,21,` `0,0,` `121,11,` `24,` `8,0`.
struct LabelPieces {
    entry: Piece<16>,
    owner: Piece<16>,
    minislots: Piece<8>,
}

impl LabelPieces {
    fn new(label: &Label) -> LabelPieces {
        LabelPieces {
            entry: Piece::new(&format!("{},{},", label.word, label.id)),
            owner: Piece::new(&format!("{},{},", label.sid, label.iuc)),
            minislots: Piece::new(&format!("{},0\n", label.minislots)),
        }
    }
}

/// `req,flow,cluster,0,sid,` of each seat.
pub struct SeatPieces(Vec<Piece<31>>);

impl SeatPieces {
    pub fn new(seats: &[Seat]) -> SeatPieces {
        let piece = |seat: &Seat| {
            Piece::build(|piece| {
                piece.put_bytes(b"req,");
                piece.put_number(seat.flow);
                piece.put_number(seat.cluster);
                piece.put_bytes(b"0,");
                piece.put_number(seat.sid);
            })
        };
        SeatPieces(seats.iter().map(piece).collect())
    }
}

/// What the lines of a channel are made by.
pub struct Liner {
    /// `channel,`
    channel: Piece<4>,
    labels: Vec<LabelPieces>,
}

impl Liner {
    pub fn new(id: u8, labels: &[Label]) -> Liner {
        Liner { channel: Piece::new(&format!("{id},")), labels: labels.iter().map(LabelPieces::new).collect() }
    }

    /// Adds the lines of a round. The numbers of the board's grants stand in the order of their starts.
    pub fn add(&self, round: u32, board: &Board, order: &[u8], seats: &SeatPieces, text: &mut Text) {
        if order.is_empty() && board.missed.is_empty() {
            return;
        }
        let granted = self.front(round);
        for number in order {
            text.add::<LINE_BYTES>(|line| {
                line.put(&granted);
                self.put_granted(&board.grants[*number as usize], seats, line);
            });
        }
        let front = granted.with_first(b'M');
        for missed in &board.missed {
            text.add::<LINE_BYTES>(|line| {
                line.put(&front);
                line.put(&self.labels[missed.label as usize].entry);
                line.put_number(missed.i);
                line.put_number(u32::from(missed.k));
                line.end_line();
            });
        }
    }

    /// `G,round,channel,`
    fn front(&self, round: u32) -> Piece<24> {
        Piece::build(|front| {
            front.put_bytes(b"G,");
            front.put_number(round);
            front.put(&self.channel);
        })
    }

    #[inline(always)]
    fn put_granted(&self, grant: &Grant, seats: &SeatPieces, line: &mut Part<LINE_BYTES>) {
        match grant.holder {
            Holder::Occurrence { label, k, i } => {
                let label = &self.labels[label as usize];
                line.put(&label.entry);
                line.put_number(i);
                line.put_number(u32::from(k));
                line.put(&label.owner);
                line.put_number(grant.start());
                line.put(&label.minislots);
            }
            Holder::Request { seat, credit } => {
                line.put(&seats.0[seat as usize]);
                line.put_number(grant.iuc());
                line.put_number(grant.start());
                line.put_number(u32::from(grant.minislots));
                line.put_number(credit);
                line.end_line();
            }
        }
    }
}

/// The lines that stand behind those of all rounds: what each cluster has outstanding and its flow's bucket holds,
/// which flows are active, and how many rows of the trace were passed over.
pub fn last(config: &Config, states: &[State], calendars: &[Calendar], passed: &Passed) -> String {
    let mut lines = String::new();
    let mut states = states.iter();
    for flow in config.flows.iter().filter(|flow| matches!(flow.service, Service::Requests(_))) {
        for (cluster, State { outstanding, units }) in (0..flow.clusters.len()).zip(&mut states) {
            let units = units.map_or("-".to_string(), |units| units.to_string());
            lines += &format!("F,{},{cluster},{outstanding},{units}\n", flow.id);
        }
    }
    for flow in config.flows.iter().filter(|flow| flow.kind == Type::ActivityDetection) {
        let is_active = calendars[flow.channels[0]].is_active(flow.id);
        lines += &format!("A,{},{}\n", flow.id, u8::from(is_active));
    }
    lines + &format!("U,{},{},{}\n", passed.unknown, passed.not_requestable, passed.late)
}
