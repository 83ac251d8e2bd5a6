//! The records of the maps file: MAP bodies with their round and length.

use crate::board::Board;
use crate::config::{Channel, Config};
use crate::elements::{element, BROADCAST, INITIAL_MAINTENANCE, LONG_DATA_GRANT, NOBODY, NULL, REQUEST};
use crate::text::{Part, Text};

/// Round and length of a record, before the body.
const FRONT_BYTES: usize = 6;
const HEAD_BYTES: usize = 16;
const ELEMENT_BYTES: usize = 4;
const MOST_ELEMENTS: usize = 240;
const RECORD_BYTES: usize = FRONT_BYTES + HEAD_BYTES + MOST_ELEMENTS * ELEMENT_BYTES;
/// Where the length of the body and the number of elements stand.
const LENGTH_AT: usize = 4;
const COUNT_AT: usize = FRONT_BYTES + 2;

/// What the records of a channel are made by.
pub struct Recorder<'c> {
    channel: &'c Channel,
    round_ticks: u32,
    lead_ticks: u32,
}

impl<'c> Recorder<'c> {
    pub fn new(channel: &'c Channel, config: &Config) -> Self {
        Recorder { channel, round_ticks: config.round_ticks, lead_ticks: config.lead_ticks }
    }

    /// Adds the record of a round. The numbers of the board's grants stand in the order of their starts.
    pub fn add(&self, round: u32, board: &Board, order: &[u8], text: &mut Text) {
        text.add::<RECORD_BYTES>(|record| {
            self.put_head(round, record);
            self.put_elements(board, order, record);
            let body = record.len() - FRONT_BYTES;
            record.set(LENGTH_AT, &(body as u16).to_be_bytes());
            record.set(COUNT_AT, &[((body - HEAD_BYTES) / ELEMENT_BYTES) as u8]);
        });
    }

    /// Puts the front and the head there, but for the length and the number of elements.
    #[inline(always)]
    fn put_head(&self, round: u32, record: &mut Part<RECORD_BYTES>) {
        let ack_time = (round * self.round_ticks).saturating_sub(self.lead_ticks) >> self.channel.minislot_log2;
        record.put_bytes(&round.to_be_bytes());
        record.put_bytes(&[0, 0, self.channel.id, self.channel.ucd_count, 0, 0]);
        record.put_bytes(&(round * self.channel.len).to_be_bytes());
        record.put_bytes(&ack_time.to_be_bytes());
        record.put_bytes(&self.channel.backoffs);
    }

    #[inline(always)]
    fn put_elements(&self, board: &Board, order: &[u8], record: &mut Part<RECORD_BYTES>) {
        let Channel { len, maintenance_minislots, contention_minislots, .. } = *self.channel;
        let mut end = 0;
        if board.has_maintenance {
            put_element(record, element(BROADCAST, INITIAL_MAINTENANCE));
            end = maintenance_minislots;
        }
        for number in order {
            let grant = &board.grants[*number as usize];
            self.put_gap(end, grant.start(), record);
            put_element(record, grant.element);
            end = grant.start() + u32::from(grant.minislots);
        }
        let contention = len - contention_minislots;
        self.put_gap(end, contention, record);
        if contention < len {
            put_element(record, element(BROADCAST, REQUEST) | contention);
        }
        put_element(record, element(NOBODY, NULL) | len);
        for sid in &board.pendings {
            put_element(record, element(u32::from(*sid), LONG_DATA_GRANT) | len);
        }
    }

    /// Puts the element of the idle minislots there that end at `end`, if there are any.
    #[inline(always)]
    fn put_gap(&self, start: u32, end: u32, record: &mut Part<RECORD_BYTES>) {
        if start < end {
            let sid = if end - start >= self.channel.request_minislots { BROADCAST } else { NOBODY };
            put_element(record, element(sid, REQUEST) | start);
        }
    }
}

#[inline(always)]
fn put_element(record: &mut Part<RECORD_BYTES>, element: u32) {
    record.put_bytes(&element.to_be_bytes());
}
