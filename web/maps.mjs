// Maps files, by docs/FORMATS.md: records of a round, the length of a body, and a MAP body. Elements are read from the
// bytes when they are drawn.
import { Refused, firstWhere } from "./numbers.mjs";

const RECORD_HEAD = 6;
const BODY_HEAD = 16;
const NULL = 7;

function u16(bytes, at) {
  return (bytes[at] << 8) | bytes[at + 1];
}

function u32(bytes, at) {
  return ((bytes[at] << 24) | (bytes[at + 1] << 16) | (bytes[at + 2] << 8) | bytes[at + 3]) >>> 0;
}

/**
 * Reads a maps file that has a MAP for each round and channel, by round and then by channel.
 * Answers its bytes, where each record begins, its channels (id, minislots of a MAP), and how many rounds it has.
 * @throws {Refused} the first record that is none, or not that of its round and channel
 */
export function readMaps(bytes) {
  const starts = startsOf(bytes);
  const channels = channelsOf(bytes, starts);
  const rounds = Math.ceil(starts.length / channels.length);
  if (starts.length < rounds * channels.length) throw new Refused(`Round ${rounds - 1} doesn't have a MAP of each channel.`);
  starts.forEach((start, record) => {
    const round = Math.floor(record / channels.length);
    const channel = channels[record % channels.length];
    const isOfIt = u32(bytes, start) === round && bytes[start + RECORD_HEAD] === channel.id;
    if (!isOfIt || !isMap(bytes, start, round, channel.slots)) {
      throw new Refused(`Record ${record} of the maps file isn't the MAP of round ${round} and channel ${channel.id}.`);
    }
  });
  return { bytes, starts, channels, rounds };
}

/** The first round in which two maps files differ that have as many rounds and the same channels; -1 where none does. */
export function firstOtherRound(one, other) {
  let same = 0;
  while (same < one.bytes.length && one.bytes[same] === other.bytes[same]) same++;
  if (same === one.bytes.length && same === other.bytes.length) return -1;
  const records = firstWhere(one.starts.length, (record) => one.starts[record] > same);
  return Math.floor((records - 1) / one.channels.length);
}

/** Where each record begins. */
function startsOf(bytes) {
  const starts = new Uint32Array(countRecords(bytes));
  let at = 0;
  for (let record = 0; record < starts.length; record++) {
    starts[record] = at;
    at = endOf(bytes, at);
  }
  return starts;
}

function countRecords(bytes) {
  let records = 0;
  for (let at = 0; at < bytes.length; at = endOf(bytes, at)) {
    const elements = at + RECORD_HEAD + 2 < bytes.length ? bytes[at + RECORD_HEAD + 2] : 0;
    if (endOf(bytes, at) > bytes.length || endOf(bytes, at) !== at + RECORD_HEAD + BODY_HEAD + 4 * elements) {
      throw new Refused(`Record ${records} of the maps file isn't one: it ends early, or its length is wrong.`);
    }
    records++;
  }
  return records;
}

function endOf(bytes, start) {
  return start + RECORD_HEAD + u16(bytes, start + 4);
}

/** The channels of the first round. */
function channelsOf(bytes, starts) {
  const channels = [];
  for (const start of starts) {
    const id = bytes[start + RECORD_HEAD];
    if (u32(bytes, start) !== 0 || channels.some((it) => it.id === id)) break;
    channels.push({ id, slots: lengthOf(bytes, start) });
  }
  if (channels.length === 0) throw new Refused("The maps file doesn't begin with a MAP of round 0.");
  return channels;
}

/** The offset of the Null, which is the length of the MAP in minislots; 0 where there is none. */
function lengthOf(bytes, start) {
  const end = endOf(bytes, start);
  for (let at = start + RECORD_HEAD + BODY_HEAD; at < end; at += 4) {
    const word = u32(bytes, at);
    if (((word >>> 14) & 15) === NULL) return word & 0x3fff;
  }
  return 0;
}

/** Whether the elements up to the Null rise from 0, and the MAP begins and ends where that of the round does. */
function isMap(bytes, start, round, slots) {
  const end = endOf(bytes, start);
  let before = -1;
  if (slots === 0 || u32(bytes, start + RECORD_HEAD + 4) !== round * slots) return false;
  for (let at = start + RECORD_HEAD + BODY_HEAD; at < end; at += 4) {
    const word = u32(bytes, at);
    const offset = word & 0x3fff;
    if (before < 0 ? offset !== 0 : offset <= before) return false;
    if (((word >>> 14) & 15) === NULL) return offset === slots;
    before = offset;
  }
  return false;
}

/** Visits each element of a MAP before its Null: SID, IUC, first minislot, number of minislots. */
export function eachElement(maps, record, visit) {
  const start = maps.starts[record];
  const end = endOf(maps.bytes, start);
  let word = u32(maps.bytes, start + RECORD_HEAD + BODY_HEAD);
  for (let at = start + RECORD_HEAD + BODY_HEAD + 4; at < end && ((word >>> 14) & 15) !== NULL; at += 4) {
    const next = u32(maps.bytes, at);
    visit(word >>> 18, (word >>> 14) & 15, word & 0x3fff, (next & 0x3fff) - (word & 0x3fff));
    word = next;
  }
}

/** The number of the record of a round and a channel, which is counted from 0 in the order of the file. */
export function recordOf(maps, round, channel) {
  return round * maps.channels.length + channel;
}

/** The elements of a MAP before its Null. */
export function elementsOf(maps, round, channel) {
  const elements = [];
  eachElement(maps, recordOf(maps, round, channel), (sid, iuc, start, slots) => elements.push({ sid, iuc, start, slots }));
  return elements;
}

/** The SIDs that are pending, which stand after the Null. */
export function pendingsOf(maps, round, channel) {
  const start = maps.starts[recordOf(maps, round, channel)];
  const words = [];
  for (let at = start + RECORD_HEAD + BODY_HEAD; at < endOf(maps.bytes, start); at += 4) words.push(u32(maps.bytes, at));
  return words.slice(words.findIndex((word) => ((word >>> 14) & 15) === NULL) + 1).map((word) => word >>> 18);
}

/** How many elements stand before a record, with each Null and what follows it. The number of all records is allowed. */
export function elementsBefore(maps, record) {
  const at = record < maps.starts.length ? maps.starts[record] : maps.bytes.length;
  return (at - record * (RECORD_HEAD + BODY_HEAD)) / 4;
}

/** An element of a record, counted from 0, as a line of `mapsim dump`: round, channel, offset, length, SID, IUC. */
export function dumpedLine(maps, record, element) {
  const start = maps.starts[record];
  const at = start + RECORD_HEAD + BODY_HEAD + 4 * element;
  const word = u32(maps.bytes, at);
  const isBeforeNull = (word & 0x3fff) < maps.channels[record % maps.channels.length].slots;
  const slots = isBeforeNull ? (u32(maps.bytes, at + 4) & 0x3fff) - (word & 0x3fff) : 0;
  const iuc = (word >>> 14) & 15;
  return `${u32(maps.bytes, start)} ${maps.bytes[start + RECORD_HEAD]} ${word & 0x3fff} ${slots} ${word >>> 18} ${iuc}`;
}
