// Where things stand in the picture of a time line, in pixels: a row for each channel over one axis of time. Above a row
// there is a strip for what is pending and one for what was missed.
import { levelFor } from "./fills.mjs";
import { elementsOf, pendingsOf } from "./maps.mjs";
import { firstWhere } from "./numbers.mjs";
import { missesIn } from "./occurrences.mjs";

/** A window is drawn at least so wide. */
export const LEAST_WINDOW = 5;

// elements are drawn one by one where a round is at least so wide; else how full rounds are
const NEAR = 64;
// columns stand apart where they are wider
const APART = 4;

const TALL = { row: 42, above: 26, pending: { up: 25, high: 13 }, missed: { up: 10, high: 8 }, below: 10 };
const LOW = { row: 26, above: 16, pending: { up: 15, high: 6 }, missed: { up: 7, high: 6 }, below: 6 };
const MOST_TALL = 8;
const TOP = 24;
const AXIS = 34;
const RIGHT = 12;
const NARROW = 600;

/** The layout of a picture so wide with so many channels. */
export function layoutOf(wide, channels) {
  const sizes = channels > MOST_TALL ? LOW : TALL;
  const left = wide < NARROW ? 40 : 104;
  const pitch = sizes.above + sizes.row + sizes.below;
  const bottom = TOP + channels * pitch;
  return { ...sizes, wide, left, plot: wide - left - RIGHT, top: TOP, pitch, bottom, high: bottom + AXIS, channels };
}

/** The top of a channel's row. */
export function rowTop(layout, channel) {
  return layout.top + channel * layout.pitch + layout.above;
}

/** Where a time in rounds stands. */
export function xOf(layout, view, time) {
  return layout.left + ((time - view.first) / view.wide) * layout.plot;
}

/** The time in rounds that stands there. */
export function timeAt(layout, view, x) {
  return view.first + ((x - layout.left) / layout.plot) * view.wide;
}

/** How wide a round is. */
export function roundWidth(layout, view) {
  return layout.plot / view.wide;
}

/** The part of a span, in rounds, that is in view: where it begins and how wide it is. */
export function spanIn(layout, view, from, to) {
  const x = Math.max(xOf(layout, view, from), layout.left);
  return { x, wide: Math.min(xOf(layout, view, to), layout.left + layout.plot) - x };
}

/** Whether elements are drawn one by one. */
export function isNear(layout, view) {
  return roundWidth(layout, view) >= NEAR;
}

/**
 * The columns of a view where elements aren't drawn one by one: one for each round, or for each pixel where rounds are
 * narrower (`isOfMany`). `count` is how many there are, `level` which level of the run's fills they are sums of, and `rounds`
 * of how many rounds its numbers are. `columnAt` answers from which round to before which one a column is, and where it is.
 */
export function columnsIn(run, view, layout) {
  const inColumn = Math.max(1, view.wide / layout.plot);
  const isOfMany = inColumn > 1;
  const level = levelFor(run.fills, inColumn);
  const rounds = 2 ** level;
  const last = Math.ceil(Math.min(view.first + view.wide, run.maps.rounds) / rounds) * rounds;
  const count = isOfMany ? layout.plot : last - Math.floor(view.first);
  const begins = (at) => Math.floor((view.first + at * inColumn) / rounds) * rounds;
  const roundAt = (at) => (at < count ? begins(at) : Math.min(last, run.maps.rounds));
  const columnAt = (at) => {
    const [first, end] = [roundAt(at), roundAt(at + 1)];
    const place = isOfMany ? { x: layout.left + at, wide: 1 } : columnOf(layout, view, first);
    return { first, end, ...place };
  };
  return { count, level, rounds, isOfMany, columnAt };
}

/** Where the column of one round stands: on whole pixels where it is narrow, so that no line shows between two. */
function columnOf(layout, view, round) {
  const { x, wide } = spanIn(layout, view, round, round + 1);
  if (wide > APART) return { x, wide: wide - 1 };
  return { x: Math.round(x), wide: Math.max(Math.round(x + wide) - Math.round(x), 1) };
}

/**
 * What stands at a point, as a place: { channel, round, element }, { channel, round, misses } with lines of the report,
 * { channel, round, isPending }, or { channel, first, end } of rounds where these aren't drawn one by one. Null for nothing.
 */
export function placeAt(run, view, layout, x, y) {
  const channel = Math.floor((y - layout.top) / layout.pitch);
  const time = timeAt(layout, view, x);
  const isInside = x >= layout.left && x <= layout.left + layout.plot && channel >= 0 && channel < layout.channels;
  const round = Math.floor(time);
  if (!isInside || round < 0 || round >= run.maps.rounds) return null;
  const up = rowTop(layout, channel) - y;
  if (!isNear(layout, view)) return fillAt(run, view, layout, channel, x);
  if (up <= 0) return up >= -layout.row ? elementAt(run, channel, time) : null;
  if (up <= layout.missed.up + 1) return missesAt(run, view, layout, channel, x);
  return pendingsOf(run.maps, round, channel).length > 0 ? { channel, round, isPending: true } : null;
}

/** The rounds of the column that is drawn there. */
function fillAt(run, view, layout, channel, x) {
  const columns = columnsIn(run, view, layout);
  const at = firstWhere(columns.count, (place) => columns.columnAt(place).x > x) - 1;
  const { first, end } = columns.columnAt(Math.max(at, 0));
  return { channel, first, end };
}

function elementAt(run, channel, time) {
  const round = Math.floor(time);
  const minislot = (time - round) * run.maps.channels[channel].slots;
  const elements = elementsOf(run.maps, round, channel);
  const element = firstWhere(elements.length, (at) => elements[at].start + elements[at].slots > minislot);
  return { channel, round, element: Math.min(element, elements.length - 1) };
}

function missesAt(run, view, layout, channel, x) {
  const isThere = (miss) => {
    const from = xOf(layout, view, miss.from);
    return miss.channel === channel && x >= from - 1 && x <= Math.max(xOf(layout, view, miss.to), from + LEAST_WINDOW) + 1;
  };
  const misses = missesIn(run, view).filter(isThere);
  return misses.length > 0 ? { channel, round: misses[0].row.round, misses: misses.map((miss) => miss.line) } : null;
}
