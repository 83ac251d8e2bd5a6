// The time line, drawn with a pen: one of a canvas, or one that writes a picture.
//
// A pen has bar (a box without an edge), stack (bars upon bars, column by column), box (with an edge and what is said of it),
// verticals (lines) and text; that of a canvas also has frame (an edge alone).
import { FILLING, FULLEST, MISSED, NUMBERS, addSums } from "./fills.mjs";
import { isFree, KINDS, kindOf } from "./kinds.mjs";
import { LEAST_WINDOW, columnsIn, isNear, roundWidth, rowTop, spanIn, xOf } from "./layouts.mjs";
import { elementsOf, pendingsOf } from "./maps.mjs";
import { grouped, milliseconds, roundStep } from "./numbers.mjs";
import { missesIn, roundTime } from "./occurrences.mjs";
import { roundsIn } from "./views.mjs";
import { wordsOfElement, wordsOfMiss, wordsOfPendings } from "./words.mjs";

const LARGE = 13;
const MIDDLE = 11;
const SMALL = 10;
// of a letter, as a part of the size of its font
const LETTER = 0.6;
// between two labels of an axis
const LABELS = 96;
// an element has an edge where it is at least so wide
const EDGED = 3;
const WORDS = { request: ["request region", "request"], initial: ["maintenance"], idle: [] };
const MINISLOTS_OF_A_MARK = 10;
const LEAST_MARK = 4;

/** Draws a view of a run. Answers the kinds that it shows. */
export function drawTimeLine(run, view, layout, theme, pen) {
  const kinds = new Set();
  pen.bar(0, 0, layout.wide, layout.high, theme.paper);
  drawAxis(run, view, layout, theme, pen);
  run.maps.channels.forEach((channel, place) => {
    drawName(run, channel, place, layout, theme, pen);
    const row = { run, view, layout, theme, pen, kinds, channel: place };
    if (isNear(layout, view)) drawMaps(row);
    else drawFills(row);
  });
  if (isNear(layout, view)) drawMisses({ run, view, layout, theme, pen, kinds });
  return kinds;
}

/** A frame round what is chosen, from a time in rounds to another one. */
export function drawFrame(layout, view, theme, pen, channel, from, to, up, high) {
  const { x, wide } = spanIn(layout, view, from, to);
  if (wide > 0) pen.frame(x - 1, rowTop(layout, channel) - up - 1, Math.max(wide, LEAST_WINDOW) + 2, high + 2, theme.ink);
}

/** A bracket over a window of a channel, given in rounds; its ends show where they are in view. */
export function drawWindow(layout, view, theme, pen, channel, { from, to }) {
  const { x, wide } = spanIn(layout, view, from, to);
  const { up, high } = layout.missed;
  const top = rowTop(layout, channel) - up;
  if (wide < 0) return;
  pen.bar(x - 1, top, wide + 2, 2, theme.ink);
  const ends = [from, to].filter((time) => time >= view.first && time <= view.first + view.wide);
  for (const end of ends) pen.bar(xOf(layout, view, end) - 1, top, 2, high, theme.ink);
}

function drawName(run, channel, place, layout, theme, pen) {
  const x = layout.left - 6;
  const y = rowTop(layout, place) + layout.row / 2;
  const isTold = layout.left > 60;
  const style = { anchor: "end", colour: theme.ink, isBold: true };
  pen.text(x, isTold ? y - 1 : y + 5, `${isTold ? "Channel" : "ch"} ${channel.id}`, isTold ? LARGE : MIDDLE, style);
  if (!isTold) return;
  const ticks = run.plant?.channels.get(channel.id).minislotTicks;
  const length = ticks ? `${channel.slots} × ${ticks * 6.25} µs` : `${channel.slots} minislots`;
  pen.text(x, y + 13, length, MIDDLE, { anchor: "end", colour: theme.faint });
}

/** Lines where rounds begin, with their numbers above, and the time in milliseconds below. */
function drawAxis(run, view, layout, theme, pen) {
  const { bottom, top } = layout;
  const wide = roundWidth(layout, view);
  const step = Math.max(1, roundStep(LABELS / wide));
  const starts = multiples(view, wide >= LEAST_MARK * 2 ? 1 : step);
  const colour = isNear(layout, view) ? theme.border : theme.grid;
  pen.verticals(colour, starts.map((round) => xOf(layout, view, round)), top - 4, bottom - top + 4);
  for (const round of namedRounds(run, view, layout, step)) {
    const x = Math.max(xOf(layout, view, round), layout.left) + 3;
    pen.text(x, top - 9, roundName(layout, round), MIDDLE, { colour: theme.faint });
  }
  if (layout.left <= 60) pen.text(layout.left - 5, top - 9, "round", MIDDLE, { anchor: "end", colour: theme.faint });
  if (run.plant) drawTimes(run, view, layout, theme, pen);
}

function roundName(layout, round) {
  return `${layout.left > 60 ? "round " : ""}${grouped(round)}`;
}

/** The rounds whose numbers are told: each `step`-th one, and the one in which the view begins where there is room. */
function namedRounds(run, view, layout, step) {
  const endOf = (round) => xOf(layout, view, round) + 3 + roundName(layout, round).length * MIDDLE * LETTER;
  const rounds = multiples(view, step).filter((round) => endOf(round) < layout.wide && round < run.maps.rounds);
  const first = Math.floor(view.first);
  const isFirstTold = rounds.length > 0 && xOf(layout, view, rounds[0]) < layout.left + LABELS * 0.7;
  return isFirstTold || step > 1 ? rounds : [first, ...rounds];
}

function drawTimes(run, view, layout, theme, pen) {
  const length = roundTime(run.plant);
  const step = roundStep((LABELS / roundWidth(layout, view)) * length) / length;
  const times = multiples(view, step);
  const style = { anchor: "middle", colour: theme.faint };
  pen.verticals(theme.border, times.map((time) => xOf(layout, view, time)), layout.bottom, 5);
  for (const time of times) {
    const text = milliseconds(Math.round(time * length));
    const x = xOf(layout, view, time);
    const isRoom = x + (text.length * MIDDLE * LETTER) / 2 < layout.wide;
    if (isRoom) pen.text(x, layout.bottom + 17, text, MIDDLE, style);
  }
  pen.text(layout.left - 22, layout.bottom + 17, "ms", MIDDLE, { anchor: "end", colour: theme.faint });
}

/** The multiples of a step, in rounds, that are in view. */
function multiples(view, step) {
  const found = [];
  const last = (view.first + view.wide) * (1 + 1e-12);
  for (let at = Math.ceil(view.first / step - 1e-9); at * step <= last; at++) found.push(at * step);
  return found;
}

/** The MAPs of a channel, element by element, and what is pending. */
function drawMaps(row) {
  const { run, view, layout, theme, pen, channel } = row;
  const { first, end } = roundsIn(view, run.maps.rounds);
  const { slots } = run.maps.channels[channel];
  const marks = [];
  const wideMark = (MINISLOTS_OF_A_MARK / slots) * roundWidth(layout, view);
  for (let round = first; round < end; round++) {
    elementsOf(run.maps, round, channel).forEach((element, place) => drawElement(row, round, element, place));
    drawPendings(row, round);
    for (let slot = 0; slot < slots && wideMark >= LEAST_MARK; slot += MINISLOTS_OF_A_MARK) marks.push(round + slot / slots);
  }
  const inView = marks.filter((time) => time >= view.first && time <= view.first + view.wide);
  pen.verticals(theme.border, inView.map((time) => xOf(layout, view, time)), rowTop(layout, channel) + layout.row + 1, 3);
}

function drawElement({ run, view, layout, theme, pen, kinds, channel }, round, element, place) {
  const { slots } = run.maps.channels[channel];
  const from = round + element.start / slots;
  const { x, wide } = spanIn(layout, view, from, from + element.slots / slots);
  if (wide <= 0) return;
  const kind = kindOf(element.sid, element.iuc);
  const y = rowTop(layout, channel);
  const edge = kind === "idle" ? theme.border : theme.paper;
  kinds.add(kind);
  pen.box(x, y, wide, layout.row, theme[kind], {
    edge: wide >= EDGED ? edge : null,
    isDashed: kind === "idle",
    said: () => wordsOfElement(run, round, channel, place).slice(0, 2).join(" "),
  });
  drawLabel(pen, theme, layout, kind, element, x, y, wide);
}

/** What stands on an element, as far as there is room: its SID, or what it is, above its number of minislots. */
function drawLabel(pen, theme, layout, kind, element, x, y, wide) {
  const names = WORDS[kind] ?? [`SID ${element.sid}`, `${element.sid}`];
  const name = names.find((it) => it.length * LARGE * LETTER <= wide - 4);
  const colour = KINDS[kind].isDark ? "#ffffff" : isFree(kind) ? theme.ink : theme.label;
  const centre = x + wide / 2;
  const middle = y + layout.row / 2;
  const style = { anchor: "middle", colour };
  const isTall = layout.row > LARGE + MIDDLE + 10;
  if (name) {
    pen.text(centre, isTall ? middle - 2 : middle + 5, name, LARGE, style);
    if (isTall) pen.text(centre, middle + 13, `${element.slots}`, MIDDLE, style);
  } else if (!WORDS[kind] && wide >= SMALL && isTall) {
    pen.text(centre, middle + 3.5, `${element.sid}`, Math.min(LARGE - 2, Math.floor(wide) - 1), { ...style, isTurned: true });
  }
}

/** What is pending, at the end of its MAP: the SIDs, or how many there are, where there is room. */
function drawPendings({ run, view, layout, theme, pen, kinds, channel }, round) {
  const sids = pendingsOf(run.maps, round, channel);
  const end = xOf(layout, view, round + 1);
  if (sids.length === 0 || end > layout.left + layout.plot + 1) return;
  const room = Math.min(roundWidth(layout, view), end - layout.left);
  const isTall = layout.pending.high > SMALL;
  const some = sids.length === 1 ? `${sids[0]} pending` : `${sids.length} pending`;
  const names = [`pending: SID ${sids.join(", ")}`, some, `${sids.length}`];
  const name = isTall && names.find((it) => it.length * SMALL * LETTER + 8 <= room);
  const wide = name ? name.length * SMALL * LETTER + 8 : LEAST_WINDOW * 2;
  const y = rowTop(layout, channel) - layout.pending.up;
  const said = () => wordsOfPendings(run, round, channel).join(" ");
  if (wide > room) return;
  kinds.add("pending");
  pen.box(end - wide, y, wide, layout.pending.high, theme.pending, { edge: theme.border, said });
  if (name) pen.text(end - wide / 2, y + 10, name, SMALL, { anchor: "middle", colour: theme.label });
}

/** The windows in which something was missed, each once, with whose it was where there is room before it. */
function drawMisses({ run, view, layout, theme, pen, kinds }) {
  const ends = run.maps.channels.map(() => layout.left);
  let before = {};
  for (const miss of missesIn(run, view)) {
    const { channel, from, to } = miss;
    const isSame = before.channel === channel && before.from === from && before.to === to;
    const { x, wide } = spanIn(layout, view, from, to);
    before = miss;
    if (isSame || x > layout.left + layout.plot) continue;
    kinds.add("missed");
    const y = rowTop(layout, channel) - layout.missed.up;
    const said = () => wordsOfMiss(run, miss).slice(0, 2).join(" ");
    pen.box(x, y, Math.max(wide, LEAST_WINDOW), layout.missed.high, theme.missed, { edge: theme.paper, said });
    const name = `${miss.row.entry === "station" ? "station" : "flow"} ${miss.row.id} missed`;
    const isRoom = x - name.length * SMALL * LETTER - LEAST_WINDOW > ends[channel];
    if (isRoom) pen.text(x - 3, y + layout.missed.high, name, SMALL, { anchor: "end", colour: theme.missed });
    ends[channel] = Math.max(ends[channel], x + wide);
  }
}

/**
 * How full the MAPs of a channel are: a column for each round, or for each pixel where rounds are narrower. Such a one has
 * what its rounds have on average, and stands before what the fullest of them has.
 */
function drawFills({ run, view, layout, theme, pen, kinds, channel }) {
  const columns = columnsOf(run, view, layout, channel);
  const top = rowTop(layout, channel);
  const { x, wide } = spanIn(layout, view, view.first, view.first + view.wide);
  pen.bar(x, top, wide, layout.row, theme.request);
  const colours = { fullest: theme.fullest, kinds: FILLING.map((kind) => theme[kind]), ground: theme.request };
  pen.stack(columns, top, layout.row, colours);
  kinds.add("request");
  if (columns.isOfMany) kinds.add("fullest");
  const isSeen = (place) => columns.sums.some((sum, at) => sum > 0 && at % NUMBERS === place);
  FILLING.filter((_, place) => isSeen(place)).forEach((kind) => kinds.add(kind));
  drawMissedColumns(columns, top - layout.missed.up, layout.missed.high, theme, pen, kinds);
}

/** Where something was missed, columns side by side as one bar. */
function drawMissedColumns({ xs, wides, sums }, y, high, theme, pen, kinds) {
  let first = -1;
  for (let at = 0; at <= xs.length; at++) {
    const isMissed = at < xs.length && sums[at * NUMBERS + MISSED] > 0;
    if (isMissed && first < 0) first = at;
    if (isMissed || first < 0) continue;
    kinds.add("missed");
    pen.bar(xs[first], y, xs[at - 1] + wides[at - 1] - xs[first], high, theme.missed);
    first = -1;
  }
}

/**
 * The columns in view: where each stands, its numbers, which part of its minislots each kind of grant has, and which part of
 * a round's the fullest has.
 */
function columnsOf(run, view, layout, channel) {
  const { count, level, rounds, isOfMany, columnAt } = columnsIn(run, view, layout);
  const columns = { xs: new Float64Array(count), wides: new Float64Array(count), shares: new Float64Array(count * NUMBERS) };
  const sums = new Float64Array(count * NUMBERS);
  const { slots } = run.maps.channels[channel];
  for (let at = 0; at < count; at++) {
    const { first, end, x, wide } = columnAt(at);
    addSums(run, level, channel, first / rounds, Math.ceil(end / rounds), sums, at * NUMBERS);
    const whole = slots * (end - first);
    for (let place = at * NUMBERS; place < (at + 1) * NUMBERS; place++) columns.shares[place] = sums[place] / whole;
    columns.shares[at * NUMBERS + FULLEST] = sums[at * NUMBERS + FULLEST] / slots;
    columns.xs[at] = x;
    columns.wides[at] = wide;
  }
  return { ...columns, sums, isOfMany };
}
