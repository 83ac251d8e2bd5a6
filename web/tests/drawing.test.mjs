// Where things stand in the time line, and what a picture of it has.
import assert from "node:assert/strict";
import { test } from "node:test";
import { drawTimeLine } from "../drawing.mjs";
import { MISSED, NUMBERS } from "../fills.mjs";
import { LIGHT } from "../kinds.mjs";
import { columnsIn, isNear, layoutOf, placeAt, rowTop, timeAt, xOf } from "../layouts.mjs";
import { runOf } from "../runs.mjs";
import { escaped, pictureOf } from "../svg.mjs";
import { wholeView } from "../views.mjs";
import { storedRun, storedVoice } from "./files.mjs";

const stored = storedVoice();
const run = runOf(stored.config, stored.maps, stored.report);
const layout = layoutOf(1000, 4);

function count(text, what) {
  return text.split(what).length - 1;
}

test("a time has a place, and a place a time", () => {
  const view = { first: 3, wide: 2 };
  assert.equal(xOf(layout, view, 3), layout.left);
  assert.equal(xOf(layout, view, 5), layout.left + layout.plot);
  assert.equal(timeAt(layout, view, xOf(layout, view, 4.25)), 4.25);
  assert.equal(isNear(layout, view), true);
  assert.equal(isNear(layout, wholeView(20000)), false);
});

test("what stands at a point", () => {
  const view = wholeView(12);
  const at = (round, minislot, slots, channel, up) =>
    placeAt(run, view, layout, xOf(layout, view, round + (minislot + 0.5) / slots), rowTop(layout, channel) - up);
  assert.deepEqual(at(0, 25, 160, 0, -5), { channel: 0, round: 0, element: 1 });
  assert.deepEqual(at(0, 159, 160, 0, -5), { channel: 0, round: 0, element: 6 });
  assert.deepEqual(at(1, 100, 160, 0, 20), { channel: 0, round: 1, isPending: true });
  assert.deepEqual(at(0, 153, 160, 1, 5), { channel: 1, round: 0, misses: [5] });
  assert.equal(at(0, 10, 160, 1, 5), null);
  assert.equal(placeAt(run, view, layout, 5, 50), null);
  assert.equal(placeAt(run, view, layout, 500, 5), null);
});

test("where rounds are narrow, a point has rounds", () => {
  const small = layoutOf(320, 4);
  const view = wholeView(12);
  assert.deepEqual(placeAt(run, view, small, xOf(small, view, 3.5), rowTop(small, 2) + 5), { channel: 2, first: 3, end: 4 });
});

/** A run of one channel so long, in which one round has a miss. */
function longRun(rounds, missed) {
  const fills = [];
  do {
    const level = 2 ** fills.length;
    const numbers = new Uint32Array(Math.ceil(rounds / level) * NUMBERS);
    numbers[Math.floor(missed / level) * NUMBERS + MISSED] = 1;
    fills.push(numbers);
  } while (fills.at(-1).length > NUMBERS);
  return { plant: null, maps: { rounds, channels: [{ id: 1, slots: 160 }] }, fills };
}

/** The pixels from which to before which something missed is drawn. */
function drawnMiss(long, view, small) {
  const bars = [];
  const pen = { bar: (x, _, wide, __, colour) => colour === LIGHT.missed && bars.push([x, x + wide]) };
  const others = { stack: () => {}, verticals: () => {}, text: () => {} };
  drawTimeLine(long, view, small, LIGHT, { ...pen, ...others });
  assert.equal(bars.length, 1);
  return bars[0];
}

test("where rounds are narrow, a point has the rounds that are drawn there", () => {
  const small = layoutOf(320, 1);
  const views = [[0, 2001], [20, 804], [20.7, 804.3], [700.2, 1000.8], [700.4, 268.1], [750.4, 100.3], [400, 536], [800, 536]];
  for (const [first, wide] of views) {
    const long = longRun(2001, 816);
    const view = { first, wide };
    const [from, to] = drawnMiss(long, view, small);
    for (let x = small.left; x < small.left + small.plot; x++) {
      const place = placeAt(long, view, small, x, rowTop(small, 0) + 5);
      assert.ok(place.first < place.end);
      assert.equal(place.first <= 816 && 816 < place.end, from <= x && x < to, `${[first, wide, x]}`);
    }
  }
});

test("the columns of a view have each of its rounds once", () => {
  const small = layoutOf(320, 1);
  for (const [first, wide] of [[0, 2001], [3.7, 804.3], [1196.2, 804.8], [700.4, 268.1], [5, 4]]) {
    const { count, columnAt } = columnsIn(longRun(2001, 0), { first, wide }, small);
    let end = columnAt(0).first;
    assert.ok(end <= first);
    for (let at = 0; at < count; at++) {
      assert.equal(columnAt(at).first, end);
      end = columnAt(at).end;
    }
    assert.ok(end >= first + wide);
  }
});

test("a picture of two rounds has each element once, with its words", () => {
  const picture = pictureOf(run, { first: 4, wide: 2 }, "voice.toml");
  assert.match(picture, /^<svg xmlns="http:\/\/www\.w3\.org\/2000\/svg" viewBox="0 0 1200 [0-9]+"/);
  assert.equal(count(picture, "<title>Rounds 4 and 5, 8 to 12 ms</title>"), 1);
  assert.equal(count(picture, "Flow 2, best effort: 2,447 bytes credited."), 1);
  assert.equal(count(picture, ": not granted in its window, which ended in round "), 4);
  assert.equal(count(picture, ">flow 24 missed<"), 1);
  assert.equal(count(picture, ">SID 102<"), 1);
  assert.equal(count(picture, "NaN"), 0);
});

test("a picture of all rounds has a path for each kind and row", () => {
  const picture = pictureOf(run, wholeView(12), "<voice>");
  assert.equal(count(picture, "&lt;voice&gt;"), 1);
  assert.equal(count(picture, "NaN"), 0);
  assert.equal(escaped('a<b&"c">'), "a&lt;b&amp;&quot;c&quot;&gt;");
});

test("pictures of other stored runs", () => {
  for (const [file, name, config] of [["bonded.toml", "bonded_example", "examples/bonded.toml"]]) {
    const other = storedRun(file, name, config);
    const picture = pictureOf(runOf(other.config, other.maps, other.report), wholeView(6), name);
    assert.match(picture, /pending: SID/);
  }
});
