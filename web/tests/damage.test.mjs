// Damaged maps files, reports and configurations are refused in a sentence, or shown: nothing else stops the page.
import assert from "node:assert/strict";
import { test } from "node:test";
import { drawTimeLine } from "../drawing.mjs";
import { LIGHT } from "../kinds.mjs";
import { layoutOf, placeAt } from "../layouts.mjs";
import { Refused } from "../numbers.mjs";
import { missBeside, grantBeside, wordsOfPlace } from "../places.mjs";
import { runOf } from "../runs.mjs";
import { pictureOf } from "../svg.mjs";
import { dumpLines, reportLines } from "../texts.mjs";
import { bytesOf, storedVoice } from "./files.mjs";

const INPUTS = Number(process.env.DAMAGED_INPUTS ?? 60);
const stored = storedVoice();
const text = new TextDecoder().decode(stored.report);

/** Numbers from 0 to below a bound, the same for each seed. */
function chance(seed) {
  let state = (seed * 2654435761 + 12345) >>> 0;
  return (bound) => {
    state = (Math.imul(state, 1664525) + 1013904223) >>> 0;
    return Math.floor((state / 2 ** 32) * bound);
  };
}

function damagedBytes(bytes, next) {
  const copy = bytes.slice();
  for (let count = 1 + next(3); count > 0; count--) copy[next(copy.length)] = next(256);
  return next(4) === 0 ? copy.subarray(0, next(copy.length)) : copy;
}

function damagedReport(next) {
  const lines = text.split("\n").slice(0, -1);
  const at = next(lines.length);
  const fields = lines[at].split(",");
  fields[next(fields.length)] = ["0", "7", "999999999999999999999", "", "x", "ugs", "station", "12"][next(8)];
  lines[at] = fields.join(",");
  if (next(3) === 0) lines.splice(next(lines.length), 1, lines[next(lines.length)]);
  return bytesOf(`${lines.join("\n")}\n`);
}

/** Shows all of a run: each part of the picture, all words, all texts. */
function showAll(run) {
  const pen = { bar() {}, stack() {}, box: (x, y, wide, high, colour, { said }) => said(), verticals() {}, text() {} };
  const layout = layoutOf(1000, run.maps.channels.length);
  for (const wide of [run.maps.rounds, Math.min(2, run.maps.rounds)]) {
    const view = { first: 0, wide };
    drawTimeLine(run, view, layout, LIGHT, pen);
    for (let x = 0; x < 1000; x += 50) {
      for (let y = 0; y < layout.high; y += 9) {
        const place = placeAt(run, view, layout, x, y);
        if (place) wordsOfPlace(run, place);
      }
    }
  }
  for (const beside of [missBeside, grantBeside]) {
    const start = { first: 0, channel: 0 };
    for (let place = beside(run, start, 1); place; place = beside(run, place, 1)) wordsOfPlace(run, place);
  }
  for (const linesOf of [reportLines, dumpLines]) {
    const { begin, count, lineAt } = linesOf(run, { first: 0, end: run.maps.rounds });
    for (let line = begin; line < begin + count; line++) lineAt(line);
  }
  assert.ok(!pictureOf(run, { first: 0, wide: 1 }, "damaged").includes("NaN"));
}

test("damage", () => {
  let shown = 0;
  for (let input = 0; input < INPUTS; input++) {
    const next = chance(input);
    const which = next(4);
    const config = which === 0 ? damagedBytes(stored.config, next) : stored.config;
    const maps = which === 1 ? damagedBytes(stored.maps, next) : stored.maps;
    const report = which === 2 ? damagedReport(next) : which === 3 ? damagedBytes(stored.report, next) : stored.report;
    try {
      showAll(runOf(config, maps, report));
      shown++;
    } catch (error) {
      assert.ok(error instanceof Refused, `input ${input}: ${error.stack}`);
      assert.match(error.message, /^[A-Z].*\.$/);
    }
  }
  assert.ok(shown > INPUTS / 3, `${shown} of ${INPUTS} were shown`);
});
