// What is chosen: its words and its lines, and what is beside it, over the stored run of examples/voice.toml.
import assert from "node:assert/strict";
import { test } from "node:test";
import { elementsOf, readMaps } from "../maps.mjs";
import {
  dumpLineOf, grantBeside, grantOnChannel, missBeside, placeOfDumpLine, placeOfReportLine, reportLineOf, spanOfPlace,
  windowOfPlace, wordsOfPlace,
} from "../places.mjs";
import { lineAt } from "../reports.mjs";
import { runOf } from "../runs.mjs";
import { dumpLines, reportLines } from "../texts.mjs";
import { bytesOf, bytesOfHex, caseOf, storedVoice } from "./files.mjs";

const stored = storedVoice();
const run = runOf(stored.config, stored.maps, stored.report);

test("grants one behind the other, over rounds", () => {
  const seen = [];
  for (let place = { channel: 0, round: 0, element: -1 }; seen.length < 6; ) {
    place = grantBeside(run, place, 1);
    seen.push([place.round, elementsOf(run.maps, place.round, 0)[place.element].start]);
  }
  assert.deepEqual(seen, [[0, 24], [0, 32], [0, 38], [0, 44], [1, 0], [2, 0]]);
  assert.deepEqual(grantBeside(run, { channel: 0, round: 1, element: 0 }, -1), { channel: 0, round: 0, element: 4 });
  assert.equal(grantBeside(run, { channel: 0, round: 0, element: 1 }, -1), null);
  assert.equal(grantBeside(run, { channel: 0, round: 11, element: 9 }, 1), null);
});

test("a grant of another channel at the same time, or the next one", () => {
  const call = { channel: 0, round: 0, element: 1 };
  const other = grantOnChannel(run, call, 3);
  assert.deepEqual(elementsOf(run.maps, other.round, 3)[other.element].start, 40);
  const data = grantOnChannel(run, { channel: 0, round: 1, element: 0 }, 1);
  assert.deepEqual([data.round, data.element], [1, 0]);
});

test("the window of a grant", () => {
  assert.deepEqual(windowOfPlace(run, { channel: 0, round: 0, element: 1 }), { from: 0.15, to: 0.55 });
  assert.equal(windowOfPlace(run, { channel: 0, round: 1, element: 0 }), null);
  assert.equal(windowOfPlace(run, { channel: 1, round: 0, misses: [5] }), null);
});

test("what was missed, one window behind the other", () => {
  const first = missBeside(run, { first: 0, end: 12, channel: 0 }, 1);
  assert.deepEqual(first, { channel: 1, round: 0, misses: [5] });
  const second = missBeside(run, first, 1);
  assert.deepEqual(second, { channel: 2, round: 0, misses: [9] });
  assert.deepEqual(missBeside(run, second, -1), first);
  assert.equal(missBeside(run, first, -1), null);
  assert.deepEqual(spanOfPlace(run, first).from, 0.95);
});

test("misses of one window are one place", () => {
  const report = new TextDecoder().decode(stored.report);
  const twice = report.replace("M,0,2,ugs,24,0,0\n", "M,0,2,ugs,24,0,0\nM,0,2,ugs,24,0,1\n");
  const other = runOf(stored.config, stored.maps, bytesOf(twice));
  const place = placeOfReportLine(other, 6);
  assert.deepEqual(place, { channel: 1, round: 0, misses: [5, 6] });
  assert.equal(wordsOfPlace(other, place).at(-1), "Missed here too: 1 more.");
});

test("a place has its lines, and a line has its place", () => {
  for (let line = 0; line < run.report.firsts[12]; line++) {
    const place = placeOfReportLine(run, line);
    assert.equal(reportLineOf(run, place), line);
    assert.ok(wordsOfPlace(run, place).includes(lineAt(run.report, line)));
  }
  const dumped = dumpLines(run, { first: 0, end: 12 });
  for (let line = 0; line < dumped.count; line++) {
    const place = placeOfDumpLine(run, line);
    if (place?.element !== undefined) assert.equal(dumpLineOf(run, place), line);
  }
  assert.equal(placeOfReportLine(run, run.report.starts.length - 1), null);
});

test("texts of rounds in view", () => {
  const { begin, count, lineAt: textAt } = reportLines(run, { first: 10, end: 12 });
  const lines = Array.from({ length: count }, (_, at) => textAt(begin + at));
  const all = new TextDecoder().decode(stored.report).split("\n").slice(0, -1);
  assert.deepEqual(lines, all.filter((line) => !/^[GM],[0-9],/.test(line)));
  assert.equal(reportLines(run, { first: 0, end: 1 }).count, 12);
});

test("MAPs as text are those that mapsim prints", () => {
  const { output, files } = caseOf("dumps.toml", "stored_run");
  const maps = readMaps(bytesOfHex(files.maps.hex));
  const { count, lineAt: textAt } = dumpLines({ maps }, { first: 0, end: 2 });
  assert.equal(Array.from({ length: count }, (_, at) => `${textAt(at)}\n`).join(""), output);
  const { begin, lineAt: laterAt } = dumpLines(run, { first: 1, end: 2 });
  assert.equal(laterAt(begin + 3), "1 1 160 0 104 10");
});
