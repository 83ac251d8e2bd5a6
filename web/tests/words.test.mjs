// Words and sums of what is drawn, over the stored run of examples/voice.toml.
import assert from "node:assert/strict";
import { test } from "node:test";
import { FILLING, FULLEST, MISSED, NUMBERS, addSums, fillsOf, levelFor, sumOfRounds } from "../fills.mjs";
import { elementsOf } from "../maps.mjs";
import { longestWindow, missOf, missesIn, occurrenceOf, windowOf } from "../occurrences.mjs";
import { grantBeside } from "../places.mjs";
import { runOf } from "../runs.mjs";
import { panned, roundsIn, showing, withinRun, wholeView, zoomed } from "../views.mjs";
import { titleOf, wordsOfCounts, wordsOfElement, wordsOfFill, wordsOfMiss, wordsOfPendings, wordsOfRun } from "../words.mjs";
import { bytesOf, storedRun, storedVoice } from "./files.mjs";

const stored = storedVoice();
const run = runOf(stored.config, stored.maps, stored.report);

/** The words of the element of a round, on a channel by its place, that starts at a minislot. */
function wordsAt(of, round, channel, start) {
  const place = elementsOf(of.maps, round, channel).findIndex((it) => it.start === start);
  return wordsOfElement(of, round, channel, place);
}

test("the counts of a run, beside those of a run before", () => {
  const counts = { rounds: 12, granted: 1105, missed: 0, unknown: 0, notRequestable: 0, late: 0 };
  assert.equal(wordsOfCounts(counts, null), "12 rounds, 1,105 granted, 0 missed.");
  const others = { ...counts, missed: 22 };
  assert.equal(wordsOfCounts(others, counts), "12 rounds, 1,105 granted, 22 missed (0 before).");
  const rows = wordsOfCounts({ ...counts, unknown: 1, late: 2 }, null).split(". ")[1];
  assert.equal(rows, "Rows of the trace without effect: 1 with a SID that no flow has there, 2 after the last round.");
});

test("in which round a run begins to differ from one before", () => {
  const maps = stored.maps.slice();
  const record = run.maps.starts[5 * 4 + 2];
  maps[record + 6 + 1] ^= 1;
  const other = runOf(stored.config, maps, stored.report);
  assert.match(wordsOfRun(other, run), /^12 rounds, 105 granted, 22 missed\. .* The MAPs differ from those before from round 5 on\.$/);
  assert.match(wordsOfRun(run, run), / The MAPs are as before\.$/);
  assert.doesNotMatch(wordsOfRun(run, null), /before/);
});

test("an unsolicited grant that is late", () => {
  assert.deepEqual(wordsAt(run, 0, 0, 38), [
    "Unsolicited grant. Channel 1, round 0, SID 122, IUC 11, minislots 38 to 43 (6), from 0.475 to 0.55 ms.",
    "Flow 22, UGS, interval 0, grant 2 of 2: due at 0.3 ms, 0.175 ms late; 0.8 ms are allowed.",
    "G,0,1,ugs,22,0,1,122,11,38,6,0",
  ]);
});

test("a requested grant, a poll, station maintenance, and a grant to the minislot", () => {
  assert.equal(wordsAt(run, 1, 0, 0)[1], "Flow 2, best effort: 4,776 bytes credited.");
  assert.equal(wordsAt(run, 0, 1, 16)[1], "Flow 31, rtPS, interval 0: due at 0.2 ms, on time; 0.5 ms are allowed.");
  assert.equal(wordsAt(run, 0, 0, 44)[1], "Station 51, interval 0: due at 0.3 ms, 0.25 ms late; 1 ms are allowed.");
  assert.equal(wordsAt(run, 0, 3, 120)[1], "Flow 25, UGS, interval 1: due at 1.5 ms, on time; no jitter is allowed.");
});

test("a region that nobody has", () => {
  assert.deepEqual(wordsAt(run, 0, 0, 150), [
    "Request region, for any modem. Channel 1, round 0, SID 16383, IUC 1, minislots 150 to 159 (10), from 1.875 to 2 ms.",
  ]);
});

test("what was missed", () => {
  assert.deepEqual(wordsOfMiss(run, missOf(run, 5)), [
    "Missed on channel 2: not granted in its window, which ended in round 0.",
    "Flow 24, UGS, interval 0: due at 1.9 ms, at the latest at 1.98 ms.",
    "M,0,2,ugs,24,0,0",
  ]);
  const words = wordsOfMiss(run, missOf(run, 9))[1];
  assert.equal(words, "Flow 26, UGS, interval 1: due at 1.51 ms, no jitter is allowed, and no minislot begins then.");
});

test("windows in view", () => {
  assert.equal(longestWindow(run.plant), 2.5);
  assert.deepEqual(missesIn(run, { first: 0, wide: 1 }).map((miss) => miss.row.id), [24, 26]);
  assert.deepEqual(missesIn(run, { first: 0.5, wide: 0.3 }).map((miss) => [miss.line, miss.channel]), [[9, 2]]);
});

test("pendings, titles and fills", () => {
  assert.deepEqual(wordsOfPendings(run, 1, 0), ["Pending: no grant yet. Channel 1, round 1, SID 104."]);
  assert.equal(titleOf(run, 4, 6), "Rounds 4 and 5, 8 to 12 ms");
  assert.deepEqual(wordsOfFill(run, 0, 1, 2), [
    "Round 1, 2 to 4 ms, channel 1: 93.8 % granted.",
    "requested grant, long 93.8 %.",
  ]);
  assert.equal(wordsOfFill(run, 1, 0, 1)[1], "poll, a request region of one SID 1.3 %.");
  assert.match(wordsOfFill(run, 2, 0, 12)[0], /^Rounds 0 to 11, 0 to 24 ms, channel 3: [0-9.]+ % granted, 93.8 % in the fullest round\. 19 missed\.$/);
});

test("Initial Maintenance is nobody's grant", () => {
  const bonded = storedRun("bonded.toml", "bonded_example", "examples/bonded.toml");
  const other = runOf(bonded.config, bonded.maps, bonded.report);
  assert.equal(elementsOf(other.maps, 0, 2)[0].iuc, 3);
  assert.deepEqual(wordsOfFill(other, 2, 0, 1), ["Round 0, 0 to 2 ms, channel 3: 0.0 % granted.", "Nothing is granted."]);
  assert.equal(wordsAt(other, 0, 2, 0).length, 1);
  assert.deepEqual(grantBeside(other, { channel: 2, round: 0, element: -1 }, 1), { channel: 2, round: 1, element: 0 });
});

test("without a configuration there are no times", () => {
  const bare = runOf(bytesOf("no configuration"), stored.maps, stored.report);
  assert.equal(bare.plant, null);
  assert.deepEqual(wordsAt(bare, 0, 0, 38), [
    "Unsolicited grant. Channel 1, round 0, SID 122, IUC 11, minislots 38 to 43 (6).",
    "Flow 22, interval 0.",
    "G,0,1,ugs,22,0,1,122,11,38,6,0",
  ]);
  assert.equal(wordsOfMiss(bare, missOf(bare, 5))[1], "Flow 24, interval 0.");
  assert.equal(titleOf(bare, 4, 5), "Round 4");
  assert.deepEqual([missOf(bare, 5).from, missOf(bare, 5).to], [0, 1]);
});

test("a configuration of other channels is none of the run", () => {
  const other = new TextDecoder().decode(stored.config).replace("minislot_log2 = 2", "minislot_log2 = 1");
  assert.equal(runOf(bytesOf(other), stored.maps, stored.report).plant, null);
});

test("lines of the report that don't fit the configuration get no times", () => {
  const report = new TextDecoder().decode(stored.report).replace("G,0,1,ugs,22,0,1", "G,0,1,rtp,22,0,1");
  const other = runOf(stored.config, stored.maps, bytesOf(report));
  assert.equal(wordsAt(other, 0, 0, 38)[1], "Flow 22, interval 0.");
});

test("a line of the report that isn't the element's is not told", () => {
  const report = new TextDecoder().decode(stored.report).replace("G,0,1,ugs,22,0,1,122,", "G,0,1,ugs,22,0,1,121,");
  const other = runOf(stored.config, stored.maps, bytesOf(report));
  assert.equal(wordsAt(other, 0, 0, 38).length, 1);
});

test("windows of the examples in docs/SCHEDULING.md", () => {
  assert.deepEqual(windowOf({ ideal: 1900000, jitter: 800000 }, 2), { first: 152, last: 216 });
  assert.deepEqual(windowOf({ ideal: 1000, jitter: 0 }, 2), { first: 1, last: 0 });
  const row = { entry: "ugs", id: 21, i: 2 };
  assert.deepEqual(occurrenceOf(run.plant, row), { ideal: 40300000, jitter: 800000 });
  assert.equal(occurrenceOf(run.plant, { ...row, i: 2 ** 62 }), null);
});

test("sums over powers of two are those of their rounds", () => {
  const sumOf = (level, channel, first, end) => {
    const sums = new Float64Array(NUMBERS);
    addSums(run, level, channel, first, end, sums, 0);
    return sums;
  };
  assert.equal(run.fills.length, 5);
  assert.deepEqual([1, 2, 3, 4, 1000].map((rounds) => levelFor(run.fills, rounds)), [0, 1, 1, 2, 4]);
  for (let channel = 0; channel < 4; channel++) {
    const all = sumOf(0, channel, 0, 12);
    assert.deepEqual(sumOf(4, channel, 0, 1), all);
    assert.deepEqual(sumOf(2, channel, 0, 3), all);
    assert.deepEqual(sumOfRounds(run, channel, 0, 12), all);
    assert.deepEqual(sumOfRounds(run, channel, 3, 11), sumOf(0, channel, 3, 11));
  }
  assert.equal(sumOfRounds(run, 0, 1, 2)[FILLING.indexOf("long")], 150);
  assert.equal(sumOfRounds(run, 1, 0, 12)[MISSED], 3);
  assert.deepEqual([0, 1, 4].map((round) => sumOfRounds(run, 0, round, round + 1)[FULLEST]), [24, 150, 150]);
  assert.equal(sumOfRounds(run, 0, 0, 12)[FULLEST], 150);
  assert.equal(fillsOf(run.maps, run.report)[0].length, 12 * 4 * NUMBERS);
});

test("views stay within the run", () => {
  assert.deepEqual(zoomed(wholeView(12), 0.5, 6, 12), { first: 3, wide: 6 });
  assert.deepEqual(zoomed({ first: 3, wide: 6 }, 4, 6, 12), { first: 0, wide: 12 });
  assert.equal(zoomed({ first: 3, wide: 1 }, 1e-9, 3.5, 12).wide, 1 / 64);
  assert.deepEqual(panned({ first: 3, wide: 6 }, 100, 12), { first: 6, wide: 6 });
  assert.deepEqual(withinRun({ first: -1, wide: 100 }, 12), { first: 0, wide: 12 });
  assert.deepEqual(showing({ first: 0, wide: 4 }, 1, 2, 12, 8), { first: 0, wide: 4 });
  assert.deepEqual(showing({ first: 0, wide: 4 }, 7, 8, 12, 8), { first: 5.5, wide: 4 });
  assert.deepEqual(showing(wholeView(12), 7, 8, 12, 2), { first: 6.5, wide: 2 });
  assert.deepEqual(roundsIn({ first: 1.5, wide: 2 }, 12), { first: 1, end: 4 });
});
