// Why nothing was scheduled, in words; where it stands in a text; what files are.
import assert from "node:assert/strict";
import { test } from "node:test";
import { refusalOf } from "../faults.mjs";
import { sortOf } from "../files.mjs";
import { hasMemory64 } from "../module.mjs";
import { spanIn } from "../sources.mjs";
import { bytesOf, storedVoice, textOf } from "./files.mjs";

test("errors of a configuration", () => {
  const said = "flow 0 (id 21), interval_us: a whole number from 100 to 10000000 is wanted, 20 is there";
  const lines = `83:1: error C3: ${said}\n84:13: error C10: flow 0: 1:2: error C3: is there\n`;
  assert.deepEqual(refusalOf("fault C3 flow 0", lines, 320), {
    said: "Not scheduled: 2 errors in the configuration.",
    findings: [
      { text: "configuration", line: 83, column: 1, code: "C3", said },
      { text: "configuration", line: 84, column: 13, code: "C10", said: "flow 0: 1:2: error C3: is there" },
    ],
    more: 0,
  });
});

test("errors of a trace, of which some aren't listed", () => {
  const line = '2:1: error TR3: tick: "x" is there\n';
  const { said, findings, more } = refusalOf("fault TR3 2", `${line}3 more errors\n`, 320);
  assert.equal(said, "Not scheduled: 4 errors in the trace.");
  assert.deepEqual(findings, [{ text: "trace", line: 2, column: 1, code: "TR3", said: 'tick: "x" is there' }]);
  assert.equal(more, 3);
  assert.equal(refusalOf("fault TR3 2", `${line}1 more error\n`, 320).more, 1);
});

test("what isn't wrong in a text", () => {
  const saidOf = (...words) => refusalOf(...words).said;
  const most = "a run has at most 67,108,864 ticks";
  assert.equal(saidOf("fault RU1", "2:1: error TR3: x\n", 320), `Not scheduled: 1 to 209,715 rounds are wanted: ${most}, and a round 320.`);
  assert.equal(saidOf("fault RU1", "", undefined), `Not scheduled: no rounds, or too many: ${most}.`);
  assert.equal(saidOf("fault memory", "", 320), "Not scheduled: memory ran out.");
  assert.deepEqual(refusalOf("fault C4 flow 0", "", 320), { said: "Not scheduled.", findings: [], more: 0 });
  assert.deepEqual(refusalOf("fault C4 flow 0", "another form\n", 320).findings, []);
});

test("where an error stands in a text", () => {
  const at = (text, line, column) => text.slice(...spanIn(text, line, column));
  const text = "\ufeffa = 1\r\n[[flow]]\n  \u{1f600} = 0  \nend";
  assert.equal(at(text, 1, 2), "a = 1");
  assert.equal(at(text, 2, 1), "[[flow]]");
  assert.equal(at(text, 2, 3), "flow]]");
  assert.equal(at(text, 3, 5), "= 0");
  assert.equal(at(text, 3, 99), "  \u{1f600} = 0");
  assert.equal(at(text, 4, 1), "end");
  assert.deepEqual(spanIn(text, 9, 1).map((it) => text.slice(it)), ["", ""]);
});

test("files are told apart by what is in them", () => {
  const stored = storedVoice();
  assert.equal(sortOf(stored.maps), "maps");
  assert.equal(sortOf(stored.report), "report");
  assert.equal(sortOf(stored.config), "config");
  assert.equal(sortOf(bytesOf(textOf("examples/voice.csv"))), "trace");
  assert.equal(sortOf(bytesOf("\ufefftick,channel,sid,units,kind\r\n")), "trace");
  assert.equal(sortOf(bytesOf("U,0,0,0\n")), "report");
  assert.equal(sortOf(stored.maps.subarray(0, 60)), "maps");
  assert.equal(sortOf(bytesOf("Dear sir or madam")), null);
  assert.equal(sortOf(new Uint8Array([1, 2, 0, 3])), null);
  assert.equal(sortOf(new Uint8Array()), null);
});

test("whether there is 64-bit memory can be asked", () => {
  assert.equal(typeof hasMemory64(), "boolean");
});
