// Configurations, maps files and reports are read as docs/FORMATS.md has them.
import assert from "node:assert/strict";
import { test } from "node:test";
import { dumpedLine, elementsBefore, elementsOf, pendingsOf, readMaps } from "../maps.mjs";
import { Refused, firstWhere, grouped, milliseconds, roundStep } from "../numbers.mjs";
import { plantOf } from "../plants.mjs";
import { lineAt, readReport, rowOf, summaryOf } from "../reports.mjs";
import { readToml } from "../toml.mjs";
import { bytesOf, bytesOfHex, storedVoice, textOf } from "./files.mjs";

const TWO_ROUNDS = bytesOfHex(`
  00000000 001c 01000300 00000000 00000000 02060308 fffc4000 fffc4096 0001c0a0
  00000001 0020 01000400 000000a0 00000050 02060308 048e8000 fffc4020 fffc4096 0001c0a0`);

function refusal(what) {
  return (error) => error instanceof Refused && error.message.includes(what);
}

test("numbers in words", () => {
  assert.equal(milliseconds(2512500), "2.5125");
  assert.equal(milliseconds(419430400000), "419,430.4");
  assert.equal(grouped(1234567), "1,234,567");
  assert.equal(firstWhere(10, (it) => it >= 7), 7);
  assert.equal(firstWhere(10, () => false), 10);
  assert.deepEqual([0.3, 1, 1.1, 4, 6].map(roundStep), [0.5, 1, 2, 5, 10]);
});

test("the forms of TOML that configurations have", () => {
  const tables = readToml(`\ufeffa = 0x1F # a comment
    [[channel]]
    "i\\u0064" = 1_000
    long = { bits = 4,
      shortened = false, }
    [[channel]]
    id = 2
    list = [ [1, 2], # two
      [3], ]
    [channel.long]
    bits = 6
    b.c = +5
    'text' = "x\\ty"`);
  assert.equal(tables.a, 31);
  assert.equal(tables.channel[0].id, 1000);
  assert.deepEqual({ ...tables.channel[0].long }, { bits: 4, shortened: false });
  assert.deepEqual(tables.channel[1].list, [[1, 2], [3]]);
  assert.equal(tables.channel[1].long.b.c, 5);
  assert.equal(tables.channel[1].long.text, "x\ty");
});

test("what isn't read is refused, and there is no plant of it", () => {
  for (const text of ["a =", "a = 1.5", "a = 1979-05-27", "a = 1 2", "a", "a = [1", "a = 1\na = 2", "[a"]) {
    assert.throws(() => readToml(text), SyntaxError, text);
    assert.equal(plantOf(text), null);
  }
});

test("a configuration as the drawing uses it", () => {
  const plant = plantOf(textOf("examples/voice.toml"));
  assert.equal(plant.roundTicks, 320);
  assert.deepEqual([...plant.channels].map(([id, it]) => [id, it.minislotTicks]), [[1, 2], [2, 2], [3, 4], [4, 2]]);
  assert.deepEqual(plant.flows.get(22), { type: 6, grants: 2, start: 300, interval: 10000, jitter: 800 });
  assert.deepEqual(plant.flows.get(2), { type: 2, grants: 1 });
  assert.deepEqual(plant.stations.get(52), { start: 0, interval: 10000, jitter: 5000 });
});

test("the maps file of two rounds", () => {
  const maps = readMaps(TWO_ROUNDS);
  assert.equal(maps.rounds, 2);
  assert.deepEqual(maps.channels, [{ id: 1, slots: 160 }]);
  assert.deepEqual(elementsOf(maps, 1, 0), [
    { sid: 291, iuc: 10, start: 0, slots: 32 },
    { sid: 16383, iuc: 1, start: 32, slots: 118 },
    { sid: 16383, iuc: 1, start: 150, slots: 10 },
  ]);
  assert.deepEqual([0, 1, 2].map((record) => elementsBefore(maps, record)), [0, 3, 7]);
  assert.equal(dumpedLine(maps, 1, 0), "1 1 0 32 291 10");
  assert.equal(dumpedLine(maps, 1, 3), "1 1 160 0 0 7");
});

test("a maps file that can't be shown", () => {
  const changed = (at, byte) => TWO_ROUNDS.map((it, place) => (place === at ? byte : it));
  assert.throws(() => readMaps(new Uint8Array()), refusal("round 0"));
  assert.throws(() => readMaps(TWO_ROUNDS.subarray(0, 71)), refusal("Record 1 "));
  assert.throws(() => readMaps(TWO_ROUNDS.subarray(34)), refusal("round 0"));
  assert.throws(() => readMaps(changed(8, 9)), refusal("Record 0 "));
  assert.throws(() => readMaps(changed(37, 2)), refusal("round 1 and channel 1"));
  assert.throws(() => readMaps(changed(59, 0xff)), refusal("Record 1 "));
  assert.throws(() => readMaps(changed(71, 0xa1)), refusal("Record 1 "));
});

test("a report by round", () => {
  const text = "M,0,1,ugs,1,0,99\nG,1,1,req,1,0,0,291,10,0,32,1000\nF,1,0,0,-\nA,1,1\nU,3,4,5\n";
  const report = readReport(bytesOf(text), 2);
  assert.deepEqual([...report.firsts], [0, 1, 2, 5]);
  assert.equal(lineAt(report, 1), "G,1,1,req,1,0,0,291,10,0,32,1000");
  assert.equal(rowOf(lineAt(report, 0)).isMissed, true);
  assert.equal(rowOf(lineAt(report, 1)).credit, 1000);
  assert.equal(rowOf(lineAt(report, 2)), null);
  assert.deepEqual(summaryOf(report, 2), { rounds: 2, granted: 1, missed: 1, unknown: 3, notRequestable: 4, late: 5 });
  assert.equal(summaryOf(readReport(bytesOf("F,1,0,0,-\n"), 2), 2), null);
  const turned = readReport(bytesOf("U,0,0,0\nG,1,b\nG,0,c\nG,1,a\n"), 2);
  assert.deepEqual([0, 1, 2, 3].map((line) => lineAt(turned, line)), ["G,0,c", "G,1,b", "G,1,a", "U,0,0,0"]);
});

test("a report that can't be shown", () => {
  for (const text of ["x\n", "G,2,1,req\n", "G,x,1\n", "G,1\n", "U,0,0,0"]) {
    assert.throws(() => readReport(bytesOf(text), 2), refusal("Line 1 "), text);
  }
});

test("the stored run of calls", () => {
  const stored = storedVoice();
  const maps = readMaps(stored.maps);
  const report = readReport(stored.report, maps.rounds);
  const counts = { rounds: 12, granted: 105, missed: 22, unknown: 1, notRequestable: 1, late: 1 };
  assert.deepEqual(summaryOf(report, 12), counts);
  assert.deepEqual(pendingsOf(maps, 1, 0), [104]);
});
