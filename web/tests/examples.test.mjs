// The examples that the page lists.
import assert from "node:assert/strict";
import { readdirSync } from "node:fs";
import { test } from "node:test";
import { textOf } from "./files.mjs";

const listed = JSON.parse(textOf("web/examples.json"));

test("each example with a configuration and a trace is listed", () => {
  const files = readdirSync(new URL("../../examples/", import.meta.url));
  const traces = files.filter((file) => file.endsWith(".csv")).map((file) => file.slice(0, -4));
  const names = traces.filter((name) => files.includes(`${name}.toml`));
  assert.deepEqual(listed.map(({ name }) => name).sort(), names.sort());
});

test("examples have the rounds that their files name", () => {
  for (const { name, rounds, said } of listed) {
    const told = /for (\d+)\s(?:#\s)?rounds/.exec(textOf(`examples/${name}.toml`));
    if (told) assert.equal(rounds, Number(told[1]), name);
    assert.ok(Number.isInteger(rounds) && said.length > 0);
  }
});
