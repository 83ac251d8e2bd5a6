// Stored files that tests read: the examples, and what mapsim makes of them, which crates/mapsim/cases has.
import { readFileSync } from "node:fs";
import { readToml } from "../toml.mjs";

const TOP = new URL("../../", import.meta.url);

export function textOf(path) {
  return readFileSync(new URL(path, TOP), "utf8");
}

/** Bytes of a text. */
export function bytesOf(text) {
  return new TextEncoder().encode(text);
}

/** Bytes of hexadecimal digits, between which blanks may stand. */
export function bytesOfHex(digits) {
  return Uint8Array.from(Buffer.from(digits.replace(/\s+/g, ""), "hex"));
}

/** A case of a file of crates/mapsim/cases. */
export function caseOf(file, name) {
  return readToml(textOf(`crates/mapsim/cases/${file}`)).case.find((it) => it.name === name);
}

/** A case that writes files: its configuration, and the maps file and the report, as bytes. */
export function storedRun(file, name, config) {
  const { wanted } = caseOf(file, name);
  return { config: bytesOf(textOf(config)), maps: bytesOfHex(wanted.maps.hex), report: bytesOf(wanted.report) };
}

/** Twelve rounds of examples/voice.toml. */
export function storedVoice() {
  return storedRun("voice.toml", "voice_example", "examples/voice.toml");
}
