// What of a configuration the drawing uses: how long rounds and minislots are, whose flows are, and when grants are due.
import { readToml } from "./toml.mjs";

/**
 * The channels, flows and stations of a configuration, each by its id, and the length of a round in ticks.
 * Times of flows and stations are in microseconds. It is null where the text can't be read here.
 */
export function plantOf(text) {
  try {
    const tables = readToml(text);
    const roundTicks = whole(tables.round_ticks);
    const channels = byId(tables.channel, (it) => ({ minislotTicks: 2 ** whole(it.minislot_log2) }));
    return { roundTicks, channels, flows: byId(tables.flow, flowOf), stations: byId(tables.station, timesOf) };
  } catch {
    return null;
  }
}

function flowOf(table) {
  const times = table.interval_us === undefined ? {} : timesOf(table);
  return { type: whole(table.type), grants: table.grants_per_interval ?? 1, ...times };
}

function timesOf(table) {
  return { start: whole(table.start_us), interval: whole(table.interval_us), jitter: whole(table.jitter_us) };
}

function byId(tables, read) {
  return new Map((tables ?? []).map((table) => [whole(table.id), read(table)]));
}

function whole(value) {
  if (!Number.isSafeInteger(value)) throw new TypeError("no whole number");
  return value;
}
