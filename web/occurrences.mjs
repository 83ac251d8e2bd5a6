// When grants, polls and station maintenance are due, by docs/SCHEDULING.md. Times are in nanoseconds from the start of
// the run, and in rounds where they are drawn.
import { NANOSECONDS_PER_TICK } from "./numbers.mjs";
import { isMissed, lineAt, rowOf } from "./reports.mjs";

const NANOSECONDS_PER_MICROSECOND = 1000;
const TYPE_OF_ENTRY = { nrtp: 3, rtp: 4, ad: 5, ugs: 6 };

/** How long a round is, in nanoseconds. */
export function roundTime(plant) {
  return plant.roundTicks * NANOSECONDS_PER_TICK;
}

/** What a row's flow or station is in the configuration; undefined where it has none of that kind. */
export function ownerOf(plant, row) {
  if (row.entry === "station") return plant?.stations.get(row.id);
  const flow = plant?.flows.get(row.id);
  return flow && (TYPE_OF_ENTRY[row.entry] ?? flow.type) === flow.type ? flow : undefined;
}

/** The ideal time of a row's occurrence and how late it may start; null where the configuration doesn't tell. */
export function occurrenceOf(plant, row) {
  const owner = row.entry === "req" ? undefined : ownerOf(plant, row);
  if (owner?.interval === undefined) return null;
  const ideal = (owner.start + row.i * owner.interval) * NANOSECONDS_PER_MICROSECOND;
  return Number.isSafeInteger(ideal) ? { ideal, jitter: owner.jitter * NANOSECONDS_PER_MICROSECOND } : null;
}

/** The first and the last minislot that start in a window, counted from the start of the run; none where first > last. */
export function windowOf(occurrence, minislotTicks) {
  const minislot = minislotTicks * NANOSECONDS_PER_TICK;
  return {
    first: Math.ceil(occurrence.ideal / minislot),
    last: Math.floor((occurrence.ideal + occurrence.jitter) / minislot),
  };
}

/** The longest window of a configuration, in rounds; that of an unknown one counts as a round. */
export function longestWindow(plant) {
  if (!plant) return 1;
  const jitters = [...plant.flows.values(), ...plant.stations.values()].map((owner) => owner.jitter ?? 0);
  return Math.max(1, ...jitters.map((jitter) => (jitter * NANOSECONDS_PER_MICROSECOND) / roundTime(plant)));
}

/**
 * What a line of the report says is missed: the line, its row, the place of its channel, and its window from and to a time
 * in rounds; that is all of the round where the configuration doesn't tell it. Null where the line has another form.
 */
export function missOf(run, line) {
  const row = rowOf(lineAt(run.report, line));
  const channel = run.maps.channels.findIndex((it) => it.id === row?.channel);
  if (channel < 0) return null;
  const occurrence = occurrenceOf(run.plant, row);
  if (!occurrence) return { line, row, channel, from: row.round, to: row.round + 1 };
  const { ideal, jitter } = occurrence;
  return { line, row, channel, from: ideal / roundTime(run.plant), to: (ideal + jitter) / roundTime(run.plant) };
}

/** What was missed in windows that are in view. */
export function missesIn(run, view) {
  const { report, maps } = run;
  const last = Math.min(Math.floor(view.first + view.wide + longestWindow(run.plant)) + 1, maps.rounds);
  const found = [];
  for (let line = report.firsts[Math.floor(view.first)]; line < report.firsts[last]; line++) {
    const miss = isMissed(report, line) ? missOf(run, line) : null;
    if (miss && miss.from <= view.first + view.wide && miss.to >= view.first) found.push(miss);
  }
  return found;
}
