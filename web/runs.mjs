// A run as the page shows it: all that is made once of a maps file, a report and a configuration.
import { fillsOf } from "./fills.mjs";
import { readMaps } from "./maps.mjs";
import { Refused } from "./numbers.mjs";
import { plantOf } from "./plants.mjs";
import { readReport, summaryOf } from "./reports.mjs";

// where a line or a record begins is kept in 32 bits
const MOST_BYTES = 2 ** 32 - 1;

/**
 * A run of these bytes, with its counts in words. Its `plant` is null where the configuration can't be read here; then no
 * times are shown.
 * @throws {Refused} what of maps file or report can't be shown
 */
export function runOf(config, maps, report) {
  const isLong = Math.max(maps.length, report.length) > MOST_BYTES;
  if (isLong) throw new Refused("The run is too long to be shown: its maps file or its report has over 4 GiB.");
  const read = readMaps(maps);
  const plant = plantFor(config, read);
  const lines = readReport(report, read.rounds);
  return { plant, maps: read, report: lines, fills: fillsOf(read, lines), summary: summaryOf(lines, read.rounds) };
}

/** The configuration where it has the channels of the maps file, with as many minislots; else null. */
function plantFor(config, maps) {
  const plant = plantOf(new TextDecoder().decode(config));
  const fits = ({ id, slots }) => plant.channels.get(id)?.minislotTicks * slots === plant.roundTicks;
  return plant && maps.channels.every(fits) ? plant : null;
}

/** The buffers of a run, which can be handed over to another thread. */
export function buffersOf(run) {
  const lists = [run.maps.bytes, run.maps.starts, run.report.bytes, run.report.starts, run.report.firsts, ...run.fills];
  return [...new Set(lists.map((list) => list.buffer))];
}
