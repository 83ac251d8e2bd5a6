// What is drawn, in words.
import { FILLING, FULLEST, MISSED, sumOfRounds } from "./fills.mjs";
import { KINDS, isFree, kindOf } from "./kinds.mjs";
import { elementsOf, firstOtherRound, pendingsOf } from "./maps.mjs";
import { NANOSECONDS_PER_TICK, counted, grouped, milliseconds } from "./numbers.mjs";
import { occurrenceOf, ownerOf, roundTime, windowOf } from "./occurrences.mjs";
import { lineAt, lineOfGrant, rowOf } from "./reports.mjs";

const TYPES = { 2: "best effort", 3: "nrtPS", 4: "rtPS", 5: "UGS-AD", 6: "UGS" };

/** The counts of a run, which has them, in words; beside a run before it, or null, also what differs. */
export function wordsOfRun(run, before) {
  if (!before) return wordsOfCounts(run.summary, null);
  const round = firstOtherRound(run.maps, before.maps);
  const words = wordsOfCounts(run.summary, before.summary);
  return `${words} ${round < 0 ? "The MAPs are as before." : `The MAPs differ from those before from round ${grouped(round)} on.`}`;
}

/** Counts of a run in words, with those of another one, or null, where they differ. */
export function wordsOfCounts(summary, before) {
  const { rounds, unknown, notRequestable, late } = summary;
  const told = (name) => {
    const isOther = before && before[name] !== summary[name];
    return `${grouped(summary[name])} ${name}${isOther ? ` (${grouped(before[name])} before)` : ""}`;
  };
  const unused = [
    unknown > 0 && `${grouped(unknown)} with a SID that no flow has there`,
    notRequestable > 0 && `${grouped(notRequestable)} of a kind that its flow doesn't send`,
    late > 0 && `${grouped(late)} after the last round`,
  ].filter((it) => it);
  const rows = unused.length > 0 ? ` Rows of the trace without effect: ${unused.join(", ")}.` : "";
  return `${counted(rounds, "round")}, ${told("granted")}, ${told("missed")}.${rows}`;
}

/** The rounds from `first` to before `end`: "Rounds 4 and 5, 8 to 12 ms". */
export function titleOf(run, first, end) {
  const more = end === first + 2 ? "and" : "to";
  const name = end === first + 1 ? `Round ${grouped(first)}` : `Rounds ${grouped(first)} ${more} ${grouped(end - 1)}`;
  if (!run.plant) return name;
  return `${name}, ${milliseconds(first * roundTime(run.plant))} to ${milliseconds(end * roundTime(run.plant))} ms`;
}

/** An element in words; where it has a line in the report, also that line in words, and then the line. */
export function wordsOfElement(run, round, channel, place) {
  const element = elementsOf(run.maps, round, channel)[place];
  const { id } = run.maps.channels[channel];
  const kind = kindOf(element.sid, element.iuc);
  const line = isFree(kind) ? -1 : lineOfGrant(run.report, round, id, element);
  const words = [`${KINDS[kind].name}. ${whereOf(run, round, channel, element)}`];
  if (line < 0) return words;
  const text = lineAt(run.report, line);
  return [...words, grantInWords(run, channel, rowOf(text)), text];
}

function whereOf(run, round, channel, { sid, iuc, start, slots }) {
  const last = start + slots - 1;
  const minislots = slots === 1 ? `minislot ${start}` : `minislots ${start} to ${last} (${slots})`;
  const words = `Channel ${run.maps.channels[channel].id}, round ${grouped(round)}, SID ${sid}, IUC ${iuc}, ${minislots}`;
  if (!run.plant) return `${words}.`;
  const from = timeOf(run, round, channel, start);
  return `${words}, from ${milliseconds(from)} to ${milliseconds(timeOf(run, round, channel, start + slots))} ms.`;
}

/** When a minislot of a MAP begins, in nanoseconds from the start of the run. */
function timeOf(run, round, channel, minislot) {
  const { id, slots } = run.maps.channels[channel];
  return (round * slots + minislot) * run.plant.channels.get(id).minislotTicks * NANOSECONDS_PER_TICK;
}

/** Whose a row is: "Flow 22, UGS", "Station 51". */
function whoseOf(run, row) {
  if (row.entry === "station") return `Station ${row.id}`;
  const type = TYPES[ownerOf(run.plant, row)?.type];
  return type ? `Flow ${row.id}, ${type}` : `Flow ${row.id}`;
}

/** What a G line tells: the credit of a requested grant; when another one was due, and how late it is. */
function grantInWords(run, channel, row) {
  const whose = whoseOf(run, row);
  if (row.entry === "req") {
    const cluster = row.i === 0 ? "" : " of its second cluster";
    return `${whose}: ${counted(row.credit, "byte")}${cluster} credited.`;
  }
  const occurrence = occurrenceOf(run.plant, row);
  return `${whose}, ${intervalOf(run, row)}${occurrence ? `: ${latenessOf(run, channel, row, occurrence)}` : ""}.`;
}

function intervalOf(run, row) {
  const grants = ownerOf(run.plant, row)?.grants ?? 1;
  const isPerhapsPoll = row.entry === "ad" && row.k === 0 && row.iuc !== 11;
  const which = grants > 1 && !isPerhapsPoll ? `, grant ${row.k + 1} of ${grants}` : "";
  return `interval ${grouped(row.i)}${which}`;
}

function latenessOf(run, channel, row, { ideal, jitter }) {
  const late = timeOf(run, row.round, channel, row.start) - ideal;
  const due = `due at ${milliseconds(ideal)} ms`;
  if (late < 0) return `${due}, ${milliseconds(-late)} ms early, outside its window`;
  if (late > jitter) return `${due}, ${milliseconds(late)} ms late, outside its window of ${milliseconds(jitter)} ms`;
  const allowed = jitter === 0 ? "no jitter is allowed" : `${milliseconds(jitter)} ms are allowed`;
  return late === 0 ? `${due}, on time; ${allowed}` : `${due}, ${milliseconds(late)} ms late; ${allowed}`;
}

/** What was missed, as missOf of occurrences.mjs has it, in words, and its line in the report. */
export function wordsOfMiss(run, { line, row }) {
  const occurrence = occurrenceOf(run.plant, row);
  const head = `Missed on channel ${row.channel}: not granted in its window, which ended in round ${grouped(row.round)}.`;
  const window = occurrence ? `: ${windowInWords(run, row, occurrence)}` : "";
  return [head, `${whoseOf(run, row)}, ${intervalOf(run, row)}${window}.`, lineAt(run.report, line)];
}

function windowInWords(run, row, occurrence) {
  const { ideal, jitter } = occurrence;
  const from = `due at ${milliseconds(ideal)} ms`;
  const until = jitter === 0 ? "no jitter is allowed" : `at the latest at ${milliseconds(ideal + jitter)} ms`;
  const { first, last } = windowOf(occurrence, run.plant.channels.get(row.channel).minislotTicks);
  return `${from}, ${until}${first > last ? ", and no minislot begins then" : ""}`;
}

/** What is pending at the end of a MAP, in words. */
export function wordsOfPendings(run, round, channel) {
  const sids = pendingsOf(run.maps, round, channel);
  const where = `Channel ${run.maps.channels[channel].id}, round ${grouped(round)}`;
  return [`${KINDS.pending.name}. ${where}, SID ${sids.join(", ")}.`];
}

/** How full the MAPs of a channel are from round `first` to before `end`, in words. */
export function wordsOfFill(run, channel, first, end) {
  const sums = sumOfRounds(run, channel, first, end);
  const whole = run.maps.channels[channel].slots * (end - first);
  const share = (slots) => `${((100 * slots) / whole).toFixed(1)} %`;
  const filled = FILLING.map((kind, place) => ({ kind, slots: sums[place] })).filter((it) => it.slots > 0);
  const parts = filled.map(({ kind, slots }) => `${lowered(KINDS[kind].name)} ${share(slots)}`);
  const all = filled.reduce((total, it) => total + it.slots, 0);
  const fullest = ((100 * sums[FULLEST]) / run.maps.channels[channel].slots).toFixed(1);
  const most = end - first > 1 ? `, ${fullest} % in the fullest round` : "";
  const missed = sums[MISSED] > 0 ? ` ${grouped(sums[MISSED])} missed.` : "";
  const where = `${titleOf(run, first, end)}, channel ${run.maps.channels[channel].id}`;
  const kinds = parts.length > 0 ? `${parts.join("; ")}.` : "Nothing is granted.";
  return [`${where}: ${share(all)} granted${most}.${missed}`, kinds];
}

/** A name as it stands within a sentence. */
function lowered(name) {
  return name[0].toLowerCase() + name.slice(1);
}
