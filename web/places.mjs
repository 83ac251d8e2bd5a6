// Places of a run that can be chosen, as `placeAt` of layouts.mjs has them: their words, where they are, and what is beside
// them.
import { FILLING, NUMBERS } from "./fills.mjs";
import { isFree, kindOf } from "./kinds.mjs";
import { elementsBefore, elementsOf, pendingsOf, recordOf } from "./maps.mjs";
import { firstWhere } from "./numbers.mjs";
import { missOf, occurrenceOf, roundTime } from "./occurrences.mjs";
import { isMissed, lineAt, lineOfGrant, rowOf } from "./reports.mjs";
import { wordsOfElement, wordsOfFill, wordsOfMiss, wordsOfPendings } from "./words.mjs";

// a pending SID stands at the end of its round, over so much of it
const OF_PENDINGS = 1 / 8;

/** A place in words. */
export function wordsOfPlace(run, place) {
  const { channel, round, misses } = place;
  if (misses) {
    const words = wordsOfMiss(run, missOf(run, misses[0]));
    return misses.length > 1 ? [...words, `Missed here too: ${misses.length - 1} more.`] : words;
  }
  if (place.isPending) return wordsOfPendings(run, round, channel);
  if (place.element !== undefined) return wordsOfElement(run, round, channel, place.element);
  return wordsOfFill(run, channel, place.first, place.end);
}

/** From when to when a place is, in rounds: { from, to }. */
export function spanOfPlace(run, { channel, round, element, misses, isPending, first, end }) {
  if (misses) return missOf(run, misses[0]);
  if (isPending) return { from: round + 1 - OF_PENDINGS, to: round + 1 };
  if (element === undefined) return { from: first, to: end };
  const { slots } = run.maps.channels[channel];
  const it = elementsOf(run.maps, round, channel)[element];
  return { from: round + it.start / slots, to: round + (it.start + it.slots) / slots };
}

/** The line of the report that a place is of; -1 where it is of none. */
export function reportLineOf(run, { channel, round, element, misses }) {
  if (misses) return misses[0];
  if (element === undefined) return -1;
  const it = elementsOf(run.maps, round, channel)[element];
  return isFree(kindOf(it.sid, it.iuc)) ? -1 : lineOfGrant(run.report, round, run.maps.channels[channel].id, it);
}

/** The window of an unsolicited grant, a poll or station maintenance, in rounds; null for other places and unknown windows. */
export function windowOfPlace(run, place) {
  const line = place.element === undefined ? -1 : reportLineOf(run, place);
  const occurrence = line < 0 ? null : occurrenceOf(run.plant, rowOf(lineAt(run.report, line)));
  if (!occurrence) return null;
  const { ideal, jitter } = occurrence;
  return { from: ideal / roundTime(run.plant), to: (ideal + jitter) / roundTime(run.plant) };
}

/** The line of all lines that `mapsim dump` prints of an element; -1 for other places. */
export function dumpLineOf(run, { channel, round, element }) {
  return element === undefined ? -1 : elementsBefore(run.maps, recordOf(run.maps, round, channel)) + element;
}

/** The grant after a place on its channel, or the one before it where `step` is -1; null where there is none. */
export function grantBeside(run, place, step) {
  const { channel } = place;
  const begin = place.round ?? place.first;
  for (let round = begin; round >= 0 && round < run.maps.rounds; round += step) {
    const from = round === begin && place.element !== undefined ? place.element + step : null;
    const element = isFilled(run, round, channel) ? grantFrom(run, round, channel, from, step) : -1;
    if (element >= 0) return { channel, round, element };
  }
  return null;
}

/** Whether a MAP has a grant, a poll or maintenance. */
function isFilled(run, round, channel) {
  const at = recordOf(run.maps, round, channel) * NUMBERS;
  return run.fills[0].subarray(at, at + FILLING.length).some((slots) => slots > 0);
}

/** The first grant of a MAP from an element on, in a direction; from its end where `from` is null. */
function grantFrom(run, round, channel, from, step) {
  const elements = elementsOf(run.maps, round, channel);
  let at = from ?? (step > 0 ? 0 : elements.length - 1);
  while (elements[at] && isFree(kindOf(elements[at].sid, elements[at].iuc))) at += step;
  return elements[at] ? at : -1;
}

/** What another channel has at the time of a place: the grant there, or the next one. */
export function grantOnChannel(run, place, channel) {
  const time = spanOfPlace(run, place).from;
  const round = Math.min(Math.max(Math.floor(time), 0), run.maps.rounds - 1);
  const minislot = (time - round) * run.maps.channels[channel].slots;
  const elements = elementsOf(run.maps, round, channel);
  const element = firstWhere(elements.length, (at) => elements[at].start + elements[at].slots > minislot);
  return grantBeside(run, { channel, round, element: element - 1 }, 1);
}

/** What was missed after a place, or before it where `step` is -1, in one window; null where nothing was. */
export function missBeside(run, place, step) {
  const { firsts } = run.report;
  const round = place.round ?? place.first;
  const beside = firsts[round] - (step < 0);
  let line = place.misses ? place.misses.at(step > 0 ? -1 : 0) + step : beside;
  while (line >= 0 && line < firsts[run.maps.rounds] && !(isMissed(run.report, line) && missOf(run, line))) line += step;
  return line >= 0 && line < firsts[run.maps.rounds] ? missesWith(run, line) : null;
}

/** The place of a missed line and of those side by side with it that have its channel and its window. */
function missesWith(run, line) {
  const miss = missOf(run, line);
  if (!miss) return null;
  const isSame = (other) => {
    const it = isMissed(run.report, other) ? missOf(run, other) : null;
    const isThere = it !== null && it.row.round === miss.row.round && it.channel === miss.channel;
    return isThere && it.from === miss.from && it.to === miss.to;
  };
  const misses = [line];
  while (misses[0] > 0 && isSame(misses[0] - 1)) misses.unshift(misses[0] - 1);
  while (isSame(misses.at(-1) + 1)) misses.push(misses.at(-1) + 1);
  return { channel: miss.channel, round: miss.row.round, misses };
}

/** The place that a line of the report tells of; null where it is none of a MAP. */
export function placeOfReportLine(run, line) {
  const row = rowOf(lineAt(run.report, line));
  const channel = run.maps.channels.findIndex((it) => it.id === row?.channel);
  if (channel < 0) return null;
  if (row.isMissed) return missesWith(run, line);
  const element = elementsOf(run.maps, row.round, channel).findIndex((it) => it.start === row.start);
  return element < 0 ? null : { channel, round: row.round, element };
}

/** The place of a line of all lines that `mapsim dump` prints: an element, or what is pending. */
export function placeOfDumpLine(run, line) {
  const { maps } = run;
  const record = firstWhere(maps.starts.length, (at) => elementsBefore(maps, at + 1) > line);
  const channel = record % maps.channels.length;
  const round = Math.floor(record / maps.channels.length);
  const element = line - elementsBefore(maps, record);
  if (element < elementsOf(maps, round, channel).length) return { channel, round, element };
  return pendingsOf(maps, round, channel).length > 0 ? { channel, round, isPending: true } : null;
}
