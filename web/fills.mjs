// How full MAPs are: of each round and channel the minislots of each kind of grant, how many occurrences were missed, and the
// minislots of all these kinds. Above these stand those of 2, 4, 8 .. rounds: sums, and of the last number the greatest, which
// is that of the fullest round. So a picture of all rounds reads a few numbers for each pixel.
import { kindOf } from "./kinds.mjs";
import { eachElement, recordOf } from "./maps.mjs";
import { channelOfLine, isMissed } from "./reports.mjs";

/** The kinds that fill a MAP, in the order in which they are drawn from the bottom. */
export const FILLING = ["station", "unsolicited", "poll", "short", "long", "other"];

/** Where among the numbers of a round and channel the missed occurrences stand. */
export const MISSED = FILLING.length;

/** Where the minislots of all these kinds stand, which are those of the fullest round where there are several rounds. */
export const FULLEST = FILLING.length + 1;

/** How many numbers there are of a round and channel. */
export const NUMBERS = FILLING.length + 2;

const REQUEST = 1;
const POLL = FILLING.indexOf("poll");
const PLACE_OF_IUC = Array.from({ length: 16 }, (_, iuc) => FILLING.indexOf(kindOf(0, iuc)));

/** The numbers of each round, and above them the sums over 2, 4, 8 .. rounds, up to all. */
export function fillsOf(maps, report) {
  const levels = [fillsOfRounds(maps)];
  countMisses(levels[0], maps, report);
  const wide = maps.channels.length * NUMBERS;
  while (levels.at(-1).length > wide) levels.push(summedByTwo(levels.at(-1), wide));
  return levels;
}

function fillsOfRounds(maps) {
  const fills = new Uint32Array(maps.starts.length * NUMBERS);
  for (let record = 0; record < maps.starts.length; record++) {
    eachElement(maps, record, (sid, iuc, _, slots) => {
      const place = iuc === REQUEST && kindOf(sid, iuc) === "poll" ? POLL : PLACE_OF_IUC[iuc];
      if (place < 0) return;
      fills[record * NUMBERS + place] += slots;
      fills[record * NUMBERS + FULLEST] += slots;
    });
  }
  return fills;
}

function countMisses(fills, maps, report) {
  const places = new Map(maps.channels.map((channel, place) => [channel.id, place]));
  for (let round = 0; round < maps.rounds; round++) {
    for (let line = report.firsts[round]; line < report.firsts[round + 1]; line++) {
      const place = isMissed(report, line) ? places.get(channelOfLine(report, line)) : undefined;
      if (place !== undefined) fills[recordOf(maps, round, place) * NUMBERS + MISSED]++;
    }
  }
}

/** The numbers of each two rounds together; of an odd last one itself. `wide` is how many numbers a round has. */
function summedByTwo(below, wide) {
  const rounds = below.length / wide;
  const above = new Uint32Array(Math.ceil(rounds / 2) * wide);
  for (let round = 0; round < rounds; round++) {
    const to = (round >>> 1) * wide;
    for (let at = 0; at < wide; at += NUMBERS) addNumbers(below, round * wide + at, above, to + at);
  }
  return above;
}

/** Adds the numbers that stand in one list at a place to those of another one. */
function addNumbers(list, from, sums, to) {
  for (let place = 0; place < FULLEST; place++) sums[to + place] += list[from + place];
  sums[to + FULLEST] = Math.max(sums[to + FULLEST], list[from + FULLEST]);
}

/** The highest level whose sums are over at most so many rounds, at least 1. */
export function levelFor(levels, rounds) {
  return Math.min(Math.floor(Math.log2(Math.max(rounds, 1))), levels.length - 1);
}

/** Adds the numbers of a channel, those of a level from `first` to before `end`, to the numbers of `sums` from `at` on. */
export function addSums(run, level, channel, first, end, sums, at) {
  const wide = run.maps.channels.length * NUMBERS;
  const begin = first * wide + channel * NUMBERS;
  for (let from = begin; from < end * wide; from += wide) addNumbers(run.fills[level], from, sums, at);
}

/** The numbers of a channel over the rounds from `first` to before `end`. */
export function sumOfRounds(run, channel, first, end) {
  const sums = new Float64Array(NUMBERS);
  for (let round = first; round < end; ) {
    let level = 0;
    while (round % 2 ** (level + 1) === 0 && round + 2 ** (level + 1) <= end) level++;
    addSums(run, level, channel, round / 2 ** level, round / 2 ** level + 1, sums, 0);
    round += 2 ** level;
  }
  return sums;
}

/** How many occurrences were missed in the whole run. */
export function missedInAll(run) {
  return run.maps.channels.reduce((missed, _, channel) => missed + sumOfRounds(run, channel, 0, run.maps.rounds)[MISSED], 0);
}
