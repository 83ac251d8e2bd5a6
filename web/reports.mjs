// Reports, by docs/FORMATS.md: lines of grants (G) and missed occurrences (M) by round, and final lines (F, A, U).
import { Refused } from "./numbers.mjs";

const LINE_FEED = 10;
const COMMA = 44;
const DIGIT_0 = 48;
const ENTRY = "ugs|ad|rtp|nrtp|station|req";
const GRANT = new RegExp(`^G,(\\d+),(\\d+),(${ENTRY}),(\\d+),(\\d+),(\\d+),(\\d+),(\\d+),(\\d+),(\\d+),(\\d+)$`);
const MISSED = new RegExp(`^M,(\\d+),(\\d+),(${ENTRY}),(\\d+),(\\d+),(\\d+)$`);
const MISSED_FIELDS = 7;
const LETTERS = [..."GMFAU"].map((letter) => letter.charCodeAt(0));
const [LETTER_G, LETTER_M] = LETTERS;
// no line of a report is longer
const MOST_LETTERS = 400;

/**
 * Reads a report of so many rounds, which may be empty.
 * Answers its bytes; where each line begins, by round, final lines last; and of each round, and then of the final lines, how
 * many lines there are before it.
 * @throws {Refused} the first line that is none of a report, or of a round that the maps file lacks
 */
export function readReport(bytes, rounds) {
  const starts = new Uint32Array(countLines(bytes));
  const roundsOfLines = new Uint32Array(starts.length);
  let at = 0;
  for (let line = 0; line < starts.length; line++) {
    starts[line] = at;
    roundsOfLines[line] = roundOfLine(bytes, at, rounds, line + 1);
    at = endOfLine(bytes, at) + 1;
  }
  return { bytes, ...byRound(starts, roundsOfLines, rounds) };
}

function countLines(bytes) {
  let lines = 0;
  for (let at = 0; at < bytes.length; at++) if (bytes[at] === LINE_FEED) lines++;
  if (bytes.length > 0 && bytes.at(-1) !== LINE_FEED) throw new Refused(`Line ${lines + 1} of the report has no end.`);
  return lines;
}

function endOfLine(bytes, at) {
  let end = at;
  while (bytes[end] !== LINE_FEED) end++;
  return end;
}

/** The round of a line of grants or misses; that of the final lines is one past the last. */
function roundOfLine(bytes, at, rounds, number) {
  if (!LETTERS.includes(bytes[at]) || bytes[at + 1] !== COMMA) throw new Refused(`Line ${number} of the report is none.`);
  if (bytes[at] !== LETTER_G && bytes[at] !== LETTER_M) return rounds;
  let round = 0;
  for (let next = at + 2; bytes[next] !== COMMA; next++) {
    const digit = bytes[next] - DIGIT_0;
    round = round * 10 + digit;
    const isFine = digit >= 0 && digit <= 9 && round < rounds;
    if (!isFine) throw new Refused(`Line ${number} of the report is of no round of the maps file.`);
  }
  return round;
}

/** Lines by round, those of one round in the order of the report. */
function byRound(starts, roundsOfLines, rounds) {
  const firsts = new Uint32Array(rounds + 2);
  for (const round of roundsOfLines) firsts[round + 1]++;
  for (let round = 0; round <= rounds; round++) firsts[round + 1] += firsts[round];
  const next = firsts.slice();
  const sorted = new Uint32Array(starts.length);
  starts.forEach((start, line) => (sorted[next[roundsOfLines[line]]++] = start));
  return { starts: sorted, firsts };
}

/** A line without its line feed. */
export function lineAt(report, line) {
  const start = report.starts[line];
  const end = Math.min(endOfLine(report.bytes, start), start + MOST_LETTERS);
  return String.fromCharCode.apply(null, report.bytes.subarray(start, end));
}

/** Whether a line tells of a missed occurrence. */
export function isMissed(report, line) {
  return report.bytes[report.starts[line]] === LETTER_M;
}

/** The id of the channel of a line of grants or misses. */
export function channelOfLine({ bytes, starts }, line) {
  let at = starts[line] + 2;
  while (bytes[at] !== COMMA) at++;
  let id = 0;
  for (at++; bytes[at] >= DIGIT_0 && bytes[at] < DIGIT_0 + 10; at++) id = id * 10 + bytes[at] - DIGIT_0;
  return id;
}

/** A line of a grant or a missed occurrence, by its fields; null for others and for what has another form. */
export function rowOf(line) {
  const it = GRANT.exec(line) ?? MISSED.exec(line);
  if (!it) return null;
  const row = { round: +it[1], channel: +it[2], entry: it[3], id: +it[4], i: +it[5], k: +it[6] };
  if (it.length === MISSED_FIELDS) return { ...row, isMissed: true };
  return { ...row, sid: +it[7], iuc: +it[8], start: +it[9], slots: +it[10], credit: +it[11] };
}

/** The line of the grant that an element of a MAP is, on the channel of this id; -1 where there is none. */
export function lineOfGrant(report, round, channel, { sid, iuc, start, slots }) {
  for (let line = report.firsts[round]; line < report.firsts[round + 1]; line++) {
    const row = rowOf(lineAt(report, line));
    const isOfIt = row && !row.isMissed && row.channel === channel && row.start === start;
    if (isOfIt && row.sid === sid && row.iuc === iuc && row.slots === slots) return line;
  }
  return -1;
}

/** How many rounds, lines of grants and of misses there are, and what the U line counts; null where there is no such line. */
export function summaryOf(report, rounds) {
  let missed = 0;
  for (let line = 0; line < report.firsts[rounds]; line++) if (isMissed(report, line)) missed++;
  const last = report.starts.length > 0 ? lineAt(report, report.starts.length - 1) : "";
  const [, unknown, notRequestable, late] = /^U,(\d+),(\d+),(\d+)$/.exec(last) ?? [];
  if (late === undefined) return null;
  const granted = report.firsts[rounds] - missed;
  return { rounds, granted, missed, unknown: +unknown, notRequestable: +notRequestable, late: +late };
}
