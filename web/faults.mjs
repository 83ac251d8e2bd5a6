// Why nothing was scheduled, in words.
import { counted, grouped } from "./numbers.mjs";

const MOST_TICKS = 67108864;
const TEXTS = { C: "configuration", TR: "trace" };
const FINDING = /^(\d+):(\d+): error (([A-Z]+)\d+): (.*)$/;
const MORE = /^(\d+) more errors?$/m;

/**
 * A fault's line, such as `fault C3 flow 0`, and the lines of the texts' errors, as `scheduled` of module.mjs has them:
 * { said, findings, more }. `said` is a sentence. A finding is { text, line, column, code, said }: which of the two texts it is
 * of, "configuration" or "trace", and where, counted from 1. `more` is how many others there are.
 */
export function refusalOf(fault, findings, roundTicks) {
  const own = sentenceOf(fault, roundTicks);
  if (own) return { said: `Not scheduled: ${own}`, findings: [], more: 0 };
  const found = findings.split("\n").map(findingOf).filter((it) => it !== null);
  const more = Number(MORE.exec(findings)?.[1] ?? 0);
  const where = found.length > 0 ? `: ${counted(found.length + more, "error")} in the ${found[0].text}` : "";
  return { said: `Not scheduled${where}.`, findings: found, more };
}

/** What is wrong where it isn't in the texts; empty for other faults. */
function sentenceOf(fault, roundTicks) {
  if (fault === "fault memory") return "memory ran out.";
  if (fault !== "fault RU1") return "";
  const ticks = `a run has at most ${grouped(MOST_TICKS)} ticks`;
  if (!roundTicks) return `no rounds, or too many: ${ticks}.`;
  return `1 to ${grouped(Math.floor(MOST_TICKS / roundTicks))} rounds are wanted: ${ticks}, and a round ${roundTicks}.`;
}

function findingOf(line) {
  const [, row, column, code, sort, said] = FINDING.exec(line) ?? [];
  return TEXTS[sort] ? { text: TEXTS[sort], line: Number(row), column: Number(column), code, said } : null;
}
