// Numbers in words, and why a file can't be shown.

/** Nanoseconds of a tick, 6.25 microseconds. Times are whole nanoseconds from the start of the run. */
export const NANOSECONDS_PER_TICK = 6250;

/** Why a file can't be shown, as a sentence for its user. */
export class Refused extends Error {}

/** A whole number with commas: 26144 is "26,144". */
export function grouped(number) {
  return String(number).replace(/\B(?=(\d{3})+$)/g, ",");
}

/** A time in nanoseconds as milliseconds, to the nanosecond: 4002512500 is "4,002.5125". */
export function milliseconds(nanoseconds) {
  const [whole, part] = String(nanoseconds / 1e6).split(".");
  return part ? `${grouped(whole)}.${part}` : grouped(whole);
}

/** A number and its noun: "1 byte", "2,000 bytes". */
export function counted(number, noun) {
  return `${grouped(number)} ${noun}${number === 1 ? "" : "s"}`;
}

/** A length in pixels with at most two decimals. */
export function pixels(length) {
  return String(Math.round(length * 100) / 100);
}

/** The first of `count` numbers, counted from 0, for which `holds` is true; it is false before and true from there on. */
export function firstWhere(count, holds) {
  let low = 0;
  let high = count;
  while (low < high) {
    const middle = (low + high) >>> 1;
    if (holds(middle)) high = middle;
    else low = middle + 1;
  }
  return low;
}

/** The least of 1, 2 and 5 times a power of ten that is at least `least`, which is above 0. */
export function roundStep(least) {
  const power = 10 ** Math.floor(Math.log10(least));
  return [1, 2, 5, 10].map((factor) => factor * power).find((step) => step >= least * 0.999999);
}
