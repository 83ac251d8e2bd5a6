// A view is the part of a run that is seen: its first round and how many rounds wide it is, both with fractions.

const LEAST_WIDE = 1 / 64;
// what is gone to is seen where it is so far from the ends of the view, as a part of it
const MARGIN = 0.1;

/** All rounds. */
export function wholeView(rounds) {
  return { first: 0, wide: rounds };
}

/** A view as near to this one as the run allows. */
export function withinRun(view, rounds) {
  const wide = Math.min(Math.max(view.wide, LEAST_WIDE), rounds);
  return { first: Math.min(Math.max(view.first, 0), rounds - wide), wide };
}

/** A view that is `factor` times as wide, with the same part of it left of the time `at`, in rounds. */
export function zoomed(view, factor, at, rounds) {
  const wide = Math.min(Math.max(view.wide * factor, LEAST_WIDE), rounds);
  return withinRun({ first: at - ((at - view.first) * wide) / view.wide, wide }, rounds);
}

/** A view that begins so many rounds later. */
export function panned(view, by, rounds) {
  return withinRun({ first: view.first + by, wide: view.wide }, rounds);
}

/** A view that has the time from `from` to `to`, in rounds: this one where it has, else one of the same or another width. */
export function showing(view, from, to, rounds, widest) {
  const wide = Math.max(Math.min(view.wide, widest), to - from);
  const margin = MARGIN * wide;
  const isSeen = wide === view.wide && view.first + margin <= from && to <= view.first + view.wide - margin;
  return isSeen ? view : withinRun({ first: (from + to - wide) / 2, wide }, rounds);
}

/** The first round in view, and the first one after it. */
export function roundsIn(view, rounds) {
  return { first: Math.floor(view.first), end: Math.min(Math.ceil(view.first + view.wide), rounds) };
}
