// What an element of a MAP is, and its colour: those of tools/draw-maps.

const BROADCAST = 0x3fff;
const NO_SID = 0;

/** The kinds of elements by their names, in the order of the legend: in words, and whether words stand on it in white. */
export const KINDS = {
  request: { name: "Request region, for any modem" },
  initial: { name: "Initial maintenance" },
  station: { name: "Station maintenance", isDark: true },
  unsolicited: { name: "Unsolicited grant" },
  poll: { name: "Poll, a request region of one SID", isDark: true },
  short: { name: "Requested grant, short" },
  long: { name: "Requested grant, long" },
  idle: { name: "Idle: too short for a request" },
  other: { name: "Another IUC" },
  pending: { name: "Pending: no grant yet" },
  missed: { name: "Missed: not granted in its window" },
  fullest: { name: "Fullest round, where many are drawn as one" },
};

const COLOURS = {
  request: "#dde5ee",
  initial: "#c9b3e0",
  station: "#8a63b8",
  unsolicited: "#f4a63a",
  poll: "#e4573d",
  short: "#6fc29b",
  long: "#5b9fd6",
  idle: "#ffffff",
  other: "#bbbbbb",
  pending: "#fff3bf",
  missed: "#b0004a",
  fullest: "#b4c2d3",
};

/** Colours of a light page and of saved pictures. Words on elements have the colour `label`. */
export const LIGHT = {
  paper: "#ffffff", ink: "#1c2630", faint: "#5a6470", grid: "#e3e7eb", border: "#8a94a0", label: "#1c2630", ...COLOURS,
};

/** Colours of a dark page: what is nobody's is dark, and grants have the colours of a light one. */
export const DARK = {
  ...LIGHT, paper: "#14191f", ink: "#e8edf2", faint: "#a3afbb", grid: "#2b343d", border: "#76828e", request: "#2c3844",
  initial: "#4f3d68", idle: "#14191f", missed: "#ff6f9f", fullest: "#4d6072",
};

const KIND_OF_IUC = { 3: "initial", 4: "station", 9: "short", 10: "long", 11: "unsolicited" };

/** What an element before the Null is. */
export function kindOf(sid, iuc) {
  if (iuc !== 1) return KIND_OF_IUC[iuc] ?? "other";
  if (sid === BROADCAST) return "request";
  return sid === NO_SID ? "idle" : "poll";
}

/** Whether an element of this kind is nobody's grant: a region for any modem, or one that is too short. */
export function isFree(kind) {
  return kind === "request" || kind === "initial" || kind === "idle";
}
