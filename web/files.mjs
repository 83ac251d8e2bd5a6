// Files that are dropped on the page, told apart by what they have in them: their names say nothing.

const FIRST_BYTES = 4096;
const TRACE = /^\ufeff?[\r\n]*"?tick"?,/;
const REPORT = /^[GMFAU],[0-9]/;
const KEY = /^[ \t]*(?:\[\[|["'A-Za-z_-][\w."' \t-]*=)/m;

/** What a file is: "maps", "report", "trace" or "config"; null where it is none of them. */
export function sortOf(bytes) {
  const start = new TextDecoder().decode(bytes.subarray(0, FIRST_BYTES));
  if (REPORT.test(start)) return "report";
  if (TRACE.test(start)) return "trace";
  if (beginsAsMaps(bytes)) return "maps";
  return start.includes("\0") || !KEY.test(start) ? null : "config";
}

/** Whether the first record is of round 0 and has a MAP; a file that ends in it is one too, so that a fault is told. */
function beginsAsMaps(bytes) {
  const elements = bytes[8];
  return bytes.length > 0 && bytes.subarray(0, 4).every((it) => it === 0) && bytes[5] + 256 * bytes[4] === 16 + 4 * elements;
}
