// Long texts as lines of which only those that are seen stand in the page.
import { dumpedLine, elementsBefore } from "./maps.mjs";
import { firstWhere, grouped } from "./numbers.mjs";
import { lineAt } from "./reports.mjs";

const LINE_PIXELS = 18;
// browsers bound how high an element can be
const MOST_LINES = 400000;

/** The lines of the report of some rounds, and the final lines after the last round. */
export function reportLines({ report, maps }, { first, end }) {
  const begin = report.firsts[first];
  const count = report.firsts[end === maps.rounds ? end + 1 : end] - begin;
  return { begin, count, lineAt: (line) => lineAt(report, line) };
}

/** The MAPs of some rounds as lines of `mapsim dump`. */
export function dumpLines({ maps }, { first, end }) {
  const records = maps.channels.length;
  const begin = elementsBefore(maps, first * records);
  const textAt = (line) => {
    const record = firstWhere(maps.starts.length, (at) => elementsBefore(maps, at + 1) > line);
    return dumpedLine(maps, record, line - elementsBefore(maps, record));
  };
  return { begin, count: elementsBefore(maps, end * records) - begin, lineAt: textAt };
}

/** A box that shows lines, which are counted through the whole run. */
export class TextList {
  /** `box` scrolls; `choose` is called with the number of a line that is clicked. */
  constructor(box, choose) {
    this.box = box;
    this.lines = { begin: 0, count: 0, lineAt: () => "" };
    Object.assign(this, { chosen: -1, shown: 0, high: 0, top: 0 });
    this.room = box.appendChild(document.createElement("div"));
    this.seen = this.room.appendChild(document.createElement("div"));
    this.room.className = "room";
    this.seen.className = "seen";
    // where the box is scrolled to is kept, since asking for it has the browser lay the page out
    box.addEventListener("scroll", () => {
      this.top = box.scrollTop;
      this.draw();
    });
    this.seen.addEventListener("click", ({ target }) => target.dataset.line && choose(Number(target.dataset.line)));
    new ResizeObserver(() => {
      this.high = box.clientHeight;
      this.draw();
    }).observe(box);
  }

  /** Shows these lines with one that is chosen, or -1. It goes to the chosen one where that is new, or the lines are. */
  show(lines, chosen) {
    const isNew = lines.begin !== this.lines.begin || lines.count !== this.lines.count;
    const isChosenNew = chosen !== this.chosen;
    Object.assign(this, { lines, chosen, shown: Math.min(lines.count, MOST_LINES) });
    if (isNew) this.room.style.height = `${(this.shown + (this.shown < lines.count)) * LINE_PIXELS}px`;
    if (isNew || isChosenNew) this.goTo(chosen - lines.begin, isNew);
    this.draw();
  }

  /** Goes to a line of those that are shown, counted from 0; to the first one where it is none and the lines are new. */
  goTo(line, isNew) {
    const isHere = line >= 0 && line < this.shown;
    const top = line * LINE_PIXELS;
    const isSeen = top >= this.top && top + LINE_PIXELS <= this.top + this.high;
    if (isHere && !isSeen) this.scrollTo(Math.max(0, top - this.high / 3));
    else if (!isHere && isNew && this.top > 0) this.scrollTo(0);
  }

  scrollTo(top) {
    this.box.scrollTop = top;
    this.top = this.box.scrollTop;
  }

  draw() {
    const first = Math.floor(this.top / LINE_PIXELS);
    const end = Math.min(first + Math.ceil(this.high / LINE_PIXELS) + 1, this.shown);
    const parts = [];
    for (let at = first; at < end; at++) parts.push(this.lineOf(this.lines.begin + at));
    const rest = this.lines.count - this.shown;
    if (rest > 0 && end === this.shown) parts.push(note(`${grouped(rest)} more lines: zoom in to see them`));
    if (this.lines.count === 0) parts.push(note("no line"));
    this.seen.style.transform = `translateY(${first * LINE_PIXELS}px)`;
    this.seen.replaceChildren(...parts);
  }

  lineOf(line) {
    const part = document.createElement("div");
    part.textContent = this.lines.lineAt(line);
    part.dataset.line = line;
    if (line === this.chosen) part.className = "chosen";
    return part;
  }
}

function note(text) {
  const part = document.createElement("div");
  part.textContent = text;
  part.className = "note";
  return part;
}
