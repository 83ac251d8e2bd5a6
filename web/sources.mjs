// The two texts that are scheduled, as they stand in the page.
import { grouped } from "./numbers.mjs";

// more letters than this make an area of text slow
const MOST_LETTERS = 1000000;
const LETTERS_SHOWN = 4000;
// above a line that is gone to
const LINES_ABOVE = 3;
// how wide a letter is, as a part of the size of its font
const LETTER = 0.6;

/** An area with a text. A file that was opened counts byte by byte until its text is edited. */
export class Source {
  /** `changed` is called when the text is edited. */
  constructor(area, changed) {
    this.area = area;
    this.file = null;
    area.addEventListener("input", () => {
      this.file = null;
      changed();
    });
  }

  /** Shows a text. */
  showText(text) {
    this.area.value = text;
    this.area.readOnly = false;
    this.file = null;
  }

  /** Shows a file, of which only the beginning is shown where it is long; then it can't be edited. */
  showFile(bytes) {
    const isLong = bytes.length > MOST_LETTERS;
    const text = new TextDecoder().decode(isLong ? bytes.subarray(0, LETTERS_SHOWN) : bytes);
    this.showText(isLong ? `${text}\n\n.. ${grouped(bytes.length)} bytes, too many to edit here` : text);
    this.area.readOnly = isLong;
    this.file = bytes;
  }

  /** The text as bytes. */
  bytes() {
    return this.file ?? new TextEncoder().encode(this.area.value);
  }

  /** Goes to a line and a column, counted from 1, and marks what stands there. */
  goTo(line, column) {
    const { area, file } = this;
    const text = file ? new TextDecoder("utf-8", { ignoreBOM: true }).decode(file) : area.value;
    const [start, end] = spanIn(text, line, column).map((at) => asShown(text.slice(0, at)).length);
    const above = area.value.slice(0, start).split("\n");
    area.focus();
    area.setSelectionRange(start, end);
    area.scrollTop = (area.scrollHeight * (above.length - LINES_ABOVE)) / area.value.split("\n").length;
    area.scrollLeft = above.at(-1).length * parseFloat(getComputedStyle(area).fontSize) * LETTER - area.clientWidth / 2;
  }
}

/** A text as an area of text has it. */
function asShown(text) {
  return text.replace(/^\ufeff/, "").replace(/\r\n?/g, "\n");
}

/**
 * From where to where the rest of a line stands in a text, from a column on: all of the line where there is no rest. Both are
 * counted from 1; a line ends with its line feed, and a column is a character, however long.
 */
export function spanIn(text, line, column) {
  const lines = text.split("\n");
  const start = lines.slice(0, line - 1).reduce((length, it) => length + it.length + 1, 0);
  const own = (lines[line - 1] ?? "").trimEnd();
  const before = [...own].slice(0, column - 1).join("").length;
  return [start + (before < own.length ? before : 0), start + own.length];
}
