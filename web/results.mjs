// What is shown of a run: the time line, what is chosen in words, the report and the MAPs as text, and files to save.
import { missedInAll } from "./fills.mjs";
import { OWN_NAME } from "./inputs.mjs";
import { DARK, KINDS, LIGHT } from "./kinds.mjs";
import { dumpLineOf, placeOfDumpLine, placeOfReportLine, reportLineOf, wordsOfPlace } from "./places.mjs";
import { pictureOf } from "./svg.mjs";
import { TextList, dumpLines, reportLines } from "./texts.mjs";
import { TimeLine } from "./timeline.mjs";
import { roundsIn } from "./views.mjs";
import { titleOf } from "./words.mjs";

const HINT = "Point at a grant, or press N, and it is told here in words.";

/** The results in these elements of the page. */
export class Results {
  constructor(elements) {
    this.elements = elements;
    this.run = null;
    const dark = matchMedia("(prefers-color-scheme: dark)");
    this.theme = () => (dark.matches ? DARK : LIGHT);
    this.line = new TimeLine(elements.timeline, elements.canvas, {
      theme: this.theme,
      changed: (view) => this.showView(view),
      chose: (place, how) => this.showChosen(place, how),
      hovered: (place) => this.showWords(place ?? this.line.place),
    });
    this.report = new TextList(elements.report, (line) => this.line.goTo(placeOfReportLine(this.run, line), "pointer"));
    this.dump = new TextList(elements.dump, (line) => this.line.goTo(placeOfDumpLine(this.run, line), "pointer"));
    dark.addEventListener("change", () => this.showTheme());
    this.showTheme();
    this.listen();
  }

  listen() {
    const { line, elements } = this;
    const acts = {
      zoomIn: () => line.zoom(1 / 2),
      zoomOut: () => line.zoom(2),
      zoomAll: () => line.showAll(),
      previous: () => line.goToGrant(-1),
      next: () => line.goToGrant(1),
      nextMissed: () => line.goToMiss(1),
      saveMaps: () => save(`${this.name}.maps`, this.run.maps.bytes, "application/octet-stream"),
      saveReport: () => save(`${this.name}.report`, this.run.report.bytes, "text/plain"),
      savePicture: () => save(`${this.name}.svg`, pictureOf(this.run, line.view, this.name), "image/svg+xml"),
    };
    for (const [id, act] of Object.entries(acts)) elements[id].addEventListener("click", () => this.run && act());
  }

  /**
   * Shows a run, with a name for its files, and brings it into sight where it was asked for. Answers the run before where this
   * one is shown as that one with other texts; else null.
   */
  show(run, name, isAsked) {
    const before = this.run;
    const isKept = name === OWN_NAME && before !== null && areAlike(before.maps, run.maps);
    this.run = run;
    this.name = name;
    this.elements.results.hidden = false;
    this.elements.nextMissed.disabled = missedInAll(run) === 0;
    this.line.show(run, isKept);
    this.showChosen(null, "pointer");
    const isBelow = this.elements.timeline.getBoundingClientRect().top > innerHeight;
    if (isAsked && isBelow) this.elements.results.scrollIntoView();
    return isKept ? before : null;
  }

  showTheme() {
    const theme = this.theme();
    this.elements.legend.replaceChildren(...Object.entries(KINDS).map(([kind, { name }]) => entryOf(theme, kind, name)));
    this.line.ask();
  }

  showView(view) {
    const rounds = roundsIn(view, this.run.maps.rounds);
    const { place } = this.line;
    this.elements.title.textContent = titleOf(this.run, rounds.first, rounds.end);
    this.report.show(reportLines(this.run, rounds), place ? reportLineOf(this.run, place) : -1);
    this.dump.show(dumpLines(this.run, rounds), place ? dumpLineOf(this.run, place) : -1);
  }

  /** Shows what is chosen; what keys chose is also spoken. */
  showChosen(place, how) {
    this.showWords(place);
    if (how === "keys") this.elements.spoken.textContent = wordsOfPlace(this.run, place).slice(0, 2).join(" ");
  }

  showWords(place) {
    const words = place ? wordsOfPlace(this.run, place) : [HINT];
    this.elements.words.replaceChildren(...words.map((text, at) => paragraph(text, at)));
  }
}

/** Whether two runs have as many rounds and the same channels, so that one can be seen where the other one was. */
function areAlike(one, other) {
  const ids = (maps) => maps.channels.map((channel) => channel.id).join();
  return one.rounds === other.rounds && ids(one) === ids(other);
}

function paragraph(text, at) {
  const part = document.createElement("p");
  part.textContent = text;
  if (/^[GM],\d/.test(text)) part.className = "row";
  else if (at === 0) part.className = text === HINT ? "hint" : "first";
  return part;
}

function entryOf(theme, kind, name) {
  const entry = document.createElement("li");
  const colour = entry.appendChild(document.createElement("span"));
  colour.style.background = theme[kind];
  colour.className = kind;
  entry.append(name);
  return entry;
}

/** Has the browser save a file. */
function save(name, content, type) {
  const link = document.createElement("a");
  link.href = URL.createObjectURL(new Blob([content], { type }));
  link.download = name;
  link.click();
  setTimeout(() => URL.revokeObjectURL(link.href), 1000);
}
