// What is put in: an example, the two texts, rounds, and files that are opened or dropped.
import { sortOf } from "./files.mjs";
import { Source } from "./sources.mjs";

/** The name of a run that is no example's. */
export const OWN_NAME = "run";

const MOST_ROUNDS = 0xffffffff;

/** The inputs of the page, in these elements of it. */
export class Inputs {
  /**
   * `changed` is called when something is put in, with whether that is another text, not an edited one; then `chose` where it
   * was chosen in the list. `gave` is called with files of a run from elsewhere: { maps, report }, each bytes or missing, and
   * `refused` with the names of files that are nothing known.
   */
  constructor(elements, examples, { changed, chose, gave, refused }) {
    Object.assign(this, { elements, examples, changed, gave, refused });
    this.name = OWN_NAME;
    this.config = new Source(elements.config, () => this.own(false));
    this.trace = new Source(elements.trace, () => this.own(false));
    elements.rounds.addEventListener("input", () => changed(false));
    elements.examples.append(...examples.map(({ name, said }, place) => new Option(`${name}: ${said}`, place)));
    elements.examples.addEventListener("change", () => {
      this.choose(elements.examples.value);
      chose();
    });
    elements.open.addEventListener("change", () => this.take([...elements.open.files]));
    takeDrops((files) => this.take(files));
    this.showExample(examples[0]);
  }

  /** Shows an example by its place in the list, or the own texts again, which are kept meanwhile. */
  choose(place) {
    const { config, trace, elements } = this;
    if (this.name === OWN_NAME) this.kept = { config: config.bytes(), trace: trace.bytes(), rounds: elements.rounds.value };
    if (place !== "") return this.showExample(this.examples[place]);
    config.showFile(this.kept.config);
    trace.showFile(this.kept.trace);
    elements.rounds.value = this.kept.rounds;
    this.own(true);
  }

  showExample(example) {
    if (!example) return;
    this.name = example.name;
    this.elements.examples.value = this.examples.indexOf(example);
    this.config.showText(example.config);
    this.trace.showText(example.trace);
    this.elements.rounds.value = example.rounds;
    this.changed(true);
  }

  /** The texts are no example's now. */
  own(isNew) {
    this.name = OWN_NAME;
    this.elements.ownTexts.hidden = false;
    this.elements.examples.value = "";
    this.changed(isNew);
  }

  /** How many rounds are asked for; 0 for what is no number, which the program refuses. */
  rounds() {
    const rounds = Math.floor(Number(this.elements.rounds.value));
    return rounds >= 0 ? Math.min(rounds, MOST_ROUNDS) : 0;
  }

  /** Takes files, by what is in them. */
  async take(files) {
    const given = {};
    const unknown = [];
    for (const file of files) {
      const bytes = await bytesOf(file);
      const sort = bytes && sortOf(bytes);
      if (sort) given[sort] = bytes;
      else unknown.push(file.name);
    }
    if (given.config) this.config.showFile(given.config);
    if (given.trace) this.trace.showFile(given.trace);
    if (given.config || given.trace) this.own(true);
    if (given.maps || given.report) this.gave(given);
    if (unknown.length > 0) this.refused(unknown);
    this.elements.open.value = "";
  }
}

/** The bytes of a file; null for what can't be read, such as a folder. */
async function bytesOf(file) {
  try {
    return new Uint8Array(await file.arrayBuffer());
  } catch {
    return null;
  }
}

/** Takes files that are dropped anywhere on the page. Text that is dragged into a text stays the browser's. */
function takeDrops(take) {
  const mark = (isOver) => document.body.classList.toggle("over", isOver);
  const hasFiles = (event) => event.dataTransfer.types.includes("Files");
  document.addEventListener("dragover", (event) => {
    if (!hasFiles(event)) return;
    event.preventDefault();
    mark(true);
  });
  document.addEventListener("dragleave", (event) => event.relatedTarget ?? mark(false));
  document.addEventListener("drop", (event) => {
    if (!hasFiles(event)) return;
    event.preventDefault();
    mark(false);
    take([...event.dataTransfer.files]);
  });
}
