// The page: what is put in is scheduled beside it, and what comes of it is shown. The same text runs in the worker.
import { refusalOf } from "./faults.mjs";
import { Inputs, OWN_NAME } from "./inputs.mjs";
import { hasMemory64, unpacked } from "./module.mjs";
import { counted } from "./numbers.mjs";
import { plantOf } from "./plants.mjs";
import { Results } from "./results.mjs";
import { wordsOfRun } from "./words.mjs";
import { serve, startWork } from "./work.mjs";

const WITHOUT_MEMORY =
  "This browser can't run the scheduler, which needs WebAssembly with 64-bit memory. Chrome has it from version 133 on " +
  "(tried: 156), Firefox from 134 on (tried: 153); Safari doesn't, as far as we know. A run of mapsim can be shown here all " +
  "the same: drop its configuration, maps file and report on this page.";
const WITHOUT_MODULE = "This page was made without the scheduler. A run of mapsim can be shown: drop its files here.";
const MAPS_WANTED = "A report is here. Open the maps file of the same run too.";
const REPORT_WANTED = "A maps file is here. Open the report of the same run too.";
const OTHER_CONFIG = "The configuration isn't the one of this maps file, or can't be read here: no times are told.";

class Page {
  /** `elements` are those of the page by their ids; `module` is base64 of gzip, or empty. */
  constructor(elements, examples, module) {
    this.elements = elements;
    this.program = document.getElementById("program").textContent;
    this.work = null;
    this.given = {};
    this.isStale = false;
    this.results = new Results(elements);
    this.inputs = new Inputs(elements, examples, {
      changed: (isNew) => this.onChange(isNew),
      chose: () => this.module && this.schedule(false),
      gave: (files) => this.onFiles(files),
      refused: (names) => this.say(`Nothing known is in ${names.join(", ")}.`, "warning"),
    });
    elements.schedule.addEventListener("click", () => this.schedule(true));
    elements.stop.addEventListener("click", () => this.work?.stop());
    elements.inputs.addEventListener("keydown", (event) => this.onKey(event));
    this.start(module);
  }

  /** Unpacks the scheduler where the browser can run it, and schedules the first example. */
  async start(module) {
    const hindrance = hasMemory64() ? (module ? "" : WITHOUT_MODULE) : WITHOUT_MEMORY;
    if (hindrance) {
      this.elements.schedule.disabled = true;
      return this.say(hindrance, "warning");
    }
    this.module = await unpacked(module);
    this.schedule(false);
  }

  /** Errors stay in sight while a text is mended. */
  onChange(isNew) {
    this.markStale(true);
    if (isNew) this.elements.fault.hidden = true;
  }

  /** Enter schedules from the field of rounds, and with Ctrl from everywhere. */
  onKey(event) {
    const isAsked = event.ctrlKey || event.metaKey || event.target === this.elements.rounds;
    if (event.key !== "Enter" || !isAsked) return;
    event.preventDefault();
    this.elements.schedule.click();
  }

  /** Marks whether what is shown is of other texts than those that stand there. */
  markStale(isStale) {
    this.isStale = isStale;
    this.elements.page.classList.toggle("changed", isStale && this.results.run !== null);
  }

  schedule(isAsked) {
    const { inputs } = this;
    const work = { module: this.module, config: inputs.config.bytes(), trace: inputs.trace.bytes(), rounds: inputs.rounds() };
    this.given = {};
    this.begin(work, isAsked, `Scheduling ${counted(work.rounds, "round")} ..`, ({ run, spent }, before) => {
      const time = spent < 1000 ? `${spent.toFixed(0)} ms` : `${(spent / 1000).toFixed(1)} s`;
      return `Scheduled in ${time}: ${wordsOfRun(run, before)}`;
    });
  }

  /** Files of a run that another program made are shown once both are here. */
  onFiles({ maps, report }) {
    this.given = { maps: maps ?? this.given.maps, report: report ?? this.given.report };
    if (!this.given.maps) return this.say(MAPS_WANTED, "warning");
    if (!this.given.report) return this.say(REPORT_WANTED, "warning");
    const work = { ...this.given, config: this.inputs.config.bytes() };
    this.given = {};
    this.begin(work, true, "Reading files ..", ({ run }) => {
      const counts = run.summary ? wordsOfRun(run, null) : `${counted(run.maps.rounds, "round")}.`;
      const times = run.plant ? ", with times and windows of the configuration on this page" : "";
      return `A run from elsewhere${times}: ${counts}${run.plant ? "" : ` ${OTHER_CONFIG}`}`;
    });
  }

  /** Does a piece of work, and says what came of it. What was asked for is brought into sight. */
  async begin(work, isAsked, saidFirst, saidThen) {
    this.work?.stop();
    performance.mark("begin");
    const name = work.module ? this.inputs.name : OWN_NAME;
    const own = startWork(this.program, work);
    const wasStale = this.isStale;
    this.work = own;
    this.isStale = false;
    this.busy(true);
    this.say(saidFirst, "");
    const answer = await own.done;
    if (this.work !== own) return;
    this.work = null;
    this.busy(false);
    if (!answer.run) this.markStale(this.isStale || wasStale);
    if (answer.isStopped) return this.say("Stopped: nothing new is shown.", "");
    if (!answer.run) return this.refuse(answer);
    const before = this.results.show(answer.run, name, isAsked);
    this.markStale(this.isStale);
    this.say(saidThen(answer, before), "");
    requestAnimationFrame(() => performance.measure("first picture", "begin"));
  }

  busy(isBusy) {
    this.elements.progress.hidden = !isBusy;
    this.elements.stop.disabled = !isBusy;
    this.elements.schedule.disabled = isBusy || !this.module;
  }

  say(text, kind) {
    this.elements.status.textContent = text;
    this.elements.status.className = kind;
    this.elements.fault.hidden = true;
  }

  /** Shows a fault in the program's words, with what is wrong in the texts; or why files can't be shown. */
  refuse({ fault, findings, refused }) {
    const { elements, inputs } = this;
    if (!fault) return this.say(refused, "warning");
    const refusal = refusalOf(fault, findings, plantOf(elements.config.value)?.roundTicks);
    const sources = { configuration: inputs.config, trace: inputs.trace };
    this.say("", "");
    elements.fault.hidden = false;
    elements.faultSaid.textContent = refusal.said;
    elements.faultLine.textContent = fault;
    elements.findings.replaceChildren(...refusal.findings.map((finding) => itemOf(finding, sources[finding.text])));
    elements.findings.scrollTop = 0;
    elements.moreFindings.textContent = refusal.more > 0 ? `Not listed: ${counted(refusal.more, "more error")}.` : "";
  }
}

/** A finding as an item of a list, with a button that goes to its place in its text. */
function itemOf({ text, line, column, code, said }, source) {
  const item = document.createElement("li");
  const button = item.appendChild(document.createElement("button"));
  button.textContent = `Line ${line}`;
  button.setAttribute("aria-label", `Line ${line} of the ${text}`);
  button.addEventListener("click", () => source.goTo(line, column));
  item.append(` ${said} (${code})`);
  return item;
}

/** All elements of the page that have an id, by it. */
function elementsById() {
  return Object.fromEntries([...document.querySelectorAll("[id]")].map((element) => [element.id, element]));
}

if (typeof document === "undefined") serve();
else new Page(elementsById(), EXAMPLES, MODULE);
