// Work beside the page, which stays at hand meanwhile: a worker runs the same text as the page, does one piece of work, and
// is ended, which gives all its memory back.
import { Refused } from "./numbers.mjs";
import { scheduled } from "./module.mjs";
import { buffersOf, runOf } from "./runs.mjs";

/** Has a worker do the one piece of work that the page sends it. */
export function serve() {
  onmessage = async ({ data }) => {
    try {
      const { answer, run } = await resultOf(data);
      postMessage(answer, run ? buffersOf(run) : []);
    } catch (error) {
      const isOurs = error instanceof Refused;
      postMessage({ refused: isOurs ? error.message : `The work stopped: ${error.message}. Nothing of it is shown.` });
    }
  };
}

/** What a piece of work comes to: a fault, or a run and the milliseconds that scheduling took. */
async function resultOf({ module, config, trace, rounds, maps, report }) {
  const began = performance.now();
  const made = module ? await scheduled(module, config, trace, rounds) : { maps, report };
  const spent = performance.now() - began;
  if (made.fault) return { answer: made };
  const run = runOf(config, made.maps, made.report);
  return { answer: { run, spent }, run };
}

/**
 * Starts a piece of work: { module, config, trace, rounds } is scheduled, { config, maps, report } is read.
 * Answers { done, stop }: `done` is a promise of { run, spent } with milliseconds, { fault, findings } as of module.mjs,
 * { refused } or { isStopped }.
 */
export function startWork(program, work) {
  const url = URL.createObjectURL(new Blob([program], { type: "text/javascript" }));
  const worker = new Worker(url);
  let stop;
  const done = new Promise((resolve) => {
    const end = (answer) => {
      worker.terminate();
      URL.revokeObjectURL(url);
      resolve(answer);
    };
    worker.onmessage = ({ data }) => end(data);
    worker.onerror = (event) => end({ refused: `The work stopped: ${event.message}` });
    stop = () => end({ isStopped: true });
    worker.postMessage(work);
  });
  return { done, stop };
}
